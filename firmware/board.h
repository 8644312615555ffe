/* What a board gives: a place for output, and an end. */
#ifndef BOARD_H
#define BOARD_H

void board_put(char byte);
_Noreturn void board_end(int status);

#endif
