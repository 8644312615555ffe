/* Ends the run on the board. */
#ifndef FIRMWARE_STDLIB_H
#define FIRMWARE_STDLIB_H

_Noreturn void exit(int status);

#endif
