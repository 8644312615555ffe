/* printf on the board's UART: %s, %u, %d, %x with a width, a leading 0 and l. */
#ifndef FIRMWARE_STDIO_H
#define FIRMWARE_STDIO_H

__attribute__((format(printf, 1, 2))) int printf(const char *format, ...);

#endif
