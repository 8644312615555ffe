/* qemu's board 'virt': an ns16550 UART, and the device that ends the run. */
#include "board.h"

#include <stdint.h>

static volatile uint8_t *const uart = (volatile uint8_t *)0x10000000;
enum { UART_DATA = 0, UART_LINE_STATUS = 5, UART_READY = 0x20, UART_ALL_SENT = 0x40 };

static volatile uint32_t *const finisher = (volatile uint32_t *)0x100000;
enum { FINISHER_PASS = 0x5555, FINISHER_FAIL = 0x3333 };

void board_put(char byte)
{
    while (!(uart[UART_LINE_STATUS] & UART_READY))
        ;
    uart[UART_DATA] = (uint8_t)byte;
}

void board_end(int status)
{
    while (!(uart[UART_LINE_STATUS] & UART_ALL_SENT))
        ;
    *finisher = status ? FINISHER_FAIL | (uint32_t)status << 16 : FINISHER_PASS;
    for (;;)
        ;
}
