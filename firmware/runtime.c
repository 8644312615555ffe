/* printf and exit for a program on the bare board, and the report of a trap. */
#include "board.h"

#include <stdarg.h>
#include <stdint.h>
#include <stdio.h>
#include <stdlib.h>

void exit(int status)
{
    board_end(status);
}

_Noreturn void trapped(uint64_t cause, uint64_t place, uint64_t value)
{
    printf("trap: mcause 0x%lx, mepc 0x%lx, mtval 0x%lx\n", cause, place, value);
    board_end(1);
}

static void put_text(const char *text)
{
    while (*text)
        board_put(*text++);
}

static void put_number(uint64_t number, unsigned base, int width, char fill)
{
    char digits[20];
    int count = 0;
    do {
        digits[count++] = "0123456789abcdef"[number % base];
        number /= base;
    } while (number);
    for (; width > count; width--)
        board_put(fill);
    while (count > 0)
        board_put(digits[--count]);
}

/* What stands between '%' and the letter that ends a conversion. */
struct conversion {
    char fill, letter;
    int width, is_long;
};

static const char *read_conversion(const char *format, struct conversion *c)
{
    *c = (struct conversion){.fill = *format == '0' ? '0' : ' '};
    for (; *format >= '0' && *format <= '9'; format++)
        c->width = 10 * c->width + (*format - '0');
    for (; *format == 'l'; format++)
        c->is_long = 1;
    c->letter = *format;
    return format;
}

static void put_signed(int number)
{
    if (number < 0)
        board_put('-');
    put_number(number < 0 ? -(uint64_t)number : (uint64_t)number, 10, 0, ' ');
}

int printf(const char *format, ...)
{
    struct conversion c;
    va_list arguments;
    va_start(arguments, format);
    for (; *format; format++) {
        if (*format != '%') {
            board_put(*format);
            continue;
        }
        format = read_conversion(format + 1, &c);
        if (c.letter == 's')
            put_text(va_arg(arguments, const char *));
        else if (c.letter == 'd')
            put_signed(va_arg(arguments, int));
        else
            put_number(c.is_long ? va_arg(arguments, uint64_t) : va_arg(arguments, unsigned),
                       c.letter == 'x' ? 16 : 10, c.width, c.fill);
    }
    va_end(arguments);
    return 0;
}
