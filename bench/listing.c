/*
 * The listing program in plain C: answers the lines of its standard input on
 * one bandwidth controller, which plain.c has. It is the measure of the proved
 * program, and prints the same bytes.
 */
#define _POSIX_C_SOURCE 200809L
#include "interface.h"

#include <errno.h>
#include <stdbool.h>
#include <stdlib.h>
#include <string.h>
#include <unistd.h>

enum { LONGEST_LINE = 80, LONGEST_ANSWER = 32, BUFFER = 1 << 16 };

static struct bandwidth_buffers controller;
static bool set_up; /* an s was accepted */

static char answers[BUFFER];
static size_t answered;

/* Output */

static void write_answers(void)
{
    for (size_t done = 0; done < answered;) {
        ssize_t count = write(STDOUT_FILENO, answers + done, answered - done);
        if (count < 0 && errno != EINTR)
            exit(1);
        done += count < 0 ? 0 : (size_t)count;
    }
    answered = 0;
}

static void put_text(const char *text, size_t length)
{
    memcpy(answers + answered, text, length);
    answered += length;
}

static void put_hexadecimal(uint64_t value)
{
    char *digits = answers + answered;
    for (int i = 15; i >= 0; i--, value >>= 4)
        digits[i] = "0123456789abcdef"[value & 15];
    digits[16] = '\n';
    answered += 17;
}

static void put_decimal(uint64_t value, char after)
{
    char digits[20];
    size_t first = sizeof digits;
    do
        digits[--first] = (char)('0' + value % 10);
    while (value /= 10);
    put_text(digits + first, sizeof digits - first);
    answers[answered++] = after;
}

static void put_bad(void)
{
    put_text("bad\n", 4);
}

static void put_refusal(uint64_t number)
{
    put_text("no ", 3);
    put_decimal(number, '\n');
}

static void put_done(uint64_t refusal)
{
    if (refusal)
        put_refusal(refusal);
    else
        put_text("ok\n", 3);
}

/* Numbers: each takes a space and the digits after it. */

struct text {
    const uint8_t *at, *end;
};

static bool take_space(struct text *t)
{
    return t->at < t->end && *t->at++ == ' ';
}

static bool take_decimal(struct text *t, uint64_t *number)
{
    uint64_t value = 0;
    if (!take_space(t))
        return false;
    const uint8_t *first = t->at;
    for (; t->at < t->end && *t->at != ' '; t->at++) {
        unsigned digit = *t->at - (unsigned)'0';
        if (digit > 9 || value > UINT64_MAX / 10 || (value == UINT64_MAX / 10 && digit > 5))
            return false;
        value = 10 * value + digit;
    }
    *number = value;
    return t->at > first;
}

static unsigned hexadecimal_digit(uint8_t byte)
{
    unsigned digit = byte - (unsigned)'0', letter = (byte | 0x20) - (unsigned)'a';
    if (digit <= 9)
        return digit;
    return letter <= 5 ? letter + 10 : 16;
}

static bool take_hexadecimal(struct text *t, uint64_t *number)
{
    uint64_t value = 0;
    if (!take_space(t))
        return false;
    const uint8_t *first = t->at;
    for (; t->at < t->end && *t->at != ' '; t->at++) {
        unsigned digit = hexadecimal_digit(*t->at);
        if (digit > 15 || value >> 60)
            return false;
        value = value << 4 | digit;
    }
    *number = value;
    return t->at > first;
}

static bool take_decimals(struct text *t, uint64_t *numbers, int count)
{
    for (int i = 0; i < count; i++)
        if (!take_decimal(t, &numbers[i]))
            return false;
    return t->at == t->end;
}

/* Lines: each takes what stands after the letter. */

static void answer_s(struct text *t)
{
    uint64_t n[7];
    struct bandwidth_buffers *c = &controller;
    if (!take_decimals(t, n, 7)) {
        put_bad();
        return;
    }
    uint64_t settings = 4 * n[2] * n[3];
    uint64_t refusal = plain_bandwidth_reset(
        n[0], n[1], n[2], n[3], n[4], n[5], n[6], c->record, sizeof c->record,
        (uint8_t *)c->active, settings, (uint8_t *)c->configured, settings, (uint8_t *)c->used,
        settings, (uint8_t *)c->counters, 8 * n[4], (uint8_t *)c->events, 2 * n[4],
        (uint8_t *)c->waiters, 8 * n[2]);
    if (!refusal) {
        bandwidth_lengths(c, n[2], n[3], n[4]);
        set_up = true;
    }
    put_done(refusal);
}

static void answer_w(struct text *t)
{
    uint64_t size, offset, value;
    if (!take_decimal(t, &size) || !take_hexadecimal(t, &offset) ||
        !take_hexadecimal(t, &value) || t->at < t->end || !set_up) {
        put_bad();
        return;
    }
    put_done(plain_bandwidth_write(BANDWIDTH_OF(&controller), size, offset, value));
}

static void answer_r(struct text *t)
{
    uint64_t size, offset, value;
    if (!take_decimal(t, &size) || !take_hexadecimal(t, &offset) || t->at < t->end || !set_up) {
        put_bad();
        return;
    }
    uint64_t refusal = plain_bandwidth_read(BANDWIDTH_OF(&controller), size, offset, &value);
    if (refusal)
        put_refusal(refusal);
    else
        put_hexadecimal(value);
}

static void answer_q(struct text *t)
{
    uint64_t n[5], reserved, pool;
    if (!take_decimals(t, n, 5) || n[3] > 1 || n[4] > UINT32_MAX || !set_up) {
        put_bad();
        return;
    }
    uint64_t refusal = plain_bandwidth_request(BANDWIDTH_OF(&controller), n[0], n[1], n[2], n[3],
                                               (uint32_t)n[4], &reserved, &pool);
    if (refusal) {
        put_refusal(refusal);
        return;
    }
    put_decimal(reserved, ' ');
    put_decimal(pool, '\n');
}

static void answer_e(const struct text *t)
{
    if (t->at < t->end || !set_up)
        put_bad();
    else
        put_done(plain_bandwidth_end_window(BANDWIDTH_OF(&controller)));
}

static void answer(const uint8_t *line, size_t length)
{
    struct text t = {line + 1, line + length};
    if (answered > BUFFER - LONGEST_ANSWER)
        write_answers();
    switch (length == 0 || length > LONGEST_LINE ? 0 : line[0]) {
    case 's':
        answer_s(&t);
        break;
    case 'w':
        answer_w(&t);
        break;
    case 'r':
        answer_r(&t);
        break;
    case 'q':
        answer_q(&t);
        break;
    case 'e':
        answer_e(&t);
        break;
    default:
        put_bad();
    }
}

/* Input */

/* Answers the lines that are whole, and moves the rest to the front. */
static size_t answer_lines(uint8_t *text, size_t length)
{
    const uint8_t *at = text, *end = text + length, *newline;
    while ((newline = memchr(at, '\n', (size_t)(end - at))) != NULL) {
        answer(at, (size_t)(newline - at));
        at = newline + 1;
    }
    size_t rest = (size_t)(end - at);
    if (rest > LONGEST_LINE + 1) /* so many bytes tell that it is too long */
        rest = LONGEST_LINE + 1;
    memmove(text, at, rest);
    return rest;
}

int main(void)
{
    static uint8_t text[BUFFER];
    size_t kept = 0;
    ssize_t count;
    while ((count = read(STDIN_FILENO, text + kept, sizeof text - kept)) != 0) {
        if (count > 0)
            kept = answer_lines(text, kept + (size_t)count);
        else if (errno != EINTR)
            return 1;
    }
    if (kept > 0)
        answer(text, kept);
    write_answers();
    return 0;
}
