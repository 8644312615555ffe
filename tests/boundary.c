/*
 * Random calls of all thirteen functions, accepted, refused, on damaged buffers and
 * with wrong lengths, from a fixed seed: each on buffers of exactly the lengths
 * said, alone on the heap, so that valgrind sees any byte beyond them. A refused
 * call must leave record and tables as they were and hand back 0 in each number.
 *
 *     boundary [rounds]
 */
#include "../bench/same_slices.h"

#include "../include/cbqri.h"

#include <inttypes.h>
#include <stdio.h>
#include <stdlib.h>

static const struct interface library = INTERFACE("library", cbqri_);
static uint64_t answers[CONTROLLERS][ANSWERS];

static void *block(const void *contents, size_t length)
{
    void *at = malloc(length);
    if (at == NULL)
        exit(2);
    return memcpy(at, contents, length);
}

/* Whether the numbers, 1 before the call, are 0 where a refused call hands one
 * back, and still 1 where a call hands none back. */
static int numbers_ok(const struct controller *k, const struct call *c, uint64_t answer,
                      uint64_t *const out[NUMBERS])
{
    for (int i = 0; i < NUMBERS; i++) {
        int handed_back = i < k->numbers[c->kind];
        if ((answer != 0 || !handed_back) && *out[i] != (handed_back ? 0 : 1))
            return 0;
    }
    return 1;
}

/* One call on copies of the slices, which are then copied back. */
static void call_on_heap(const struct controller *k, const struct slice *list,
                         const struct call *c)
{
    struct slice copies[MAX_SLICES];
    uint64_t one = 1, *const out[NUMBERS] = {block(&one, sizeof one), block(&one, sizeof one)};
    for (int i = 0; i < k->slices; i++)
        copies[i] = (struct slice){block(list[i].at, list[i].length), list[i].length};
    uint64_t answer = k->call(&library, copies, c, out);
    if (answer >= ANSWERS || !numbers_ok(k, c, answer, out) ||
        (answer != 0 && !same_slices(list, copies, k->slices))) {
        printf("%s %s: answer %" PRIu64 "\n", k->name, k->calls[c->kind], answer);
        exit(1);
    }
    answers[k->place][answer]++;
    for (int i = 0; i < k->slices; i++) {
        memcpy(list[i].at, copies[i].at, list[i].length);
        free(copies[i].at);
    }
    for (int i = 0; i < NUMBERS; i++)
        free(out[i]);
}

/* Prints how often each answer came up; each that the controller gives must have. */
static int all_seen(const struct controller *k)
{
    int seen = 1;
    printf("%s:", k->name);
    for (int i = 0; i < ANSWERS; i++) {
        printf(" %" PRIu64, answers[k->place][i]);
        seen &= answers[k->place][i] > 0 || !(k->answers >> i & 1);
    }
    printf("\n");
    return seen;
}

int main(int argc, char **argv)
{
    int rounds = argc > 1 ? atoi(argv[1]) : 1500, seen = 1;
    for (int i = 0; i < rounds * CONTROLLERS; i++)
        make_round(&controllers[i % CONTROLLERS], call_on_heap);
    for (int i = 0; i < CONTROLLERS; i++)
        seen &= all_seen(&controllers[i]);
    return !seen;
}
