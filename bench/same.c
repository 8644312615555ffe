/*
 * Runs versions of the C interface side by side on the same random states,
 * well-formed and damaged ones, and the same random calls: answers, numbers that
 * are handed back and every byte of record and tables must be equal. The first
 * version is plain.c; the others are tuned.c and, compiled with -DWITH_LIBRARY,
 * the library.
 *
 *     same [rounds] [seed]
 */
#include "same_slices.h"

#include <inttypes.h>
#include <stdio.h>
#include <stdlib.h>
#include <string.h>

#define PREFIX tuned_
#include "plain.h"
#undef PREFIX
#ifdef WITH_LIBRARY
#include "../include/cbqri.h"
#endif

static const struct interface versions[] = {
    INTERFACE("plain", plain_),
    INTERFACE("tuned", tuned_),
#ifdef WITH_LIBRARY
    INTERFACE("library", cbqri_),
#endif
};
enum { VERSIONS = sizeof versions / sizeof versions[0] };

static uint64_t round_number, calls, answers[CONTROLLERS][ANSWERS];

static void differs(const struct controller *k, const struct interface *f, const struct call *c)
{
    printf("%s: %s differs from plain in round %" PRIu64 ", %s\n", k->name, f->name, round_number,
           k->calls[c->kind]);
    printf("  size %" PRIu64 " offset %" PRIu64 " value %" PRIx64 "\n", c->size, c->offset,
           c->value);
    printf("  rcid %" PRIu64 " mcid %" PRIu64 " at %" PRIu64 " %" PRIu64 " bytes %" PRIu32 "\n",
           c->rcid, c->mcid, c->at, c->which, c->bytes);
    printf("  mode %" PRIu64 " word %" PRIx64 "\n", c->mode, c->word);
    exit(1);
}

/* One call by all versions; the slices become what the call leaves. */
static void compare(const struct controller *k, const struct slice *list, const struct call *c)
{
    static struct memory mine, first;
    uint64_t first_numbers[NUMBERS], first_answer = 0;
    for (int v = 0; v < VERSIONS; v++) {
        uint64_t numbers[NUMBERS] = {1, 1}, *const out[NUMBERS] = {&numbers[0], &numbers[1]};
        copy_slices(&mine, list, k->slices);
        uint64_t answer = k->call(&versions[v], mine.list, c, out);
        if (v == 0) {
            copy_slices(&first, mine.list, k->slices);
            memcpy(first_numbers, numbers, sizeof numbers);
            first_answer = answer;
        }
        if (answer != first_answer || memcmp(numbers, first_numbers, sizeof numbers) ||
            !same_slices(mine.list, first.list, k->slices) ||
            (answer && !same_slices(mine.list, list, k->slices)))
            differs(k, &versions[v], c);
    }
    for (int i = 0; i < k->slices; i++)
        memcpy(list[i].at, first.list[i].at, list[i].length);
    calls++;
    answers[k->place][first_answer]++;
}

int main(int argc, char **argv)
{
    uint64_t rounds = argc > 1 ? strtoull(argv[1], NULL, 10) : 4000;
    seed = argc > 2 ? strtoull(argv[2], NULL, 10) : 1;
    for (round_number = 0; round_number < rounds; round_number++)
        for (int i = 0; i < CONTROLLERS; i++)
            make_round(&controllers[i], compare);
    for (int i = 0; i < ANSWERS; i++)
        printf("answer %d: bandwidth %" PRIu64 ", capacity %" PRIu64 "\n", i, answers[0][i],
               answers[1][i]);
    printf("%" PRIu64 " calls, %d versions, all the same\n", calls, VERSIONS);
    return 0;
}
