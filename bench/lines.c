/*
 * Lines for the listing program, always the same ones: a driver that sets
 * limits and counters and reads them back, with requests and window ends.
 * About one line in fifty is refused or bad. COUNT is rounded up to ROUND.
 *
 *     lines COUNT NR NA
 */
#include "../include/cbqri.h"
#include "interface.h"

#include <inttypes.h>
#include <stdio.h>
#include <stdlib.h>

enum { NBWBLKS = 60000, MRBWB = 50000, NM = 16, Q = 64, W = 40, ROUND = 2000 };

static uint64_t seed = 2023, nr, na;

static uint64_t upto(uint64_t below)
{
    return next_random(&seed) % below;
}

/* A reset, and the pair that has all blocks then gets its part. */
static void lines_s(void)
{
    printf("s %d %d %" PRIu64 " %" PRIu64 " %d %d %d\n", NBWBLKS, MRBWB, nr, na, NM, Q, W);
    printf("w 8 20 %" PRIx64 "\n", cbqri_holder(MRBWB / (nr * na), 1));
    printf("w 8 18 %" PRIx64 "\n", cbqri_alloc_ctl(CBQRI_CONFIG_LIMIT, 0, 0));
}

/* An operand that fits beside those of all other pairs, or a sharer's. */
static void line_operand(void)
{
    uint64_t holder = cbqri_holder(1 + upto(MRBWB / (nr * na)), upto(3));
    printf("w 8 20 %" PRIx64 "\n", upto(8) ? holder : cbqri_sharer(0));
}

/* CONFIG_LIMIT or READ_LIMIT; NR comes up as an RCID too. */
static void line_alloc(void)
{
    uint64_t op = upto(3) ? CBQRI_CONFIG_LIMIT : CBQRI_READ_LIMIT;
    uint64_t rcid = upto(50) ? upto(nr) : nr;
    printf("w 8 18 %" PRIx64 "\n", cbqri_alloc_ctl(op, upto(na), rcid));
}

static void line_monitor(void)
{
    uint64_t op = upto(3) ? CBQRI_READ_COUNTER : CBQRI_CONFIG_EVENT;
    printf("w 8 8 %" PRIx64 "\n", op | upto(NM) << 8 | (1 + upto(3)) << 20);
}

static void line_r(void)
{
    static const char *const places[] = {"8 18", "8 20", "8 10", "8 8", "4 1c", "8 0"};
    printf("r %s\n", places[upto(sizeof places / sizeof places[0])]);
}

static void line_q(void)
{
    printf("q %" PRIu64 " %" PRIu64 " %" PRIu64 " %" PRIu64 " %" PRIu64 "\n", upto(nr), upto(NM),
           upto(na), upto(2), upto(8) ? upto(4096) : upto(UINT64_C(1) << 32));
}

static void line_other(void)
{
    static const char *const others[] = {
        "", "r 8 28", "r 2 0", "w 4 20 100000000", "q 999 0 0 0 64",
        "q 0 0 0 0", "r 8  18", "s 0 0 0 0 0 0 0", "# comment"};
    puts(others[upto(sizeof others / sizeof others[0])]);
}

static void line(void)
{
    uint64_t kind = upto(1000);
    if (kind < 20)
        line_other();
    else if (kind < 120)
        line_operand();
    else if (kind < 220)
        line_alloc();
    else if (kind < 300)
        line_monitor();
    else if (kind < 480)
        line_r();
    else if (kind < 520)
        puts("e");
    else
        line_q();
}

int main(int argc, char **argv)
{
    if (argc != 4)
        return 2;
    uint64_t count = strtoull(argv[1], NULL, 10);
    nr = strtoull(argv[2], NULL, 10);
    na = strtoull(argv[3], NULL, 10);
    if (nr == 0 || na == 0 || nr * na > MRBWB)
        return 2;
    for (uint64_t i = 0; i < count; i += ROUND) {
        lines_s();
        for (int k = 3; k < ROUND; k++)
            line();
    }
    return 0;
}
