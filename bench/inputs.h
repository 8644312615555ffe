/* The states and arguments that bench.c and firmware/count.c measure with. */
#ifndef INPUTS_H
#define INPUTS_H

#include "interface.h"

#include "../include/cbqri.h"

#include <inttypes.h>
#include <stdio.h>
#include <stdlib.h>
#include <string.h>

struct setup {
    uint64_t nr, na, nm, ncblks, u;
};

static const struct setup setups[] = {
    {4, 2, 4, 16, 4}, {64, 2, 16, 32, 16}, {256, 8, 256, 64, 64}};
enum { SETUPS = sizeof setups / sizeof setups[0] };

enum { NBWBLKS = 60000, MRBWB = 50000, Q = 65536, W = 40, CALLS = 256 };

/* Arguments of a call; which is the kind of a request, ctl performs CONFIG_LIMIT and
 * flush FLUSH_RCID, ta names RCID and MCID in a device context. */
struct arguments {
    uint64_t rcid, mcid, at, which, ctl, flush, ta, unit;
    uint32_t bytes;
};

/* Everything a call works on. */
struct state {
    struct bandwidth_buffers bandwidth;
    struct capacity_buffers capacity;
};

static struct state start, now;
static struct arguments list[CALLS];
static uint64_t seed;

static uint64_t upto(uint64_t below)
{
    return next_random(&seed) % below;
}

static void must(uint64_t refusal, const char *what)
{
    if (refusal == 0)
        return;
    printf("%s was refused: %" PRIu64 "\n", what, refusal);
    exit(1);
}

static void state_after_reset(const struct setup *s)
{
    memset(&start, 0, sizeof start);
    bandwidth_lengths(&start.bandwidth, s->nr, s->na, s->nm);
    capacity_lengths(&start.capacity, s->ncblks, s->nr, s->na, s->nm, s->u);
    must(cbqri_bandwidth_reset(NBWBLKS, MRBWB, s->nr, s->na, s->nm, Q, W,
                               BANDWIDTH_OF(&start.bandwidth)), "reset");
    must(cbqri_capacity_reset(s->ncblks, s->nr, s->na, s->nm, W, s->u,
                              CAPACITY_OF(&start.capacity)), "reset");
}

/* AT 0 holds; of the others about two thirds hold, one in six shares AT 0 and
 * one in six is not set. */
static uint64_t mixed_setting(uint64_t at, uint64_t weight)
{
    uint64_t kind = at == 0 ? 0 : upto(6);
    if (kind == 4)
        return cbqri_sharer(0);
    return kind == 5 ? 0 : cbqri_holder(1 + upto(20), weight);
}

static void mixed_monitor(void *counters, void *events, const struct setup *s,
                          uint64_t last_event)
{
    for (uint64_t i = 0; i < s->nm; i++) {
        uint64_t at = s->na > 1 && upto(4) == 0 ? 0x800 | upto(s->na) << 8 : 0;
        put_word(events, i, 2, upto(8) ? (1 + upto(last_event)) | at : 0);
        put_word(counters, i, 8, (UINT64_C(1) << (W - 1)) + upto(1000000));
    }
}

/* Some owner of a unit. */
static uint64_t mixed_owner(const struct setup *s)
{
    uint64_t rcid = upto(s->nr), mcid = upto(s->nm);
    return cbqri_owner(rcid, mcid, upto(s->na));
}

/* Masks of half of the blocks, one in four empty; of eight units seven are owned. */
static void mixed_capacity(struct capacity_buffers *c, const struct setup *s)
{
    uint64_t blocks = UINT64_MAX >> (64 - s->ncblks);
    for (uint64_t i = 0; i < s->nr * s->na; i++)
        put_word(c->masks, i, 8, upto(4) ? next_random(&seed) & blocks : 0);
    for (uint64_t i = 0; i < s->ncblks * s->u; i++)
        put_word(c->owners, i, 4, upto(8) ? mixed_owner(s) : 0);
    mixed_monitor(c->counters, c->events, s, 1);
}

/* Holders, sharers and unset pairs; each RCID has a weight of its own, and all
 * holders have one; half of them have used something; two RCIDs have 20 blocks
 * more configured since the last window end. */
static void mixed_bandwidth(struct bandwidth_buffers *b, const struct setup *s)
{
    uint64_t weight = 0;
    for (uint64_t i = 0; i < s->nr * s->na; i++) {
        weight = i % s->na == 0 ? 1 + upto(255) : weight;
        uint64_t word = mixed_setting(i % s->na, weight);
        put_word(b->active, i, 4, word);
        put_word(b->configured, i, 4, word);
        if ((word & 0xffff) && upto(2))
            put_word(b->used, i, 4, upto(Q / 2));
    }
    for (int i = 0; i < 2; i++) {
        uint64_t pair = upto(s->nr) * s->na;
        put_word(b->configured, pair, 4, get_word(b->configured, pair, 4) + 20);
    }
    put_word(b->record, 11, 8, 12345);
    mixed_monitor(b->counters, b->events, s, 3);
    must(cbqri_bandwidth_write(BANDWIDTH_OF(b), 8, CBQRI_ALLOC_CTL, 2), "state");
}

/* Under every RCID a request waits: for less than a block, for more than the largest
 * reservation of a mixed state, or for all that can be asked, a third of them each. */
static void all_wait(struct bandwidth_buffers *b, const struct setup *s)
{
    static const uint32_t needs[] = {Q / 2, 20 * Q + 1, UINT32_MAX};
    for (uint64_t rcid = 0; rcid < s->nr; rcid++)
        put_word(b->waiters, rcid, 8,
                 cbqri_waiter(needs[rcid % 3], rcid % s->nm, rcid % s->na, rcid % 2));
}

/* Small requests, so that reservations last; CONFIG_LIMIT goes round 8 RCIDs
 * at most, AT 0, so that the tables keep their mixture. */
static void make_list(const struct setup *s, int mixed)
{
    uint64_t some = mixed ? (s->nr < 8 ? s->nr : 8) : 1;
    for (int i = 0; i < CALLS; i++) {
        uint64_t rcid = upto(some) * (s->nr / (s->nr < 8 ? s->nr : 8));
        list[i] = (struct arguments){
            .rcid = upto(s->nr), .mcid = upto(s->nm), .at = upto(s->na),
            .which = upto(2), .bytes = 1 + (uint32_t)upto(63),
            .unit = upto(s->ncblks * s->u),
            .ctl = cbqri_alloc_ctl(CBQRI_CONFIG_LIMIT, 0, rcid)};
        list[i].flush = cbqri_alloc_ctl(CBQRI_FLUSH_RCID, 0, list[i].rcid);
        list[i].ta = cbqri_dc_ta(list[i].rcid, list[i].mcid);
    }
}

/* The start state, in use or after a reset, and the arguments; always the same ones. */
static void make_inputs(const struct setup *s, int mixed)
{
    seed = 2023;
    state_after_reset(s);
    if (mixed) {
        mixed_bandwidth(&start.bandwidth, s);
        mixed_capacity(&start.capacity, s);
    }
    make_list(s, mixed);
}

#endif
