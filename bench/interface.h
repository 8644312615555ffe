/* The C interface as a table of functions, to run several versions side by side. */
#ifndef INTERFACE_H
#define INTERFACE_H

#define PREFIX plain_
#include "plain.h"
#undef PREFIX

struct interface {
    const char *name;
    uint64_t (*bandwidth_reset)(uint64_t nbwblks, uint64_t mrbwb, uint64_t nr,
                                uint64_t na, uint64_t nm, uint64_t q, uint64_t w,
                                BANDWIDTH_SLICES());
    uint64_t (*bandwidth_read)(BANDWIDTH_SLICES(const), uint64_t size,
                               uint64_t offset, uint64_t *value);
    uint64_t (*bandwidth_write)(BANDWIDTH_SLICES(), uint64_t size,
                                uint64_t offset, uint64_t value);
    uint64_t (*bandwidth_request)(BANDWIDTH_SLICES(), uint64_t rcid,
                                  uint64_t mcid, uint64_t at, uint64_t kind,
                                  uint32_t bytes, uint64_t *reserved, uint64_t *pool);
    uint64_t (*bandwidth_device_request)(BANDWIDTH_SLICES(), uint64_t mode,
                                         uint64_t word, uint64_t at, uint64_t kind,
                                         uint32_t bytes, uint64_t *reserved, uint64_t *pool);
    uint64_t (*bandwidth_wait)(BANDWIDTH_SLICES(), uint64_t rcid, uint64_t mcid,
                               uint64_t at, uint64_t kind, uint32_t bytes);
    uint64_t (*bandwidth_need)(BANDWIDTH_SLICES(const), uint64_t rcid,
                               uint64_t *need);
    uint64_t (*bandwidth_end_window)(BANDWIDTH_SLICES());
    uint64_t (*capacity_reset)(uint64_t ncblks, uint64_t nr, uint64_t na,
                               uint64_t nm, uint64_t w, uint64_t u, CAPACITY_SLICES());
    uint64_t (*capacity_read)(CAPACITY_SLICES(const), uint64_t size,
                              uint64_t offset, uint64_t *value);
    uint64_t (*capacity_write)(CAPACITY_SLICES(), uint64_t size,
                               uint64_t offset, uint64_t value);
    uint64_t (*capacity_fill)(CAPACITY_SLICES(), uint64_t rcid, uint64_t mcid,
                              uint64_t at, uint64_t unit, uint64_t *allowed);
    uint64_t (*capacity_evict)(CAPACITY_SLICES(), uint64_t unit);
};

#define INTERFACE(label, prefix)                                               \
    {                                                                          \
        label, JOIN(prefix, bandwidth_reset), JOIN(prefix, bandwidth_read),    \
            JOIN(prefix, bandwidth_write), JOIN(prefix, bandwidth_request),    \
            JOIN(prefix, bandwidth_device_request),                            \
            JOIN(prefix, bandwidth_wait), JOIN(prefix, bandwidth_need),        \
            JOIN(prefix, bandwidth_end_window), JOIN(prefix, capacity_reset),  \
            JOIN(prefix, capacity_read), JOIN(prefix, capacity_write),         \
            JOIN(prefix, capacity_fill), JOIN(prefix, capacity_evict)          \
    }

enum { MAX_PAIRS = 256 * 8, MAX_MCIDS = 256, MAX_RCIDS = 256, MAX_UNITS = 64 * 64 };

/* Buffers of either controller, large enough for every set-up; lengths are in
 * bytes. A little-endian host has the same bytes in the tables whichever way
 * they are written. */
struct bandwidth_buffers {
    uint8_t record[96];
    uint32_t active[MAX_PAIRS], configured[MAX_PAIRS], used[MAX_PAIRS];
    uint64_t counters[MAX_MCIDS];
    uint16_t events[MAX_MCIDS];
    uint64_t waiters[MAX_RCIDS];
    size_t record_len, active_len, configured_len, used_len, counters_len, events_len, waiters_len;
};

struct capacity_buffers {
    uint8_t record[80];
    uint64_t masks[MAX_PAIRS], counters[MAX_MCIDS];
    uint16_t events[MAX_MCIDS];
    uint32_t owners[MAX_UNITS];
    size_t record_len, masks_len, counters_len, events_len, owners_len;
};

#define BANDWIDTH_OF(b)                                                        \
    (b)->record, (b)->record_len, (uint8_t *)(b)->active, (b)->active_len,     \
        (uint8_t *)(b)->configured, (b)->configured_len, (uint8_t *)(b)->used, \
        (b)->used_len, (uint8_t *)(b)->counters, (b)->counters_len,            \
        (uint8_t *)(b)->events, (b)->events_len, (uint8_t *)(b)->waiters,      \
        (b)->waiters_len
#define CAPACITY_OF(c)                                                         \
    (c)->record, (c)->record_len, (uint8_t *)(c)->masks, (c)->masks_len,       \
        (uint8_t *)(c)->counters, (c)->counters_len, (uint8_t *)(c)->events,   \
        (c)->events_len, (uint8_t *)(c)->owners, (c)->owners_len

static inline void bandwidth_lengths(struct bandwidth_buffers *b, uint64_t nr,
                                     uint64_t na, uint64_t nm)
{
    b->record_len = sizeof b->record;
    b->active_len = b->configured_len = b->used_len = 4 * nr * na;
    b->counters_len = 8 * nm;
    b->events_len = 2 * nm;
    b->waiters_len = 8 * nr;
}

static inline void capacity_lengths(struct capacity_buffers *c, uint64_t ncblks, uint64_t nr,
                                    uint64_t na, uint64_t nm, uint64_t u)
{
    c->record_len = sizeof c->record;
    c->masks_len = 8 * nr * na;
    c->counters_len = 8 * nm;
    c->events_len = 2 * nm;
    c->owners_len = 4 * ncblks * u;
}

/* Little-endian words of a record or table. */
static inline uint64_t get_word(const void *table, uint64_t index, unsigned bytes)
{
    const uint8_t *place = (const uint8_t *)table + index * bytes;
    uint64_t word = 0;
    for (unsigned i = 0; i < bytes; i++)
        word |= (uint64_t)place[i] << 8 * i;
    return word;
}

static inline void put_word(void *table, uint64_t index, unsigned bytes, uint64_t word)
{
    uint8_t *place = (uint8_t *)table + index * bytes;
    for (unsigned i = 0; i < bytes; i++)
        place[i] = (uint8_t)(word >> 8 * i);
}

/* Random numbers with a fixed course (splitmix64). */
static inline uint64_t next_random(uint64_t *seed)
{
    uint64_t z = *seed += UINT64_C(0x9e3779b97f4a7c15);
    z = (z ^ z >> 30) * UINT64_C(0xbf58476d1ce4e5b9);
    z = (z ^ z >> 27) * UINT64_C(0x94d049bb133111eb);
    return z ^ z >> 31;
}

#endif
