/*
 * The controller pair in plain C11: the C interface of ../include/cbqri.h on
 * byte buffers, written the straightforward way. It is the measure of the
 * benchmark and a second opinion for tests. Compile with -DPREFIX=cbqri_ to
 * get the functions under the library's own names.
 *
 * tuned.c includes this file and has the tables checked, and an RCID flushed, by
 * functions of its own, named by the macros below.
 */
#include "plain.h"

#include <stdbool.h>
#include <string.h>

#ifndef BANDWIDTH_TABLES_OK
#define BANDWIDTH_TABLES_OK bandwidth_tables_ok
#define WAITERS_OK waiters_ok
#define CAPACITY_TABLES_OK capacity_tables_ok
#define OWNERS_OK owners_ok
#define FLUSH flush
#endif

#if __BYTE_ORDER__ != __ORDER_LITTLE_ENDIAN__
#error "loads and stores here are memcpy, so the host must be little-endian"
#endif

enum {
    REFUSED_SETUP = 1,
    REFUSED_LENGTH,
    REFUSED_STATE,
    REFUSED_SIZE,
    REFUSED_OFFSET,
    REFUSED_VALUE,
    REFUSED_IDENTIFIER,
    REFUSED_UNIT,
    REFUSED_DEVICE_CONTEXT,
    REFUSED_ALREADY_WAITS,
    REFUSED_NO_BYTES
};

enum { CAPABILITIES = 0, MON_CTL = 8, MON_CTR_VAL = 16, ALLOC_CTL = 24, ALLOC = 32, END = 40 };

/* Fields of a settings word and of bw_alloc. */
#define RBWB UINT32_C(0x0000ffff)
#define MWEIGHT UINT32_C(0x0ff00000)
#define SHARED_AT UINT32_C(0x70000000)
#define USE_SHARED UINT32_C(0x80000000)
#define SETTING (RBWB | MWEIGHT | SHARED_AT | USE_SHARED)
#define MWEIGHT_1 UINT32_C(0x00100000)
#define MWEIGHT_LOW 20
#define SHARED_AT_LOW 28

/* FRCID of the capacity controller's capabilities. */
#define FRCID (UINT64_C(1) << 24)

/* OP of alloc_ctl; the last one is the capacity controller's. */
enum { CONFIG_LIMIT = 1, READ_LIMIT, FLUSH_RCID };

/* Fields of the control registers; STATUS is set by the operation alone. */
#define CTL_AT UINT64_C(0xe0)
#define CTL_ATV UINT64_C(0x10000000)
#define CTL_STATUS UINT64_C(0x7f00000000)
#define ALLOC_CTL_FIELDS UINT64_C(0x000fffff)
#define MON_CTL_FIELDS UINT64_C(0x1fffffff)

/* Fields of a counter setting. */
#define EVENT_ATV UINT32_C(0x0800)
#define EVENT_UNNAMED UINT32_C(0xf000)

/* Fields of a word of waiters. */
#define WAITER_MCID_LOW 32
#define WAITER_AT_LOW 40
#define WAITER_WRITE_LOW 43
#define WAITER_END 44

/* Fields of a word of owners; the RCID is the lowest. */
#define OWNER_MCID_LOW 8
#define OWNER_AT_LOW 16
#define OWNED_LOW 19

/* Flags of the counter words. */
#define BANDWIDTH_OVF (UINT64_C(1) << 63)
#define BANDWIDTH_FLAGS (UINT64_C(3) << 62)
#define CAPACITY_INVALID (UINT64_C(1) << 63)

/* The last supported EVT_ID. */
enum { BANDWIDTH_LAST_EVENT = 3, CAPACITY_LAST_EVENT = 1 };

/* The counters of either controller. */
struct monitor {
    uint64_t na, nm, last_event;
    uint8_t *counters, *events;
};

/* The registers that calls change; limit is bw_alloc or block_mask. */
struct registers {
    uint64_t mon_ctl, mon_ctr_val, alloc_ctl, limit;
};

struct bandwidth_record {
    uint64_t nbwblks, mrbwb, nr, na, nm, q, w;
    struct registers registers;
    uint64_t pool_given;
};

struct bandwidth {
    struct bandwidth_record r;
    uint8_t *record, *active, *configured, *used, *waiters;
    struct monitor monitor;
    uint64_t active_sum, configured_sum; /* all Rbwb, set by check 3 */
    uint64_t waiting;                    /* not 0 if a request waits, likewise */
};

struct capacity_record {
    uint64_t ncblks, nr, na, nm, w, u;
    struct registers registers;
};

struct capacity {
    struct capacity_record r;
    uint8_t *record, *masks, *owners;
    struct monitor monitor;
    uint64_t units;
};

_Static_assert(sizeof(struct bandwidth_record) == 96, "twelve words");
_Static_assert(sizeof(struct capacity_record) == 80, "ten words");

/* Loads, stores and fields */

static inline uint16_t load16(const uint8_t *table, uint64_t index)
{
    uint16_t word;
    memcpy(&word, table + 2 * index, sizeof word);
    return word;
}

static inline uint32_t load32(const uint8_t *table, uint64_t index)
{
    uint32_t word;
    memcpy(&word, table + 4 * index, sizeof word);
    return word;
}

static inline uint64_t load64(const uint8_t *table, uint64_t index)
{
    uint64_t word;
    memcpy(&word, table + 8 * index, sizeof word);
    return word;
}

static inline void store16(uint8_t *table, uint64_t index, uint16_t word)
{
    memcpy(table + 2 * index, &word, sizeof word);
}

static inline void store32(uint8_t *table, uint64_t index, uint32_t word)
{
    memcpy(table + 4 * index, &word, sizeof word);
}

static inline void store64(uint8_t *table, uint64_t index, uint64_t word)
{
    memcpy(table + 8 * index, &word, sizeof word);
}

static inline uint64_t field(uint64_t word, unsigned low, unsigned width)
{
    return (word >> low) & ((UINT64_C(1) << width) - 1);
}

static inline bool in_range(uint64_t number, uint64_t low, uint64_t high)
{
    return low <= number && number <= high;
}

static inline uint64_t smaller(uint64_t a, uint64_t b)
{
    return a < b ? a : b;
}

/* A holder is a pair set with useShared 0. */
static inline bool is_holder(uint32_t word)
{
    return word != 0 && !(word & USE_SHARED);
}

static inline uint64_t block_bits(uint64_t ncblks)
{
    return UINT64_MAX >> (64 - ncblks);
}

/* Check 1 and 2 */

static bool bandwidth_setup_good(const struct bandwidth_record *r)
{
    return in_range(r->nbwblks, 1, 65535) && in_range(r->mrbwb, 1, r->nbwblks) &&
           in_range(r->nr, 1, 256) && in_range(r->na, 1, 8) &&
           in_range(r->nm, 1, 256) && in_range(r->q, 1, 65536) &&
           in_range(r->w, 24, 62);
}

static bool capacity_setup_good(const struct capacity_record *r)
{
    return in_range(r->ncblks, 1, 64) && in_range(r->nr, 1, 256) &&
           in_range(r->na, 1, 8) && in_range(r->nm, 1, 256) &&
           in_range(r->w, 24, 62) && in_range(r->u, 1, 64);
}

static bool monitor_lengths_good(uint64_t nm, size_t counters_len,
                                 size_t events_len)
{
    return counters_len == 8 * nm && events_len == 2 * nm;
}

/* Check 3 */

/* No bit outside the fields; limit has none but these. */
static bool registers_ok(const struct registers *g, uint64_t na, uint64_t limit)
{
    uint64_t mon_ctl = na == 1 ? MON_CTL_FIELDS & ~(CTL_AT | CTL_ATV) : MON_CTL_FIELDS;
    uint64_t alloc_ctl = na == 1 ? ALLOC_CTL_FIELDS & ~CTL_AT : ALLOC_CTL_FIELDS;
    return (g->mon_ctl & ~(mon_ctl | CTL_STATUS)) == 0 &&
           (g->alloc_ctl & ~(alloc_ctl | CTL_STATUS)) == 0 && (g->limit & ~limit) == 0;
}

static bool pool_ok(const struct bandwidth *b)
{
    return b->r.pool_given <= (b->r.nbwblks - b->active_sum) * b->r.q;
}

/* Reads both settings tables, the used words, the counters and their settings,
 * and sets the two sums. */
static bool BANDWIDTH_TABLES_OK(struct bandwidth *b);
/* Reads the waiters, and sets whether a request waits. */
static bool WAITERS_OK(struct bandwidth *b);
/* Reads the masks, the counters and their settings. */
static bool CAPACITY_TABLES_OK(const struct capacity *c);
static bool OWNERS_OK(const struct capacity *c);

static bool pair_ok(const uint8_t *row, uint64_t na, uint64_t at)
{
    uint32_t word = load32(row, at);
    if (word == 0)
        return true;
    if (word & ~SETTING)
        return false;
    if (!(word & USE_SHARED))
        return (word & RBWB) != 0 && (word & SHARED_AT) == 0;
    uint64_t target = field(word, SHARED_AT_LOW, 3);
    return (word & (RBWB | MWEIGHT)) == 0 && target != at && target < na &&
           is_holder(load32(row, target));
}

static bool settings_ok(const uint8_t *table, const struct bandwidth_record *r,
                            uint64_t *sum)
{
    uint64_t total = 0;
    for (uint64_t rcid = 0; rcid < r->nr; rcid++) {
        const uint8_t *row = table + 4 * rcid * r->na;
        uint32_t first = 0; /* the RCID's first holder */
        for (uint64_t at = 0; at < r->na; at++) {
            uint32_t word = load32(row, at);
            if (!pair_ok(row, r->na, at))
                return false;
            if (is_holder(word)) {
                if (first == 0)
                    first = word;
                if ((word ^ first) & MWEIGHT)
                    return false;
            }
            total += word & RBWB; /* a sharer's is 0 */
        }
    }
    *sum = total;
    return total <= r->mrbwb;
}

static bool used_ok(const struct bandwidth *b)
{
    for (uint64_t i = 0; i < b->r.nr * b->r.na; i++) {
        uint64_t reserved = load32(b->active, i) & RBWB; /* 0 if no holder */
        if (load32(b->used, i) > reserved * b->r.q)
            return false;
    }
    return true;
}

static bool counters_ok(const struct monitor *m, uint64_t flags, uint64_t w)
{
    for (uint64_t i = 0; i < m->nm; i++)
        if ((load64(m->counters, i) & ~flags) >> w)
            return false;
    return true;
}

static bool event_ok(uint32_t setting, uint64_t na, uint64_t last_event)
{
    if (setting == 0)
        return true;
    if ((setting & EVENT_UNNAMED) || !in_range(field(setting, 0, 8), 1, last_event))
        return false;
    uint64_t at = field(setting, 8, 3);
    return setting & EVENT_ATV ? na > 1 && at < na : at == 0;
}

static bool events_ok(const struct monitor *m)
{
    for (uint64_t i = 0; i < m->nm; i++)
        if (!event_ok(load16(m->events, i), m->na, m->last_event))
            return false;
    return true;
}

static bool waiter_ok(uint64_t word, uint64_t nm, uint64_t na)
{
    return field(word, 0, 32) != 0 && field(word, WAITER_MCID_LOW, 8) < nm &&
           field(word, WAITER_AT_LOW, 3) < na && word >> WAITER_END == 0;
}

static bool waiters_ok(struct bandwidth *b)
{
    uint64_t all = 0;
    for (uint64_t i = 0; i < b->r.nr; i++) {
        uint64_t word = load64(b->waiters, i);
        if (word != 0 && !waiter_ok(word, b->r.nm, b->r.na))
            return false;
        all |= word;
    }
    b->waiting = all;
    return true;
}

static bool masks_ok(const struct capacity *c)
{
    uint64_t outside = ~block_bits(c->r.ncblks);
    for (uint64_t i = 0; i < c->r.nr * c->r.na; i++)
        if (load64(c->masks, i) & outside)
            return false;
    return true;
}

static bool owner_ok(uint32_t word, const struct capacity_record *r)
{
    return word >> OWNED_LOW == 1 && field(word, 0, 8) < r->nr &&
           field(word, OWNER_MCID_LOW, 8) < r->nm && field(word, OWNER_AT_LOW, 3) < r->na;
}

static bool owners_ok(const struct capacity *c)
{
    for (uint64_t i = 0; i < c->units; i++) {
        uint32_t word = load32(c->owners, i);
        if (word != 0 && !owner_ok(word, &c->r))
            return false;
    }
    return true;
}

static bool bandwidth_tables_ok(struct bandwidth *b)
{
    return settings_ok(b->active, &b->r, &b->active_sum) &&
           settings_ok(b->configured, &b->r, &b->configured_sum) &&
           used_ok(b) &&
           counters_ok(&b->monitor, BANDWIDTH_FLAGS, b->r.w) &&
           events_ok(&b->monitor);
}

static bool capacity_tables_ok(const struct capacity *c)
{
    return masks_ok(c) &&
           counters_ok(&c->monitor, CAPACITY_INVALID, c->r.w) &&
           events_ok(&c->monitor);
}

/* Opening a controller: the checks every call makes */

/* Check 2, and the pointers kept; the record is already in b->r. */
static uint64_t bandwidth_attach(struct bandwidth *b, BANDWIDTH_SLICES())
{
    uint64_t settings_len = 4 * b->r.nr * b->r.na;
    (void)record_len;
    if (active_len != settings_len || configured_len != settings_len ||
        used_len != settings_len || waiters_len != 8 * b->r.nr ||
        !monitor_lengths_good(b->r.nm, counters_len, events_len))
        return REFUSED_LENGTH;
    b->record = record;
    b->active = active;
    b->configured = configured;
    b->used = used;
    b->waiters = waiters;
    b->monitor = (struct monitor){b->r.na, b->r.nm, BANDWIDTH_LAST_EVENT, counters, events};
    return 0;
}

static uint64_t capacity_attach(struct capacity *c, CAPACITY_SLICES())
{
    (void)record_len;
    c->units = c->r.ncblks * c->r.u;
    if (masks_len != 8 * c->r.nr * c->r.na || owners_len != 4 * c->units ||
        !monitor_lengths_good(c->r.nm, counters_len, events_len))
        return REFUSED_LENGTH;
    c->record = record;
    c->masks = masks;
    c->owners = owners;
    c->monitor = (struct monitor){c->r.na, c->r.nm, CAPACITY_LAST_EVENT, counters, events};
    return 0;
}

/* The slices handed on. A read casts const away, and nothing is written there. */
#define BANDWIDTH_PASSED                                                       \
    (uint8_t *)record, record_len, (uint8_t *)active, active_len,              \
        (uint8_t *)configured, configured_len, (uint8_t *)used, used_len,      \
        (uint8_t *)counters, counters_len, (uint8_t *)events, events_len,      \
        (uint8_t *)waiters, waiters_len
#define CAPACITY_PASSED                                                        \
    (uint8_t *)record, record_len, (uint8_t *)masks, masks_len,                \
        (uint8_t *)counters, counters_len, (uint8_t *)events, events_len,      \
        (uint8_t *)owners, owners_len

/* Checks 1 to 3. */
static uint64_t bandwidth_open(struct bandwidth *b, BANDWIDTH_SLICES())
{
    if (record_len != sizeof b->r)
        return REFUSED_SETUP;
    memcpy(&b->r, record, sizeof b->r);
    if (!bandwidth_setup_good(&b->r))
        return REFUSED_SETUP;
    uint64_t refusal = bandwidth_attach(b, BANDWIDTH_PASSED);
    if (refusal)
        return refusal;
    if (!registers_ok(&b->r.registers, b->r.na, SETTING) || !BANDWIDTH_TABLES_OK(b) ||
        !pool_ok(b) || !WAITERS_OK(b))
        return REFUSED_STATE;
    return 0;
}

static uint64_t capacity_open(struct capacity *c, CAPACITY_SLICES())
{
    if (record_len != sizeof c->r)
        return REFUSED_SETUP;
    memcpy(&c->r, record, sizeof c->r);
    if (!capacity_setup_good(&c->r))
        return REFUSED_SETUP;
    uint64_t refusal = capacity_attach(c, CAPACITY_PASSED);
    if (refusal)
        return refusal;
    if (!registers_ok(&c->r.registers, c->r.na, block_bits(c->r.ncblks)) ||
        !CAPACITY_TABLES_OK(c) || !OWNERS_OK(c))
        return REFUSED_STATE;
    return 0;
}

static void bandwidth_save(const struct bandwidth *b)
{
    memcpy(b->record, &b->r, sizeof b->r);
}

static void capacity_save(const struct capacity *c)
{
    memcpy(c->record, &c->r, sizeof c->r);
}

/* Register accesses */

/* Checks 4 and 5. */
static uint64_t check_access(uint64_t size, uint64_t offset)
{
    if (size != 4 && size != 8)
        return REFUSED_SIZE;
    if (offset % size != 0 || offset > END - size)
        return REFUSED_OFFSET;
    return 0;
}

/* Checks 4 to 6. */
static uint64_t check_write(uint64_t size, uint64_t offset, uint64_t value)
{
    uint64_t refusal = check_access(size, offset);
    if (refusal)
        return refusal;
    return size == 4 && value > UINT32_MAX ? REFUSED_VALUE : 0;
}

static uint64_t register_at(const struct registers *g, uint64_t capabilities, uint64_t offset)
{
    switch (offset & ~UINT64_C(7)) {
    case CAPABILITIES:
        return capabilities;
    case MON_CTL:
        return g->mon_ctl;
    case MON_CTR_VAL:
        return g->mon_ctr_val;
    case ALLOC_CTL:
        return g->alloc_ctl;
    default:
        return g->limit;
    }
}

static uint64_t read_register(const struct registers *g, uint64_t capabilities, uint64_t size,
                              uint64_t offset)
{
    uint64_t word = register_at(g, capabilities, offset);
    if (size == 8)
        return word;
    return offset % 8 == 0 ? word & UINT32_MAX : word >> 32;
}

/* Monitoring operations */

static uint64_t monitor_status(const struct monitor *m, uint64_t ctl)
{
    uint64_t op = field(ctl, 0, 5);
    if (op != 1 && op != 2)
        return 2;
    if (field(ctl, 8, 12) >= m->nm)
        return 3;
    if (op == 2)
        return 1;
    if (field(ctl, 20, 8) > m->last_event)
        return 4;
    if ((ctl & CTL_ATV) && field(ctl, 5, 3) >= m->na)
        return 5;
    return 1;
}

static void config_event(struct monitor *m, uint64_t ctl)
{
    uint64_t mcid = field(ctl, 8, 12);
    uint64_t event = field(ctl, 20, 8);
    if (event == 0) {
        store16(m->events, mcid, 0);
        return;
    }
    uint64_t at = ctl & CTL_ATV ? EVENT_ATV | field(ctl, 5, 3) << 8 : 0;
    store16(m->events, mcid, (uint16_t)(event | at));
    store64(m->counters, mcid, 0);
}

/* Performs the operation of a value written to mon_ctl. */
static void perform_monitor(struct monitor *m, uint64_t value, struct registers *g)
{
    uint64_t ctl = value & MON_CTL_FIELDS;
    if (m->na == 1)
        ctl &= ~(CTL_AT | CTL_ATV);
    uint64_t status = monitor_status(m, ctl);
    if (status == 1) {
        if (field(ctl, 0, 5) == 1)
            config_event(m, ctl);
        else
            g->mon_ctr_val = load64(m->counters, field(ctl, 8, 12));
    }
    g->mon_ctl = ctl | status << 32;
}

/* Allocation operations */

/* STATUS 2 to 4 of the operations up to last; 1 if none applies. */
static uint64_t alloc_status(uint64_t ctl, uint64_t last, uint64_t nr, uint64_t na)
{
    uint64_t op = field(ctl, 0, 5);
    if (!in_range(op, CONFIG_LIMIT, last))
        return 2;
    if (field(ctl, 8, 12) >= nr)
        return 3;
    if (op != FLUSH_RCID && field(ctl, 5, 3) >= na)
        return 4;
    return 1;
}

static uint64_t alloc_ctl_fields(uint64_t value, uint64_t na)
{
    return value & (na == 1 ? ALLOC_CTL_FIELDS & ~CTL_AT : ALLOC_CTL_FIELDS);
}

static bool holder_good(const struct bandwidth *b, uint64_t pair)
{
    uint64_t rbwb = b->r.registers.limit & RBWB;
    uint64_t replaced = load32(b->configured, pair) & RBWB;
    return rbwb != 0 && rbwb + b->configured_sum - replaced <= b->r.mrbwb;
}

static bool sharer_good(const struct bandwidth *b, uint64_t rcid, uint64_t at)
{
    const uint8_t *row = b->configured + 4 * rcid * b->r.na;
    uint64_t target = field(b->r.registers.limit, SHARED_AT_LOW, 3);
    if (target == at || target >= b->r.na || !is_holder(load32(row, target)))
        return false;
    for (uint64_t other = 0; other < b->r.na; other++) {
        uint32_t word = load32(row, other);
        if ((word & USE_SHARED) && other != at && field(word, SHARED_AT_LOW, 3) == at)
            return false;
    }
    return true;
}

/* Every configured holder of the RCID gets this weight. */
static void carry_weight(struct bandwidth *b, uint64_t rcid, uint32_t weight)
{
    uint8_t *row = b->configured + 4 * rcid * b->r.na;
    for (uint64_t at = 0; at < b->r.na; at++) {
        uint32_t word = load32(row, at);
        if (is_holder(word))
            store32(row, at, (word & ~MWEIGHT) | weight);
    }
}

/* CONFIG_LIMIT of a pair in range. */
static uint64_t config_limit(struct bandwidth *b, uint64_t rcid, uint64_t at)
{
    uint32_t operand = (uint32_t)b->r.registers.limit;
    uint64_t pair = rcid * b->r.na + at;
    if (operand & USE_SHARED) {
        if (!sharer_good(b, rcid, at))
            return 5;
        store32(b->configured, pair, operand & (USE_SHARED | SHARED_AT));
    } else {
        if (!holder_good(b, pair))
            return 5;
        store32(b->configured, pair, operand & (RBWB | MWEIGHT));
        carry_weight(b, rcid, operand & MWEIGHT);
    }
    return 1;
}

static void bandwidth_perform_alloc(struct bandwidth *b, uint64_t value)
{
    uint64_t ctl = alloc_ctl_fields(value, b->r.na);
    uint64_t rcid = field(ctl, 8, 12), at = field(ctl, 5, 3);
    uint64_t status = alloc_status(ctl, READ_LIMIT, b->r.nr, b->r.na);
    if (status == 1) {
        if (field(ctl, 0, 5) == CONFIG_LIMIT)
            status = config_limit(b, rcid, at);
        else
            b->r.registers.limit = load32(b->configured, rcid * b->r.na + at);
    }
    b->r.registers.alloc_ctl = ctl | status << 32;
}

/* Requests, waiters, and units of the cache */

/* Whether the counter counts this kind (1 all, 2 reads, 3 writes, or 1
 * occupancy) and this AT. */
static bool at_matches(uint32_t setting, uint64_t at)
{
    return !(setting & EVENT_ATV) || field(setting, 8, 3) == at;
}

static bool kind_matches(uint32_t setting, uint64_t kind)
{
    uint64_t event = field(setting, 0, 8);
    return event == 1 || (event == 2 && kind == 0) || (event == 3 && kind != 0);
}

static void count_bytes(struct bandwidth *b, uint64_t mcid, uint64_t at,
                        uint64_t kind, uint64_t bytes)
{
    uint32_t setting = load16(b->monitor.events, mcid);
    if (!kind_matches(setting, kind) || !at_matches(setting, at))
        return;
    uint64_t counter = load64(b->monitor.counters, mcid);
    uint64_t sum = (counter & ~BANDWIDTH_FLAGS) + bytes;
    uint64_t flags = counter & BANDWIDTH_FLAGS;
    if (sum >> b->r.w)
        flags |= BANDWIDTH_OVF;
    store64(b->monitor.counters, mcid, field(sum, 0, (unsigned)b->r.w) | flags);
}

/* The place of the holder in force that a pair's requests are led to, or NOBODY. */
#define NOBODY UINT64_MAX
static uint64_t holder_of(const struct bandwidth *b, uint64_t rcid, uint64_t at)
{
    uint64_t row = rcid * b->r.na;
    uint32_t word = load32(b->active, row + at);
    if (word == 0)
        return NOBODY;
    return row + (word & USE_SHARED ? field(word, SHARED_AT_LOW, 3) : at);
}

/* Bytes of the holder's reservation and of the pool. */
struct grant {
    uint64_t reserved, pool;
};

/* Takes bytes from the holder's reservation, then from the pool. */
static struct grant take_bytes(struct bandwidth *b, uint64_t pair, uint64_t bytes)
{
    uint32_t word = load32(b->active, pair);
    uint64_t used = load32(b->used, pair);
    struct grant g = {smaller(bytes, (word & RBWB) * b->r.q - used), 0};
    store32(b->used, pair, (uint32_t)(used + g.reserved));
    if (!(word & MWEIGHT))
        return g;
    uint64_t left = (b->r.nbwblks - b->active_sum) * b->r.q - b->r.pool_given;
    g.pool = smaller(bytes - g.reserved, left);
    b->r.pool_given += g.pool;
    return g;
}

/* The request of an opened controller; out_of_range is the refusal where an
 * identifier is. */
static uint64_t request(struct bandwidth *b, uint64_t out_of_range, uint64_t rcid,
                        uint64_t mcid, uint64_t at, uint64_t kind, uint32_t bytes,
                        uint64_t *reserved, uint64_t *pool)
{
    if (rcid >= b->r.nr || mcid >= b->r.nm)
        return out_of_range;
    if (at >= b->r.na)
        at = 0;
    uint64_t holder = holder_of(b, rcid, at);
    if (holder == NOBODY)
        return 0;
    struct grant g = take_bytes(b, holder, bytes);
    count_bytes(b, mcid, at, kind, g.reserved + g.pool);
    bandwidth_save(b);
    *reserved = g.reserved;
    *pool = g.pool;
    return 0;
}

/* Takes what a waiter is served off its need, and counts it. */
static void serve(struct bandwidth *b, uint64_t rcid, uint64_t bytes)
{
    uint64_t word = load64(b->waiters, rcid);
    count_bytes(b, field(word, WAITER_MCID_LOW, 8), field(word, WAITER_AT_LOW, 3),
                field(word, WAITER_WRITE_LOW, 1), bytes);
    store64(b->waiters, rcid, field(word, 0, 32) == bytes ? 0 : word - bytes);
}

/* The settings word in force by which a waiter is served, and its holder's place;
 * 0 if none waits, or if nobody serves it. */
static uint32_t server_of(const struct bandwidth *b, uint64_t rcid, uint64_t *holder)
{
    uint64_t word = load64(b->waiters, rcid);
    *holder = word == 0 ? NOBODY : holder_of(b, rcid, field(word, WAITER_AT_LOW, 3));
    return *holder == NOBODY ? 0 : load32(b->active, *holder);
}

/* Serves each waiter from its holder's reservation, which is whole. Hands back the
 * Mweights of the holders whose waiters still need bytes. */
static uint64_t serve_reserved(struct bandwidth *b)
{
    uint64_t weights = 0, holder;
    for (uint64_t rcid = 0; rcid < b->r.nr; rcid++) {
        uint32_t word = server_of(b, rcid, &holder);
        if (word == 0)
            continue;
        uint64_t need = field(load64(b->waiters, rcid), 0, 32);
        uint64_t own = smaller(need, (word & RBWB) * b->r.q);
        store32(b->used, holder, (uint32_t)own);
        serve(b, rcid, own);
        if (own < need)
            weights += field(word, MWEIGHT_LOW, 8);
    }
    return weights;
}

/* Serves each waiter that still needs bytes its share of the pool, which is whole. */
static void serve_pool(struct bandwidth *b, uint64_t weights)
{
    uint64_t pool = (b->r.nbwblks - b->active_sum) * b->r.q, holder;
    for (uint64_t rcid = 0; rcid < b->r.nr; rcid++) {
        uint64_t weight = field(server_of(b, rcid, &holder), MWEIGHT_LOW, 8);
        if (weight == 0)
            continue;
        uint64_t need = field(load64(b->waiters, rcid), 0, 32);
        uint64_t part = smaller(need, pool * weight / weights);
        b->r.pool_given += part;
        serve(b, rcid, part);
    }
}

/* Adds to or takes from a matching occupancy counter, within 0 to 2^W - 1. */
static void count_unit(struct capacity *c, uint64_t mcid, uint64_t at, bool fill)
{
    uint32_t setting = load16(c->monitor.events, mcid);
    if (field(setting, 0, 8) != 1 || !at_matches(setting, at))
        return;
    uint64_t counter = load64(c->monitor.counters, mcid);
    uint64_t limit = fill ? (UINT64_C(1) << c->r.w) - 1 : 0;
    if ((counter & ~CAPACITY_INVALID) == limit)
        counter |= CAPACITY_INVALID;
    else
        counter += fill ? 1 : UINT64_MAX;
    store64(c->monitor.counters, mcid, counter);
}

/* Frees a unit, counting for its owner; a free unit stays as it is. */
static void evict(struct capacity *c, uint64_t unit)
{
    uint32_t owner = load32(c->owners, unit);
    if (owner == 0)
        return;
    count_unit(c, field(owner, OWNER_MCID_LOW, 8), field(owner, OWNER_AT_LOW, 3), false);
    store32(c->owners, unit, 0);
}

/* Evicts the units from first to before end that the RCID owns. */
static void FLUSH(struct capacity *c, uint64_t rcid, uint64_t first, uint64_t end);

static void flush(struct capacity *c, uint64_t rcid, uint64_t first, uint64_t end)
{
    for (uint64_t unit = first; unit < end; unit++) {
        uint32_t owner = load32(c->owners, unit);
        if (owner != 0 && field(owner, 0, 8) == rcid)
            evict(c, unit);
    }
}

static void capacity_perform_alloc(struct capacity *c, uint64_t value)
{
    uint64_t ctl = alloc_ctl_fields(value, c->r.na);
    uint64_t op = field(ctl, 0, 5), rcid = field(ctl, 8, 12);
    uint64_t pair = rcid * c->r.na + field(ctl, 5, 3);
    uint64_t status = alloc_status(ctl, FLUSH_RCID, c->r.nr, c->r.na);
    if (status == 1) {
        if (op == FLUSH_RCID)
            FLUSH(c, rcid, 0, c->units);
        else if (op == READ_LIMIT)
            c->r.registers.limit = load64(c->masks, pair);
        else if (c->r.registers.limit == 0)
            status = 5;
        else
            store64(c->masks, pair, c->r.registers.limit);
    }
    c->r.registers.alloc_ctl = ctl | status << 32;
}

/* The bandwidth controller's calls */

uint64_t NAME(bandwidth_reset)(uint64_t nbwblks, uint64_t mrbwb, uint64_t nr,
                               uint64_t na, uint64_t nm, uint64_t q, uint64_t w,
                               BANDWIDTH_SLICES())
{
    struct bandwidth b = {.r = {nbwblks, mrbwb, nr, na, nm, q, w, .pool_given = 0}};
    if (record_len != sizeof b.r || !bandwidth_setup_good(&b.r))
        return REFUSED_SETUP;
    uint64_t refusal = bandwidth_attach(&b, BANDWIDTH_PASSED);
    if (refusal)
        return refusal;
    memset(configured, 0, configured_len);
    store32(configured, 0, (uint32_t)mrbwb | MWEIGHT_1);
    for (uint64_t at = 1; at < na; at++)
        store32(configured, at, USE_SHARED);
    memcpy(active, configured, configured_len);
    memset(used, 0, used_len);
    memset(counters, 0, counters_len);
    memset(events, 0, events_len);
    memset(waiters, 0, waiters_len);
    bandwidth_save(&b);
    return 0;
}

uint64_t NAME(bandwidth_read)(BANDWIDTH_SLICES(const), uint64_t size,
                              uint64_t offset, uint64_t *value)
{
    struct bandwidth b;
    *value = 0;
    uint64_t refusal = bandwidth_open(&b, BANDWIDTH_PASSED);
    if (!refusal)
        refusal = check_access(size, offset);
    if (!refusal)
        *value = read_register(&b.r.registers, 1 | b.r.nbwblks << 8 | b.r.mrbwb << 32, size,
                               offset);
    return refusal;
}

uint64_t NAME(bandwidth_write)(BANDWIDTH_SLICES(), uint64_t size,
                               uint64_t offset, uint64_t value)
{
    struct bandwidth b;
    uint64_t refusal = bandwidth_open(&b, BANDWIDTH_PASSED);
    if (!refusal)
        refusal = check_write(size, offset, value);
    if (refusal)
        return refusal;
    switch (offset) { /* the other registers and halves drop the write */
    case MON_CTL:
        perform_monitor(&b.monitor, value, &b.r.registers);
        break;
    case ALLOC_CTL:
        bandwidth_perform_alloc(&b, value);
        break;
    case ALLOC:
        b.r.registers.limit = value & SETTING;
        break;
    }
    bandwidth_save(&b);
    return 0;
}

uint64_t NAME(bandwidth_request)(BANDWIDTH_SLICES(), uint64_t rcid,
                                 uint64_t mcid, uint64_t at, uint64_t kind,
                                 uint32_t bytes, uint64_t *reserved, uint64_t *pool)
{
    struct bandwidth b;
    *reserved = *pool = 0;
    uint64_t refusal = bandwidth_open(&b, BANDWIDTH_PASSED);
    if (refusal)
        return refusal;
    return request(&b, REFUSED_IDENTIFIER, rcid, mcid, at, kind, bytes, reserved, pool);
}

uint64_t NAME(bandwidth_device_request)(BANDWIDTH_SLICES(), uint64_t mode,
                                        uint64_t word, uint64_t at, uint64_t kind,
                                        uint32_t bytes, uint64_t *reserved, uint64_t *pool)
{
    struct bandwidth b;
    *reserved = *pool = 0;
    uint64_t refusal = bandwidth_open(&b, BANDWIDTH_PASSED);
    if (refusal)
        return refusal;
    if (mode <= 1) /* off or bare: iommu_qosid */
        return request(&b, REFUSED_IDENTIFIER, field(word, 0, 12), field(word, 16, 12), at,
                       kind, bytes, reserved, pool);
    return request(&b, REFUSED_DEVICE_CONTEXT, field(word, 40, 12), field(word, 52, 12), at,
                   kind, bytes, reserved, pool); /* DC.ta */
}

uint64_t NAME(bandwidth_wait)(BANDWIDTH_SLICES(), uint64_t rcid, uint64_t mcid,
                              uint64_t at, uint64_t kind, uint32_t bytes)
{
    struct bandwidth b;
    uint64_t refusal = bandwidth_open(&b, BANDWIDTH_PASSED);
    if (refusal)
        return refusal;
    if (rcid >= b.r.nr || mcid >= b.r.nm)
        return REFUSED_IDENTIFIER;
    if (load64(waiters, rcid) != 0)
        return REFUSED_ALREADY_WAITS;
    if (bytes == 0)
        return REFUSED_NO_BYTES;
    uint64_t known_at = at >= b.r.na ? 0 : at, write = kind != 0;
    store64(waiters, rcid,
            bytes | mcid << WAITER_MCID_LOW | known_at << WAITER_AT_LOW |
                write << WAITER_WRITE_LOW);
    return 0;
}

uint64_t NAME(bandwidth_need)(BANDWIDTH_SLICES(const), uint64_t rcid, uint64_t *need)
{
    struct bandwidth b;
    *need = 0;
    uint64_t refusal = bandwidth_open(&b, BANDWIDTH_PASSED);
    if (refusal)
        return refusal;
    if (rcid >= b.r.nr)
        return REFUSED_IDENTIFIER;
    *need = field(load64(waiters, rcid), 0, 32);
    return 0;
}

uint64_t NAME(bandwidth_end_window)(BANDWIDTH_SLICES())
{
    struct bandwidth b;
    uint64_t refusal = bandwidth_open(&b, BANDWIDTH_PASSED);
    if (refusal)
        return refusal;
    memcpy(active, configured, configured_len);
    memset(used, 0, used_len);
    b.active_sum = b.configured_sum;
    b.r.pool_given = 0;
    if (b.waiting)
        serve_pool(&b, serve_reserved(&b));
    bandwidth_save(&b);
    return 0;
}

/* The capacity controller's calls */

uint64_t NAME(capacity_reset)(uint64_t ncblks, uint64_t nr, uint64_t na,
                              uint64_t nm, uint64_t w, uint64_t u, CAPACITY_SLICES())
{
    struct capacity c = {.r = {ncblks, nr, na, nm, w, u, .registers = {0}}};
    if (record_len != sizeof c.r || !capacity_setup_good(&c.r))
        return REFUSED_SETUP;
    uint64_t refusal = capacity_attach(&c, CAPACITY_PASSED);
    if (refusal)
        return refusal;
    memset(masks, 0, masks_len);
    for (uint64_t at = 0; at < na; at++)
        store64(masks, at, block_bits(ncblks));
    memset(counters, 0, counters_len);
    memset(events, 0, events_len);
    memset(owners, 0, owners_len);
    capacity_save(&c);
    return 0;
}

uint64_t NAME(capacity_read)(CAPACITY_SLICES(const), uint64_t size,
                             uint64_t offset, uint64_t *value)
{
    struct capacity c;
    *value = 0;
    uint64_t refusal = capacity_open(&c, CAPACITY_PASSED);
    if (!refusal)
        refusal = check_access(size, offset);
    if (!refusal)
        *value = read_register(&c.r.registers, 1 | c.r.ncblks << 8 | FRCID, size, offset);
    return refusal;
}

uint64_t NAME(capacity_write)(CAPACITY_SLICES(), uint64_t size, uint64_t offset,
                              uint64_t value)
{
    struct capacity c;
    uint64_t refusal = capacity_open(&c, CAPACITY_PASSED);
    if (!refusal)
        refusal = check_write(size, offset, value);
    if (refusal)
        return refusal;
    uint64_t mask = c.r.registers.limit;
    switch (offset) { /* the other registers and halves drop the write */
    case MON_CTL:
        perform_monitor(&c.monitor, value, &c.r.registers);
        break;
    case ALLOC_CTL:
        capacity_perform_alloc(&c, value);
        break;
    case ALLOC:
        mask = size == 8 ? value : (mask & ~(uint64_t)UINT32_MAX) | value;
        c.r.registers.limit = mask & block_bits(c.r.ncblks);
        break;
    case ALLOC + 4:
        mask = (mask & UINT32_MAX) | value << 32;
        c.r.registers.limit = mask & block_bits(c.r.ncblks);
        break;
    }
    capacity_save(&c);
    return 0;
}

uint64_t NAME(capacity_fill)(CAPACITY_SLICES(), uint64_t rcid, uint64_t mcid,
                             uint64_t at, uint64_t unit, uint64_t *allowed)
{
    struct capacity c;
    *allowed = 0;
    uint64_t refusal = capacity_open(&c, CAPACITY_PASSED);
    if (refusal)
        return refusal;
    if (rcid >= c.r.nr || mcid >= c.r.nm)
        return REFUSED_IDENTIFIER;
    if (unit >= c.units)
        return REFUSED_UNIT;
    if (at >= c.r.na)
        at = 0;
    if (!(load64(masks, rcid * c.r.na + at) >> unit / c.r.u & 1))
        return 0;
    *allowed = 1;
    evict(&c, unit);
    store32(owners, unit,
            (uint32_t)(rcid | mcid << OWNER_MCID_LOW | at << OWNER_AT_LOW | 1 << OWNED_LOW));
    count_unit(&c, mcid, at, true);
    return 0;
}

uint64_t NAME(capacity_evict)(CAPACITY_SLICES(), uint64_t unit)
{
    struct capacity c;
    uint64_t refusal = capacity_open(&c, CAPACITY_PASSED);
    if (refusal)
        return refusal;
    if (unit >= c.units)
        return REFUSED_UNIT;
    evict(&c, unit);
    return 0;
}
