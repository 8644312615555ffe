/*
 * plain.c with check 3 and a flush tuned by hand: loops without exits that gather
 * what must be 0 with |, so that the compiler turns them into vector code.
 *
 * - Settings are read in parts of at most 128 words. A part that is all 0 is
 *   done at once, and so is a part of the configured table that equals the
 *   same part of the table in force.
 * - A well-formed sharer's Rbwb is 0, so the sum takes every word's Rbwb, and
 *   a pair with Rbwb other than 0 is a holder.
 * - In a row, the ATs that are shared must all be holders. This one test says
 *   that sharedAT is below NA, is not the pair itself and is a holder.
 * - In a row, no bit of Mweight may be 1 in one pair and 0 in a holder. So the
 *   holders have one weight; a pair without Rbwb fails by its own weight.
 * - Both tests of a row are one, over a word of marks for each pair.
 * - An owner's RCID, MCID or AT that is out of range shows as a carry once the
 *   numbers that its field has beyond the range are added.
 * - A flush passes over 16 units at a time if none of them is the RCID's.
 */
#ifndef PREFIX
#define PREFIX tuned_
#endif
#define BANDWIDTH_TABLES_OK tuned_bandwidth_tables_ok
#define WAITERS_OK tuned_waiters_ok
#define CAPACITY_TABLES_OK tuned_capacity_tables_ok
#define OWNERS_OK tuned_owners_ok
#define FLUSH tuned_flush
#include "plain.c"

enum {
    PART = 128,      /* words of a part, at most */
    FLUSH_PART = 16, /* units that a flush looks at together */
    SMALL = 6        /* tables up to this many words are read the plain way */
};

/* mark_bits[NA - 2][i]: bit 16 + AT, where AT is i modulo NA, and bits 31:24. */
#define B(at) (UINT32_C(0xff000000) | UINT32_C(1) << (16 + (at)))
#define AT2 B(0), B(1)
#define AT3 AT2, B(2)
#define AT4 AT3, B(3)
#define AT5 AT4, B(4)
#define AT6 AT5, B(5)
#define AT7 AT6, B(6)
#define AT8 AT7, B(7)
#define TWICE(...) __VA_ARGS__, __VA_ARGS__
#define FOUR(...) TWICE(TWICE(__VA_ARGS__))
#define EIGHT(...) TWICE(FOUR(__VA_ARGS__))
static const uint32_t mark_bits[7][PART] = {
    {EIGHT(EIGHT(AT2))},
    {FOUR(EIGHT(AT3)), EIGHT(AT3), TWICE(AT3)},
    {FOUR(EIGHT(AT4))},
    {TWICE(EIGHT(AT5)), EIGHT(AT5), AT5},
    {TWICE(EIGHT(AT6)), FOUR(AT6), AT6},
    {TWICE(EIGHT(AT7)), TWICE(AT7)},
    {TWICE(EIGHT(AT8))},
};

/* 1 << sharedAT for a well-formed sharer and 0 for no sharer, as vectors have
 * no such shift: the four top bits become the exponent of a float that is below
 * 1 without useShared and otherwise from 1 to below 256. */
static inline uint32_t shared_bit(uint32_t word)
{
    uint32_t bits = (word >> 5) + UINT32_C(0x3b800000);
    float number;
    memcpy(&number, &bits, sizeof number);
    return (uint32_t)(int32_t)number;
}

/* What the words of a part amount to: those with useShared 1 and those with
 * useShared 0, each gathered with |, and all Rbwb. */
struct gathered {
    uint32_t sharers, others, sum;
};

/* Marks for each pair: bit sharedAT for a sharer; Mweight in bits 15:8; bit
 * 16 + AT for a holder; in bits 31:24 those of Mweight that a holder lacks or
 * a pair without Rbwb has. */
static struct gathered gather(const uint8_t *restrict part, size_t n,
                              const uint32_t *restrict bits, uint32_t *restrict marks)
{
    struct gathered g = {0, 0, 0};
    for (size_t i = 0; i < n; i++) {
        uint32_t word = load32(part, i);
        uint32_t sharer = -(word >> 31);
        uint32_t holder = (word & RBWB) == 0 ? 0 : UINT32_MAX;
        uint32_t weight = (word & MWEIGHT) << 4;
        g.sharers |= word & sharer;
        g.others |= word & ~sharer;
        g.sum += word & RBWB;
        marks[i] = shared_bit(word) | weight >> 16 | ((bits[i] & holder) ^ weight);
    }
    return g;
}

/* Not 0 if in some row an AT is shared that is no holder, or a bit of Mweight
 * is there and lacking. */
static inline uint32_t rows_bad(const uint32_t *marks, size_t rows, size_t na)
{
    uint32_t bad = 0;
    for (size_t row = 0; row < rows; row++) {
        uint32_t all = 0;
        for (size_t at = 0; at < na; at++)
            all |= marks[row * na + at];
        bad |= all & (all >> 16 ^ 0xff);
    }
    return bad;
}

/* The same with NA, 2 or more, known to the compiler. */
static uint32_t marks_bad(const uint32_t *marks, size_t rows, size_t na)
{
    switch (na) {
    case 2:
        return rows_bad(marks, rows, 2);
    case 3:
        return rows_bad(marks, rows, 3);
    case 4:
        return rows_bad(marks, rows, 4);
    case 5:
        return rows_bad(marks, rows, 5);
    case 6:
        return rows_bad(marks, rows, 6);
    case 7:
        return rows_bad(marks, rows, 7);
    default:
        return rows_bad(marks, rows, 8);
    }
}

/* Whether the part's rows are well formed; adds their Rbwb to *sum. */
static bool rows_ok(const uint8_t *part, size_t rows, size_t na, uint64_t *sum)
{
    uint32_t marks[PART];
    struct gathered g = gather(part, rows * na, mark_bits[na - 2], marks);
    *sum += g.sum;
    if ((g.sharers & ~(USE_SHARED | SHARED_AT)) || (g.others & ~(RBWB | MWEIGHT)))
        return false;
    if (!g.sharers && !(g.others & MWEIGHT))
        return true;
    return marks_bad(marks, rows, na) == 0;
}

/* The same with NA 1: there are no sharers, and a row has one weight. */
static bool pairs_ok(const uint8_t *part, size_t n, uint64_t *sum)
{
    uint32_t bad = 0, rbwbs = 0;
    for (size_t i = 0; i < n; i++) {
        uint32_t word = load32(part, i);
        bad |= (word & RBWB) == 0 ? word : word & ~(RBWB | MWEIGHT);
        rbwbs += word & RBWB;
    }
    *sum += rbwbs;
    return !bad;
}

static bool part_ok(const uint8_t *part, size_t rows, size_t na, uint64_t *sum)
{
    return na == 1 ? pairs_ok(part, rows, sum) : rows_ok(part, rows, na, sum);
}

static uint32_t any_word(const uint8_t *table, size_t n)
{
    uint32_t any = 0;
    for (size_t i = 0; i < n; i++)
        any |= load32(table, i);
    return any;
}

/* Rbwb * Q is below 2^32 for every set-up. */
static bool used_part_ok(const uint8_t *restrict part,
                             const uint8_t *restrict used, size_t n, uint32_t q)
{
    uint32_t bad = 0;
    for (size_t i = 0; i < n; i++)
        bad |= load32(used, i) > (load32(part, i) & RBWB) * q;
    return !bad;
}

static bool all_zero(const uint8_t *active, const uint8_t *configured,
                     const uint8_t *used, size_t n)
{
    return load32(active, 0) == 0 && any_word(active, n) == 0 &&
           any_word(configured, n) == 0 && any_word(used, n) == 0;
}

/* The rows from the given first one, in all three tables. */
static bool rows_in_tables_ok(struct bandwidth *b, size_t first, size_t rows)
{
    size_t na = b->r.na, n = rows * na, start = 4 * first * na;
    const uint8_t *active = b->active + start;
    const uint8_t *configured = b->configured + start;
    const uint8_t *used = b->used + start;
    uint64_t sum = 0;
    if (all_zero(active, configured, used, n))
        return true;
    if (!part_ok(active, rows, na, &sum) ||
        !used_part_ok(active, used, n, (uint32_t)b->r.q))
        return false;
    b->active_sum += sum;
    if (memcmp(active, configured, 4 * n) == 0)
        b->configured_sum += sum;
    else if (!part_ok(configured, rows, na, &b->configured_sum))
        return false;
    return true;
}

static bool settings_and_used_ok(struct bandwidth *b)
{
    size_t rows = PART / b->r.na;
    b->active_sum = 0;
    b->configured_sum = 0;
    for (size_t first = 0; first < b->r.nr; first += rows) {
        size_t left = b->r.nr - first;
        if (!rows_in_tables_ok(b, first, left < rows ? left : rows))
            return false;
    }
    return b->active_sum <= b->r.mrbwb && b->configured_sum <= b->r.mrbwb;
}

static uint64_t any_word64(const uint8_t *table, size_t n)
{
    uint64_t any = 0;
    for (size_t i = 0; i < n; i++)
        any |= load64(table, i);
    return any;
}

/* Not 0 if a counter setting is one that no operation stores. The last event
 * is 3 or 1, so higher ones show as a bit. */
static uint16_t events_bad(const struct monitor *m)
{
    uint16_t never = (uint16_t)(EVENT_UNNAMED | (0xff & ~m->last_event));
    uint16_t top_at = (uint16_t)((m->na - 1) << 8);
    uint16_t bad = 0;
    if (m->na == 1)
        never |= EVENT_ATV;
    for (size_t i = 0; i < m->nm; i++) {
        uint16_t setting = load16(m->events, i);
        uint16_t at = setting & 0x0700;
        bad |= setting & never;
        bad |= setting & 0xff ? 0 : setting;
        bad |= setting & EVENT_ATV ? 0 : at;
        bad |= at > top_at;
    }
    return bad;
}

/* Not 0 if a word of waiters is one that no call stores: the need is its low half,
 * and MCID, AT and write stand in 11:0 of its high half. */
static uint32_t waiters_bad(const struct bandwidth *b)
{
    uint32_t top_mcid = (uint32_t)b->r.nm - 1, top_at = (uint32_t)(b->r.na - 1) << 8;
    uint32_t bad = 0;
    for (size_t i = 0; i < b->r.nr; i++) {
        uint32_t need = load32(b->waiters, 2 * i), rest = load32(b->waiters, 2 * i + 1);
        bad |= rest >> 12;
        bad |= need == 0 ? rest : 0;
        bad |= (int32_t)(rest & 0xff) > (int32_t)top_mcid;
        bad |= (int32_t)(rest & 0x700) > (int32_t)top_at;
    }
    return bad;
}

/* Where no request waits, that is all there is to see. */
static bool tuned_waiters_ok(struct bandwidth *b)
{
    if (b->r.nr <= SMALL)
        return waiters_ok(b);
    b->waiting = any_word64(b->waiters, b->r.nr);
    return b->waiting == 0 || waiters_bad(b) == 0;
}

static bool tuned_bandwidth_tables_ok(struct bandwidth *b)
{
    const struct monitor *m = &b->monitor;
    if (b->r.nr * b->r.na <= SMALL)
        return bandwidth_tables_ok(b);
    return settings_and_used_ok(b) &&
           (any_word64(m->counters, m->nm) & ~BANDWIDTH_FLAGS) >> b->r.w == 0 &&
           events_bad(m) == 0;
}

static bool tuned_capacity_tables_ok(const struct capacity *c)
{
    const struct monitor *m = &c->monitor;
    if (c->r.nr * c->r.na <= SMALL)
        return capacity_tables_ok(c);
    return (any_word64(c->masks, c->r.nr * c->r.na) & ~block_bits(c->r.ncblks)) == 0 &&
           (any_word64(m->counters, m->nm) & ~CAPACITY_INVALID) >> c->r.w == 0 &&
           events_bad(m) == 0;
}

/* Not 0 if a word of owners is one that no fill stores. */
static uint32_t owners_bad(const struct capacity *c)
{
    uint32_t beyond = (uint32_t)(256 - c->r.nr) | (uint32_t)(8 - c->r.na) << OWNER_AT_LOW;
    uint32_t beyond_mcids = (uint32_t)(256 - c->r.nm) << OWNER_MCID_LOW;
    uint32_t sums = 0, mcid_sums = 0, not_owned = 0, all = 0;
    for (size_t i = 0; i < c->units; i++) {
        uint32_t word = load32(c->owners, i);
        sums |= (word & 0x700ff) + beyond; /* carries of RCID and AT: bits 8 and 19 */
        mcid_sums |= (word & 0xff00) + beyond_mcids; /* bit 16 */
        not_owned |= word >> OWNED_LOW == 0 ? word : 0;
        all |= word;
    }
    return (sums & 0x80100) | (mcid_sums & 0x10000) | not_owned | all >> (OWNED_LOW + 1);
}

static bool tuned_owners_ok(const struct capacity *c)
{
    return c->units <= SMALL ? owners_ok(c) : owners_bad(c) == 0;
}

static void tuned_flush(struct capacity *c, uint64_t rcid, uint64_t first, uint64_t end)
{
    uint32_t owned = UINT32_C(1) << OWNED_LOW;
    for (; end - first >= FLUSH_PART; first += FLUSH_PART) {
        uint32_t any = 0;
        for (uint64_t i = 0; i < FLUSH_PART; i++)
            any |= (load32(c->owners, first + i) & (owned | 0xff)) == (owned | (uint32_t)rcid);
        if (any)
            flush(c, rcid, first, first + FLUSH_PART);
    }
    flush(c, rcid, first, end);
}
