/*
 * Random set-ups, states, damage and calls for both controllers, from a seed:
 * the same on every compiler and machine with little-endian words.
 */
#ifndef CALLS_H
#define CALLS_H

#include "interface.h"

#include <string.h>

/* The slices of a controller by number. */
enum {
    RECORD, ACTIVE, CONFIGURED, USED, BANDWIDTH_COUNTERS, BANDWIDTH_EVENTS, WAITERS,
    BANDWIDTH_SLICES_END
};
enum { MASKS = 1, CAPACITY_COUNTERS, CAPACITY_EVENTS, OWNERS, CAPACITY_SLICES_END };
enum { MAX_SLICES = BANDWIDTH_SLICES_END };

struct slice {
    uint8_t *at;
    size_t length;
};

static uint64_t seed = 1;

/* A number from 0 to below - 1. */
static uint64_t upto(uint64_t below)
{
    return next_random(&seed) % below;
}

/* A number of any length up to so many bits. */
static uint64_t random_word(unsigned bits)
{
    uint64_t word = next_random(&seed) >> (64 - bits);
    return word >> upto(bits);
}

static int one_in(uint64_t n)
{
    return upto(n) == 0;
}

/* A number below this one, often a low one: in large tables few other pairs are set. */
static uint64_t near_front(uint64_t below)
{
    return upto(below > 8 && one_in(2) ? 8 : below);
}

/* One of a list. At most one entry may draw a number, since C leaves open in
 * which order the entries are worked out. */
static uint64_t pick(const uint64_t *list, size_t length)
{
    return list[upto(length)];
}
#define PICK(...)                                                              \
    pick((const uint64_t[]){__VA_ARGS__},                                      \
         sizeof((const uint64_t[]){__VA_ARGS__}) / sizeof(uint64_t))

/* Set-ups */

struct setup {
    uint64_t nbwblks, mrbwb, ncblks, nr, na, nm, q, w, u;
};

static struct setup random_setup(void)
{
    struct setup s;
    s.nbwblks = PICK(1, 2, 10, 100, 1000, 65535, 1 + upto(65535));
    s.mrbwb = one_in(3) ? s.nbwblks : 1 + upto(s.nbwblks);
    s.ncblks = PICK(1, 2, 31, 32, 33, 63, 64, 1 + upto(64));
    s.nr = PICK(1, 2, 4, 5, 8, 17, 256, 1 + upto(one_in(2) ? 40 : 256));
    s.na = 1 + upto(8);
    s.nm = PICK(1, 2, 4, 7, 16, 1 + upto(256), 256);
    s.q = PICK(1, 2, 64, 4096, 65535, 65536, 1 + upto(65536));
    s.w = PICK(24, 25, 32, 61, 62, 24 + upto(39));
    s.u = PICK(1, 2, 3, 4, 8, 64, 1 + upto(64));
    return s;
}

/* Operands */

static uint64_t random_bw_alloc(const struct setup *s)
{
    uint64_t rbwb = PICK(0, 1, 1, 2, s->mrbwb, upto(one_in(2) ? s->mrbwb + 2 : s->mrbwb / 8 + 1));
    uint64_t shared = upto(16) << 28, weight = upto(256) << 20;
    uint64_t rest = PICK(0, UINT64_C(1) << 31, shared, weight, weight, weight);
    uint64_t stray = one_in(8) ? next_random(&seed) : 0;
    return ((rbwb & 0xffff) | rest) ^ stray;
}

/* Random well-formed tables */

static void random_row(void *table, const struct setup *s, uint64_t rcid, uint64_t *left)
{
    uint8_t holders[8], count = 0;
    uint64_t row = rcid * s->na, weight = one_in(3) ? 0 : upto(256);
    for (uint64_t at = 0; at < s->na; at++) {
        put_word(table, row + at, 4, 0);
        if (*left == 0 || one_in(2))
            continue;
        uint64_t rbwb = 1 + upto(one_in(20) || *left < 8 ? *left : *left / 8);
        put_word(table, row + at, 4, rbwb | weight << 20);
        holders[count++] = (uint8_t)at;
        *left -= rbwb;
    }
    for (uint64_t at = 0; count && at < s->na; at++)
        if (get_word(table, row + at, 4) == 0 && one_in(2))
            put_word(table, row + at, 4, (UINT64_C(8) | holders[upto(count)]) << 28);
}

/* A request that waits; its need is at times near the blocks that its holder may have. */
static uint64_t random_waiter(const struct setup *s)
{
    uint64_t blocks = s->q * (1 + upto(8));
    uint64_t need = PICK(1, blocks, blocks + 1, blocks - 1, UINT32_MAX, 1 + upto(UINT32_MAX));
    uint64_t mcid = upto(s->nm), at = upto(s->na), write = upto(2);
    return (need ? need : 1) | mcid << 32 | at << 40 | write << 43;
}

/* Under none, few, half or all of the RCIDs a request waits. */
static void random_waiters(void *table, const struct setup *s)
{
    uint64_t one = PICK(0, 8, 2, 1);
    for (uint64_t rcid = 0; rcid < s->nr; rcid++)
        put_word(table, rcid, 8, one && one_in(one) ? random_waiter(s) : 0);
}

/* Of all blocks, or of half of them, some are held; hands back how many. */
static uint64_t random_settings(void *table, const struct setup *s)
{
    uint64_t most = PICK(s->mrbwb, s->mrbwb / 2), left = most;
    memset(table, 0, 4 * s->nr * s->na);
    for (uint64_t rcid = 0; rcid < s->nr; rcid++)
        if (!one_in(4))
            random_row(table, s, rcid, &left);
    return most - left;
}

static void random_monitor(void *counters, void *events, const struct setup *s,
                           uint64_t last_event, uint64_t flags)
{
    for (uint64_t i = 0; i < s->nm; i++) {
        uint64_t top = (UINT64_C(1) << s->w) - 1;
        uint64_t near = top - upto(300);
        uint64_t counter = PICK(0, 1, top, top - 1, near, upto(top));
        uint64_t event = upto(last_event + 1);
        if (event && s->na > 1 && one_in(2))
            event |= 0x800 | upto(s->na) << 8;
        put_word(counters, i, 8, counter | (next_random(&seed) & flags));
        put_word(events, i, 2, event);
    }
}

static void random_bandwidth(const struct slice *list, const struct setup *s)
{
    uint8_t *active = list[ACTIVE].at, *configured = list[CONFIGURED].at;
    uint64_t sum = random_settings(active, s);
    uint64_t pool = (s->nbwblks - sum) * s->q;
    if (one_in(3))
        memcpy(configured, active, list[ACTIVE].length);
    else
        random_settings(configured, s);
    for (uint64_t i = 0; i < s->nr * s->na; i++) {
        uint64_t limit = (get_word(active, i, 4) & 0xffff) * s->q;
        put_word(list[USED].at, i, 4, PICK(0, limit, limit ? upto(limit) : 0));
    }
    random_monitor(list[BANDWIDTH_COUNTERS].at, list[BANDWIDTH_EVENTS].at, s, 3, UINT64_C(3) << 62);
    random_waiters(list[WAITERS].at, s);
    put_word(list[RECORD].at, 10, 8, random_bw_alloc(s) & 0xfff0ffff);
    put_word(list[RECORD].at, 11, 8, PICK(0, pool, pool ? upto(pool) : 0));
}

/* Few RCIDs own most units, so that a flush finds some. */
static uint64_t random_owner(const struct setup *s)
{
    uint64_t rcid = near_front(s->nr), mcid = upto(s->nm), at = upto(s->na);
    return rcid | mcid << 8 | at << 16 | UINT64_C(1) << 19;
}

/* None, few, half or all of the units are owned. */
static void random_owners(void *table, const struct setup *s)
{
    uint64_t one = PICK(0, 8, 2, 1);
    for (uint64_t unit = 0; unit < s->ncblks * s->u; unit++)
        put_word(table, unit, 4, one && one_in(one) ? random_owner(s) : 0);
}

static void random_capacity(const struct slice *list, const struct setup *s)
{
    uint64_t blocks = UINT64_MAX >> (64 - s->ncblks);
    for (uint64_t i = 0; i < s->nr * s->na; i++)
        put_word(list[MASKS].at, i, 8, PICK(0, blocks, next_random(&seed) & blocks));
    random_owners(list[OWNERS].at, s);
    random_monitor(list[CAPACITY_COUNTERS].at, list[CAPACITY_EVENTS].at, s, 1, UINT64_C(1) << 63);
}

/* Damage */

/* One word becomes another, mostly a near one. */
static void damage_word(void *table, size_t length, unsigned bytes)
{
    uint64_t index = near_front(length / bytes);
    uint64_t word = get_word(table, index, bytes);
    switch (upto(6)) {
    case 0:
        word ^= UINT64_C(1) << upto(8 * bytes);
        break;
    case 1:
        word += one_in(2) ? 1 : UINT64_MAX;
        break;
    case 2:
        word = next_random(&seed);
        break;
    case 3:
        word = bytes == 4 ? upto(16) << 28 : 0;
        break;
    case 4:
        word = get_word(table, upto(length / bytes), bytes);
        break;
    case 5: /* the weight of a setting */
        word ^= (1 + upto(255)) << (bytes == 4 ? 20 : 0);
        break;
    }
    put_word(table, index, bytes, word);
}

/* One unit is owned, but with a field that no fill stores. */
static void damage_owner(void *table, const struct setup *s)
{
    uint64_t unit = near_front(s->ncblks * s->u), owner = random_owner(s);
    uint64_t outside[] = {s->nr, s->nm << 8, s->na << 16}, fields[] = {0xff, 0xff00, 0x70000};
    uint64_t place = upto(4);
    owner = place == 3 ? owner & 0x7ffff : (owner & ~fields[place]) | outside[place];
    put_word(table, unit, 4, owner);
}

static void damage_length(size_t *length)
{
    *length = PICK(0, *length - 1, *length / 2, *length > 4 ? *length - 4 : 0);
}

/* Random calls */

enum kind {
    RESET, READ, WRITE, REQUEST, END_WINDOW, DEVICE_REQUEST, WAIT, NEED,
    FILL = REQUEST, EVICT = END_WINDOW
};

struct call {
    enum kind kind;
    struct setup setup;             /* of a reset */
    uint64_t size, offset, value;   /* of a read or write */
    uint64_t rcid, mcid, at, which; /* of a request or cache event: its kind or unit */
    uint64_t mode, word;            /* of a device's request, beside at and which */
    uint32_t bytes;
};

/* A word for a control register, whose operations are 1 to ops. */
static uint64_t random_control(const struct setup *s, uint64_t ids, uint64_t ops)
{
    uint64_t op = one_in(10) ? upto(32) : 1 + upto(ops);
    uint64_t at = one_in(10) ? upto(8) : upto(s->na);
    uint64_t id = one_in(10) ? upto(4096) : near_front(ids);
    uint64_t event = one_in(10) ? upto(256) : upto(5);
    uint64_t stray = one_in(8) ? next_random(&seed) << 29 : 0;
    return op | at << 5 | id << 8 | event << 20 | upto(2) << 28 | stray;
}

static void random_access(struct call *c, const struct setup *s, int bandwidth)
{
    c->size = one_in(20) ? PICK(0, 1, 2, 3, 5, 16, UINT64_MAX) : one_in(3) ? 4 : 8;
    c->offset = one_in(20) ? PICK(1, 2, 4, 36, 40, 44, UINT64_MAX - 3, UINT64_MAX - 7)
                           : PICK(0, 8, 16, 24, 24, 32, 32);
    if (c->offset <= 32 && c->size == 4 && one_in(3))
        c->offset += 4;
    c->value = random_word(64);
    if (c->offset == 32 && bandwidth)
        c->value = random_bw_alloc(s);
    if (c->offset == 8)
        c->value = random_control(s, s->nm, 2);
    if (c->offset == 24)
        c->value = random_control(s, s->nr, bandwidth ? 2 : 3);
    if (c->size == 4 && !one_in(20))
        c->value &= UINT32_MAX;
}

/* An identifier of 12 bits; NR and NM are at most 256. */
static uint64_t random_id(uint64_t ids)
{
    return one_in(20) ? PICK(ids, UINT64_C(256) << upto(4), 0xfff) : upto(ids);
}

/* The identifiers stand where the mode has them; the other bits may be anything. */
static void random_device(struct call *c, const struct setup *s)
{
    uint64_t rcid = random_id(s->nr), mcid = random_id(s->nm);
    uint64_t stray = one_in(2) ? next_random(&seed) : 0;
    c->mode = PICK(0, 0, 1, 1, 2, 3, 4, UINT64_C(1) << 32, UINT64_MAX);
    if (c->mode <= 1)
        c->word = rcid | mcid << 16 | (stray & ~UINT64_C(0x0fff0fff));
    else
        c->word = rcid << 40 | mcid << 52 | (stray & UINT64_C(0xffffffffff));
}

/* Often one of the first units, so that fills and evictions meet. */
static uint64_t random_unit(const struct setup *s)
{
    uint64_t units = s->ncblks * s->u;
    return one_in(10) ? PICK(units, 64 * 64, UINT64_MAX) : near_front(units);
}

static struct call random_call(const struct setup *s, int bandwidth)
{
    struct call c = {0};
    c.kind = (enum kind)PICK(READ, WRITE, WRITE, WRITE, REQUEST, REQUEST, END_WINDOW,
                             bandwidth ? DEVICE_REQUEST : FILL, bandwidth ? WAIT : FILL,
                             bandwidth ? NEED : EVICT);
    if (one_in(50))
        c.kind = RESET;
    c.setup = *s;
    if (one_in(2)) {
        uint64_t *numbers[] = {&c.setup.nbwblks, &c.setup.mrbwb, &c.setup.ncblks, &c.setup.nr,
                               &c.setup.na, &c.setup.nm, &c.setup.q, &c.setup.w, &c.setup.u};
        uint64_t *number = numbers[upto(9)];
        *number = PICK(0, *number + 1, *number - 1, 65, 257, 65537, UINT64_MAX);
    }
    random_access(&c, s, bandwidth);
    c.rcid = one_in(20) ? PICK(s->nr, UINT64_MAX) : upto(s->nr);
    c.mcid = one_in(20) ? PICK(s->nm, UINT64_MAX) : upto(s->nm);
    c.at = one_in(10) ? PICK(s->na, 8, UINT64_MAX) : upto(s->na);
    c.which = bandwidth ? PICK(0, 0, 1, 2, UINT64_MAX) : random_unit(s);
    c.bytes = one_in(8) ? 0 : (uint32_t)random_word(32);
    random_device(&c, s);
    return c;
}

/* A call on slices */

/* The numbers that a call hands back go to out: that of a read, a need or a fill to
 * the first place, a request's reserved bytes to the first and its pool bytes to the
 * second. */
enum { NUMBERS = 2 };

#define FIVE(s)                                                                \
    (s)[0].at, (s)[0].length, (s)[1].at, (s)[1].length, (s)[2].at,             \
        (s)[2].length, (s)[3].at, (s)[3].length, (s)[4].at, (s)[4].length
#define SEVEN(s)                                                               \
    FIVE(s), (s)[5].at, (s)[5].length, (s)[6].at, (s)[6].length

static uint64_t call_bandwidth(const struct interface *f, const struct slice *b,
                               const struct call *c, uint64_t *const out[NUMBERS])
{
    const struct setup *s = &c->setup;
    switch (c->kind) {
    case RESET:
        return f->bandwidth_reset(s->nbwblks, s->mrbwb, s->nr, s->na, s->nm, s->q, s->w, SEVEN(b));
    case READ:
        return f->bandwidth_read(SEVEN(b), c->size, c->offset, out[0]);
    case WRITE:
        return f->bandwidth_write(SEVEN(b), c->size, c->offset, c->value);
    case REQUEST:
        return f->bandwidth_request(SEVEN(b), c->rcid, c->mcid, c->at, c->which, c->bytes, out[0],
                                    out[1]);
    case DEVICE_REQUEST:
        return f->bandwidth_device_request(SEVEN(b), c->mode, c->word, c->at, c->which, c->bytes,
                                           out[0], out[1]);
    case WAIT:
        return f->bandwidth_wait(SEVEN(b), c->rcid, c->mcid, c->at, c->which, c->bytes);
    case NEED:
        return f->bandwidth_need(SEVEN(b), c->rcid, out[0]);
    default:
        return f->bandwidth_end_window(SEVEN(b));
    }
}

static uint64_t call_capacity(const struct interface *f, const struct slice *b,
                              const struct call *c, uint64_t *const out[NUMBERS])
{
    const struct setup *s = &c->setup;
    switch (c->kind) {
    case RESET:
        return f->capacity_reset(s->ncblks, s->nr, s->na, s->nm, s->w, s->u, FIVE(b));
    case READ:
        return f->capacity_read(FIVE(b), c->size, c->offset, out[0]);
    case WRITE:
        return f->capacity_write(FIVE(b), c->size, c->offset, c->value);
    case FILL:
        return f->capacity_fill(FIVE(b), c->rcid, c->mcid, c->at, c->which, out[0]);
    default:
        return f->capacity_evict(FIVE(b), c->which);
    }
}

/* The controllers */

enum { ANSWERS = 12, KINDS = 8 };

struct controller {
    const char *name, *calls[KINDS]; /* by kind, as many as it has */
    int numbers[KINDS];              /* how many numbers a call of each kind hands back */
    int place, slices, calls_of_a_round;
    unsigned answers;            /* bit N: some call answers N */
    size_t record;               /* bytes */
    unsigned widths[MAX_SLICES]; /* bytes of a word in each slice */
    char words[MAX_SLICES + 1];  /* of a pair (p), an MCID (m), an RCID (r) or a unit (u) */
    void (*random_state)(const struct slice *list, const struct setup *s);
    uint64_t (*call)(const struct interface *f, const struct slice *list, const struct call *c,
                     uint64_t *const out[NUMBERS]);
};

enum { CONTROLLERS = 2 };
static const struct controller controllers[CONTROLLERS] = {
    {"bandwidth",
     {"reset", "read", "write", "request", "end_window", "device_request", "wait", "need"},
     {0, 1, 0, 2, 0, 2, 0, 1}, 0, BANDWIDTH_SLICES_END, 32, 0xeff, 96, {8, 4, 4, 4, 8, 2, 8},
     ".pppmmr", random_bandwidth, call_bandwidth},
    {"capacity", {"reset", "read", "write", "fill", "evict"}, {0, 1, 0, 1, 0}, 1,
     CAPACITY_SLICES_END, 12, 0x1ff, 80, {8, 8, 8, 2, 4}, ".pmmu", random_capacity, call_capacity},
};

/* Slices with memory of their own, for the largest set-up. */
struct memory {
    struct slice list[MAX_SLICES];
    uint64_t words[MAX_SLICES][MAX_PAIRS];
};

_Static_assert(4 * MAX_UNITS <= 8 * MAX_PAIRS, "owners fit where masks do");

static uint64_t words_by(char by, const struct setup *s)
{
    switch (by) {
    case 'p':
        return s->nr * s->na;
    case 'm':
        return s->nm;
    case 'r':
        return s->nr;
    default:
        return s->ncblks * s->u;
    }
}

static void fit(struct memory *m, const struct controller *k, const struct setup *s)
{
    for (int i = 0; i < k->slices; i++) {
        size_t length = i == RECORD ? k->record : k->widths[i] * words_by(k->words[i], s);
        m->list[i] = (struct slice){(uint8_t *)m->words[i], length};
    }
}

static void copy_slices(struct memory *to, const struct slice *from, int slices)
{
    for (int i = 0; i < slices; i++) {
        to->list[i] = (struct slice){(uint8_t *)to->words[i], from[i].length};
        memcpy(to->words[i], from[i].at, from[i].length);
    }
}

static void damage(const struct controller *k, struct slice *list, const struct setup *s)
{
    int i = (int)upto((uint64_t)k->slices);
    if (one_in((uint64_t)k->slices))
        damage_length(&list[i].length);
    else if (k->words[i] == 'u' && one_in(2))
        damage_owner(list[i].at, s);
    else
        damage_word(list[i].at, list[i].length, k->widths[i]);
}

/* A round: a set-up, perhaps a random state, then calls, some on damaged copies.
 * make makes one call, and leaves in the slices what it left. */
static void make_round(const struct controller *k,
                       void (*make)(const struct controller *, const struct slice *,
                                    const struct call *))
{
    static struct memory m, damaged;
    struct setup s = random_setup();
    struct call reset = {.kind = RESET, .setup = s};
    memset(m.words, 0xa5, sizeof m.words);
    fit(&m, k, &s);
    make(k, m.list, &reset);
    if (!one_in(3))
        k->random_state(m.list, &s);
    for (int i = 0; i < k->calls_of_a_round; i++) {
        struct call c = random_call(&s, k->place == 0);
        if (one_in(3)) {
            copy_slices(&damaged, m.list, k->slices);
            damage(k, damaged.list, &s);
            make(k, damaged.list, &c);
        } else {
            make(k, m.list, &c);
        }
    }
}

#endif
