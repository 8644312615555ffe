/*
 * The cases of rules P1 to P12 with their numbers, a few of a device's request, of
 * an RCID's weight, of requests that wait and of a cache's units, then random calls
 * on both controllers from a fixed seed. Its output is the same on every machine: a
 * line for each 100 calls has their 100 answers (0, or the refusal's number, a and b
 * for 10 and 11) and a checksum of all that the calls so far have handed back and
 * left in record and tables. It ends with 1 where a case has another number, or some
 * answer never came up.
 */
#include "../bench/calls.h"

#include "../include/cbqri.h"

#include <inttypes.h>
#include <stdio.h>

enum { CALLS = 20000, LINE = 100 };

static const struct interface library = INTERFACE("library", cbqri_);
static int failed;

/* ---- The cases: one controller worked through ---- */

static struct bandwidth_buffers b;

static void expect(const char *name, uint64_t got, uint64_t want)
{
    printf("%s: 0x%016" PRIx64 "%s\n", name, got, got == want ? "" : " IS WRONG");
    failed |= got != want;
}

static void set_up(uint64_t na)
{
    bandwidth_lengths(&b, 4, na, 4);
    expect("reset", cbqri_bandwidth_reset(100, 80, 4, na, 4, 64, 24, BANDWIDTH_OF(&b)), 0);
}

static uint64_t read_register(uint64_t offset)
{
    uint64_t value = 0;
    failed |= cbqri_bandwidth_read(BANDWIDTH_OF(&b), 8, offset, &value) != 0;
    return value;
}

static uint64_t operation(uint64_t offset, uint64_t ctl)
{
    failed |= cbqri_bandwidth_write(BANDWIDTH_OF(&b), 8, offset, ctl) != 0;
    return read_register(offset);
}

static uint64_t limit(uint64_t ctl, uint64_t bw_alloc)
{
    failed |= cbqri_bandwidth_write(BANDWIDTH_OF(&b), 8, CBQRI_BW_ALLOC, bw_alloc) != 0;
    return cbqri_status(operation(CBQRI_ALLOC_CTL, ctl));
}

/* Bytes of the reservation and of the pool. */
struct grant {
    uint64_t reserved, pool;
};

static void expect_grant(const char *name, struct grant got, uint64_t reserved, uint64_t pool)
{
    int right = got.reserved == reserved && got.pool == pool;
    printf("%s: %" PRIu64 " reserved, %" PRIu64 " of the pool%s\n", name, got.reserved, got.pool,
           right ? "" : " IS WRONG");
    failed |= !right;
}

static struct grant granted(uint64_t rcid, uint64_t at, uint32_t bytes)
{
    struct grant g = {1, 1};
    failed |= cbqri_bandwidth_request(BANDWIDTH_OF(&b), rcid, 0, at, 0, bytes, &g.reserved,
                                      &g.pool) != 0;
    return g;
}

static struct grant device_granted(uint64_t mode, uint64_t word, uint64_t at, uint32_t bytes)
{
    struct grant g = {1, 1};
    failed |= cbqri_bandwidth_device_request(BANDWIDTH_OF(&b), mode, word, at, 0, bytes,
                                             &g.reserved, &g.pool) != 0;
    return g;
}

static uint64_t device_refusal(uint64_t mode, uint64_t word)
{
    struct grant g = {1, 1};
    uint64_t answer = cbqri_bandwidth_device_request(BANDWIDTH_OF(&b), mode, word, 0, 0, 10,
                                                     &g.reserved, &g.pool);
    failed |= g.reserved != 0 || g.pool != 0;
    return answer;
}

static uint64_t put_to_wait(uint64_t rcid, uint64_t mcid, uint64_t at, uint32_t bytes)
{
    return cbqri_bandwidth_wait(BANDWIDTH_OF(&b), rcid, mcid, at, 0, bytes);
}

static uint64_t need_of(uint64_t rcid)
{
    uint64_t need = 1;
    failed |= cbqri_bandwidth_need(BANDWIDTH_OF(&b), rcid, &need) != 0;
    return need;
}

static void settings_cases(void)
{
    set_up(2);
    expect("P1", read_register(CBQRI_CAPABILITIES), UINT64_C(0x0000005000006401));
    expect("P2", limit(0x101, 10), 5);
    expect("P3 STATUS", limit(0x001, 30), 1);
    expect("P3", read_register(CBQRI_ALLOC_CTL), UINT64_C(0x0000000100000001));
    expect("P4", limit(0x101, 0x0050001e), 1);
    expect("P5 with 21", limit(0x201, 21), 5);
    expect("P5 with 20", limit(0x201, 20), 1);
    expect("P6", operation(CBQRI_ALLOC_CTL, 0x401), UINT64_C(0x0000000300000401));
    expect("P6 with OP 3", cbqri_status(operation(CBQRI_ALLOC_CTL, 0x403)), 2);
    expect("P7", limit(0x121, UINT64_C(0x80000000)), 1);
    expect("P7 with itself", limit(0x121, UINT64_C(0x90000000)), 5);
}

static void window_cases(void)
{
    expect_grant("P8", granted(1, 0, 10), 0, 0);
    expect("window end", cbqri_bandwidth_end_window(BANDWIDTH_OF(&b)), 0);
    expect_grant("P9", granted(1, 1, 2000), 1920, 80);
    expect("P9 used of the reservation", get_word(b.used, 1 * 2 + 0, 4), 1920);
    expect("P9 given by the pool", get_word(b.record, 11, 8), 80);
    expect("P10", cbqri_status(operation(CBQRI_MON_CTL, 0x100201)), 1);
    expect("P10 with event 4", cbqri_status(operation(CBQRI_MON_CTL, 0x400201)), 4);
}

/* After the window cases: RCID 1 has used its reservation, the pool has 1,200
 * left, and MCID 2 counts all bytes. */
static void device_cases(void)
{
    expect_grant("device, bare", device_granted(CBQRI_IOMMU_BARE, 0x00010002, 0, 300), 300, 0);
    expect_grant("device, off",
                 device_granted(CBQRI_IOMMU_OFF, UINT64_C(0xfffffffff003f002), 0, 900), 900, 0);
    expect("device, off, used of the reservation", get_word(b.used, 2 * 2 + 0, 4), 1200);
    expect_grant("device, directory",
                 device_granted(CBQRI_IOMMU_DIRECTORY, cbqri_dc_ta(1, 2), 1, 700), 0, 700);
    expect_grant("device, mode 3", device_granted(3, UINT64_C(0x002001ffffffffff), 1, 2000), 0,
                 500);
    expect("device, MCID 2", get_word(b.counters, 2, 8), 1200);
    expect("device, bare, RCID 4", device_refusal(CBQRI_IOMMU_BARE, cbqri_iommu_qosid(4, 0)), 7);
    expect("device, off, MCID 4", device_refusal(CBQRI_IOMMU_OFF, cbqri_iommu_qosid(0, 4)), 7);
    expect("device, context, RCID 4", device_refusal(CBQRI_IOMMU_DIRECTORY, cbqri_dc_ta(4, 0)), 9);
    expect("device, context, MCID 4", device_refusal(UINT64_MAX, cbqri_dc_ta(0, 4)), 9);
}

static void weight_cases(void)
{
    set_up(2);
    expect("weight, AT 0", limit(0x001, cbqri_holder(30, 1)), 1);
    expect("weight, AT 1", limit(0x021, cbqri_holder(10, 7)), 1);
    expect("weight, carried to AT 0", get_word(b.configured, 0, 4), cbqri_holder(30, 7));
    expect("weight, in force", get_word(b.active, 0, 4), cbqri_holder(80, 1));
    put_word(b.configured, 1, 4, cbqri_holder(10, 6));
    expect("weight, two", cbqri_bandwidth_end_window(BANDWIDTH_OF(&b)), 3);
    put_word(b.configured, 1, 4, cbqri_holder(10, 7));
    expect("weight, a sharer", limit(0x021, cbqri_sharer(0)), 1);
    expect("weight, beside a sharer", get_word(b.configured, 0, 4), cbqri_holder(30, 7));
}

/* RCIDs 0 and 1 have 1,920 bytes and the weights 1 and 5, RCID 2 has 1,280 and no
 * weight, and the pool 1,280; RCID 3 is not set. */
static void waiter_cases(void)
{
    uint64_t refused = 1;
    set_up(2);
    limit(0x001, cbqri_holder(30, 1));
    limit(0x101, cbqri_holder(30, 5));
    limit(0x121, cbqri_sharer(0));
    limit(0x201, cbqri_holder(20, 0));
    operation(CBQRI_MON_CTL, cbqri_mon_ctl(CBQRI_CONFIG_EVENT, 0, 1, CBQRI_EVENT_READS, 0));
    expect("wait, RCID 0", put_to_wait(0, 0, 0, 2500), 0);
    expect("wait, RCID 1, by its sharer", put_to_wait(1, 1, 1, 4000), 0);
    expect("wait, RCID 2", put_to_wait(2, 2, 2, 1500), 0);
    expect("wait, RCID 3", put_to_wait(3, 3, 0, 1), 0);
    expect("wait, again", put_to_wait(1, 1, 1, 0), CBQRI_REFUSED_ALREADY_WAITS);
    expect("wait, RCID 4", put_to_wait(4, 0, 0, 0), CBQRI_REFUSED_IDENTIFIER);
    expect("need, RCID 4", cbqri_bandwidth_need(BANDWIDTH_OF(&b), 4, &refused), 7);
    expect("need, refused", refused, 0);
    expect("window end", cbqri_bandwidth_end_window(BANDWIDTH_OF(&b)), 0);
    expect("need, a sixth of the pool", need_of(0), 2500 - 1920 - 213);
    expect("need, five sixths", need_of(1), 4000 - 1920 - 1066);
    expect("need, no weight", need_of(2), 1500 - 1280);
    expect("need, nobody serves it", need_of(3), 1);
    expect("waiters, RCID 1", get_word(b.waiters, 1, 8), cbqri_waiter(1014, 1, 1, 0));
    expect("waiters, given by the pool", get_word(b.record, 11, 8), 1279);
    expect("waiters, MCID 1", get_word(b.counters, 1, 8), 2986);
    expect_grant("a request beside a waiter", granted(2, 0, 1), 0, 0);
    expect("window end", cbqri_bandwidth_end_window(BANDWIDTH_OF(&b)), 0);
    expect("need, done", need_of(0) + need_of(1) + need_of(2), 0);
    expect("wait, 0 bytes", put_to_wait(0, 0, 0, 0), CBQRI_REFUSED_NO_BYTES);
}

static void lone_cases(void)
{
    set_up(2);
    operation(CBQRI_MON_CTL, cbqri_mon_ctl(CBQRI_CONFIG_EVENT, 0, 0, CBQRI_EVENT_BYTES, 0));
    put_word(b.counters, 0, 8, 16777000);
    expect_grant("P11 grant", granted(0, 0, 300), 300, 0);
    operation(CBQRI_MON_CTL, cbqri_mon_ctl(CBQRI_READ_COUNTER, 0, 0, 0, 0));
    expect("P11", read_register(CBQRI_MON_CTR_VAL), 84 | CBQRI_BANDWIDTH_OVF);
    set_up(1);
    expect("P12", operation(CBQRI_ALLOC_CTL, 0x121) & UINT32_MAX, 0x101);
}

/* ---- The cases: units of a cache ---- */

static struct capacity_buffers cc;

static uint64_t cache_operation(uint64_t offset, uint64_t ctl)
{
    uint64_t value = 0;
    failed |= cbqri_capacity_write(CAPACITY_OF(&cc), 8, offset, ctl) != 0;
    failed |= cbqri_capacity_read(CAPACITY_OF(&cc), 8, offset, &value) != 0;
    return cbqri_status(value);
}

static uint64_t fill(uint64_t rcid, uint64_t mcid, uint64_t at, uint64_t unit)
{
    uint64_t allowed = 2;
    failed |= cbqri_capacity_fill(CAPACITY_OF(&cc), rcid, mcid, at, unit, &allowed) != 0;
    return allowed;
}

static uint64_t evict(uint64_t unit)
{
    return cbqri_capacity_evict(CAPACITY_OF(&cc), unit);
}

static uint64_t flush(uint64_t rcid, uint64_t at)
{
    return cache_operation(CBQRI_ALLOC_CTL, cbqri_alloc_ctl(CBQRI_FLUSH_RCID, at, rcid));
}

/* The counters of MCIDs 1 and 0, as two digits. */
static uint64_t counted(void)
{
    return get_word(cc.counters, 1, 8) << 4 | get_word(cc.counters, 0, 8);
}

static uint64_t owner_of(uint64_t unit)
{
    return get_word(cc.owners, unit, 4);
}

/* Four blocks of three units; RCID 1 has blocks 1 and 2 for AT 0, and nothing for AT 1. */
static void set_up_cache(void)
{
    uint64_t value = 0;
    capacity_lengths(&cc, 4, 2, 2, 2, 3);
    expect("cache reset", cbqri_capacity_reset(4, 2, 2, 2, 24, 3, CAPACITY_OF(&cc)), 0);
    cbqri_capacity_read(CAPACITY_OF(&cc), 8, CBQRI_CAPABILITIES, &value);
    expect("cache capabilities", value, 0x1000401);
    failed |= cbqri_capacity_write(CAPACITY_OF(&cc), 8, CBQRI_BLOCK_MASK, 6) != 0;
    expect("cache CONFIG_LIMIT", cache_operation(CBQRI_ALLOC_CTL, 0x101), 1);
    expect("cache MCID 0", cache_operation(CBQRI_MON_CTL, 0x100001), 1);
    expect("cache MCID 1", cache_operation(CBQRI_MON_CTL, 0x100101), 1);
}

static void unit_cases(void)
{
    set_up_cache();
    expect("fill, block 0", fill(1, 1, 0, 2), 0);
    expect("fill, first unit of block 1", fill(1, 1, 0, 3), 1);
    expect("fill, last unit of block 2", fill(1, 1, 0, 8), 1);
    expect("fill, block 3", fill(1, 1, 0, 9), 0);
    expect("fill, counted", counted(), 0x20);
    expect("fill, owner", owner_of(3), cbqri_owner(1, 1, 0));
    expect("fill, again", fill(1, 1, 0, 3), 1);
    expect("fill, again, counted", counted(), 0x20);
    expect("fill, not allowed, owned", fill(1, 0, 1, 3), 0);
    expect("fill, not allowed, owner", owner_of(3), cbqri_owner(1, 1, 0));
    expect("fill, of another", fill(0, 0, 1, 3), 1);
    expect("fill, of another, counted", counted(), 0x11);
    expect("evict, free", evict(0), 0);
    expect("evict, unit 12", evict(12), CBQRI_REFUSED_UNIT);
    expect("evict, counted", counted(), 0x11);
    expect("flush, RCID 2", flush(2, 0), CBQRI_STATUS_BAD_ID);
    expect("flush, RCID 1, AT 7", flush(1, 7), CBQRI_STATUS_OK);
    expect("flush, counted", counted(), 0x01);
    expect("flush, its unit", owner_of(8), 0);
    expect("flush, the other's", owner_of(3), cbqri_owner(0, 0, 1));
    expect("flush, mask", get_word(cc.masks, 2, 8), 6);
    expect("evict", evict(3), 0);
    expect("evict, counted", counted(), 0);
    put_word(cc.owners, 0, 4, cbqri_owner(2, 0, 0));
    expect("owners, RCID 2", evict(0), CBQRI_REFUSED_STATE);
}

/* ---- The random calls ---- */

static struct trace {
    uint64_t count, checksum;
    uint64_t answers[KINDS][ANSWERS]; /* how often each call had each answer */
    char line[LINE + 1];
} traces[CONTROLLERS];

static void add(struct trace *t, const uint8_t *bytes, size_t length)
{
    for (size_t i = 0; i < length; i++)
        t->checksum = (t->checksum ^ bytes[i]) * UINT64_C(0x100000001b3);
}

/* One call: what it left, its answer and the numbers that it handed back. */
static void trace_call(const struct controller *k, const struct slice *list, const struct call *c)
{
    struct trace *t = &traces[k->place];
    uint8_t bytes[8 * NUMBERS];
    uint64_t numbers[NUMBERS] = {1, 1}, *const out[NUMBERS] = {&numbers[0], &numbers[1]};
    uint64_t answer = k->call(&library, list, c, out);
    for (int i = 0; i < k->slices; i++)
        add(t, list[i].at, list[i].length);
    for (uint64_t i = 0; i < NUMBERS; i++)
        put_word(bytes, i, 8, numbers[i]);
    add(t, bytes, sizeof bytes);
    failed |= answer >= ANSWERS;
    t->answers[c->kind][answer % ANSWERS]++;
    t->line[t->count++ % LINE] = "0123456789ab"[answer % ANSWERS];
    if (t->count % LINE == 0)
        printf("%s %5" PRIu64 " %s %016" PRIx64 "\n", k->name, t->count, t->line, t->checksum);
}

/* The calls by answer; all answers that the controller gives must have come up. */
static void sum_up(const struct controller *k)
{
    const struct trace *t = &traces[k->place];
    uint64_t seen[ANSWERS] = {0};
    for (int kind = 0; kind < KINDS && k->calls[kind]; kind++) {
        printf("%s %s:", k->name, k->calls[kind]);
        for (int answer = 0; answer < ANSWERS; answer++) {
            printf(" %" PRIu64, t->answers[kind][answer]);
            seen[answer] += t->answers[kind][answer];
        }
        printf("\n");
    }
    for (int answer = 0; answer < ANSWERS; answer++)
        failed |= (seen[answer] != 0) != (k->answers >> answer & 1);
}

int main(void)
{
    settings_cases();
    window_cases();
    device_cases();
    weight_cases();
    waiter_cases();
    lone_cases();
    unit_cases();
    for (int i = 0; i < CONTROLLERS; i++)
        while (traces[i].count < CALLS)
            make_round(&controllers[i], trace_call);
    for (int i = 0; i < CONTROLLERS; i++)
        sum_up(&controllers[i]);
    printf("%s\n", failed ? "FAILED" : "as it should be");
    return failed;
}
