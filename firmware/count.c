/*
 * Instructions of each call on the bare board, as its counter minstret has
 * them: the call with the board's memcpy and memset, and what its caller does
 * to hand over the arguments. Under qemu with -icount the counter is exact and
 * the output always the same. A number is the mean of CALLS calls with random
 * arguments, each on the same state: most pairs set and most units owned, or after a
 * reset. None waits, but in the line that says so a request under every RCID.
 */
#include "../bench/inputs.h"

static uint64_t instructions(void)
{
    uint64_t count;
    __asm__ volatile("csrr %0, minstret" : "=r"(count) : : "memory");
    return count;
}

/* What a call hands back, and whether any was refused. */
static uint64_t out, pool, refused;
static const struct setup *size;

/* The instructions of one call. */
#define COUNT_OF(name, function, ...)                                                     \
    __attribute__((noinline)) static uint64_t name(const struct arguments *a)             \
    {                                                                                     \
        uint64_t from = instructions();                                                   \
        refused |= function(__VA_ARGS__);                                                 \
        (void)a;                                                                          \
        return instructions() - from;                                                     \
    }
#define COUNT(name, ...) COUNT_OF(name, cbqri_##name, __VA_ARGS__)
#define BANDWIDTH BANDWIDTH_OF(&now.bandwidth)
#define CAPACITY CAPACITY_OF(&now.capacity)
COUNT(bandwidth_reset, NBWBLKS, MRBWB, size->nr, size->na, size->nm, Q, W, BANDWIDTH)
COUNT(bandwidth_read, BANDWIDTH, 8, CBQRI_BW_ALLOC, &out)
COUNT(bandwidth_write, BANDWIDTH, 8, CBQRI_ALLOC_CTL, a->ctl)
COUNT(bandwidth_request, BANDWIDTH, a->rcid, a->mcid, a->at, a->which, a->bytes, &out, &pool)
COUNT(bandwidth_device_request, BANDWIDTH, CBQRI_IOMMU_DIRECTORY, a->ta, a->at, a->which, a->bytes,
      &out, &pool)
COUNT(bandwidth_wait, BANDWIDTH, a->rcid, a->mcid, a->at, a->which, a->bytes)
COUNT(bandwidth_need, BANDWIDTH, a->rcid, &out)
COUNT(bandwidth_end_window, BANDWIDTH)
COUNT(capacity_reset, size->ncblks, size->nr, size->na, size->nm, W, size->u, CAPACITY)
COUNT(capacity_read, CAPACITY, 8, CBQRI_BLOCK_MASK, &out)
COUNT(capacity_write, CAPACITY, 8, CBQRI_ALLOC_CTL, a->ctl)
COUNT_OF(capacity_flush, cbqri_capacity_write, CAPACITY, 8, CBQRI_ALLOC_CTL, a->flush)
COUNT(capacity_fill, CAPACITY, a->rcid, a->mcid, a->at, a->unit, &out)
COUNT(capacity_evict, CAPACITY, a->unit)

#define NAMED(name) {"cbqri_" #name, name, 0}
static const struct entry {
    const char *name;
    uint64_t (*count)(const struct arguments *a);
    int waiting;
} entries[] = {
    NAMED(bandwidth_reset), NAMED(bandwidth_read), NAMED(bandwidth_write),
    NAMED(bandwidth_request), NAMED(bandwidth_device_request), NAMED(bandwidth_wait),
    NAMED(bandwidth_need), NAMED(bandwidth_end_window),
    {"cbqri_bandwidth_end_window, all wait:", bandwidth_end_window, 1},
    NAMED(capacity_reset), NAMED(capacity_read), NAMED(capacity_write),
    {"cbqri_capacity_write, FLUSH_RCID:", capacity_flush, 0},
    NAMED(capacity_fill), NAMED(capacity_evict),
};
enum { ENTRIES = sizeof entries / sizeof entries[0] };

/* Both CONFIG_LIMITs have an operand that can be taken. */
static void make_start(int mixed)
{
    make_inputs(size, mixed);
    must(cbqri_bandwidth_write(BANDWIDTH_OF(&start.bandwidth), 8, CBQRI_BW_ALLOC,
                               cbqri_holder(3, 1)), "operand");
    must(cbqri_capacity_write(CAPACITY_OF(&start.capacity), 8, CBQRI_BLOCK_MASK, 0xff),
         "operand");
}

static uint64_t mean(const struct entry *entry)
{
    uint64_t sum = 0;
    for (int i = 0; i < CALLS; i++) {
        now = start;
        if (entry->waiting)
            all_wait(&now.bandwidth, size);
        sum += entry->count(&list[i]);
    }
    return (sum + CALLS / 2) / CALLS;
}

static void print_head(void)
{
    printf("instructions of a call, most pairs set and units owned, and after a reset, at");
    for (int s = 0; s < SETUPS; s++)
        printf("%s %" PRIu64 " x %" PRIu64 " with %" PRIu64 " MCIDs and %" PRIu64 " x %" PRIu64
               " units", s ? "," : "", setups[s].nr, setups[s].na, setups[s].nm,
               setups[s].ncblks, setups[s].u);
    printf("\n");
}

int main(void)
{
    static uint64_t means[ENTRIES][SETUPS][2];
    for (int s = 0; s < SETUPS; s++) {
        size = &setups[s];
        for (int mixed = 0; mixed < 2; mixed++) {
            make_start(mixed);
            for (int i = 0; i < ENTRIES; i++)
                means[i][s][mixed] = mean(&entries[i]);
        }
    }
    print_head();
    for (int i = 0; i < ENTRIES; i++) {
        printf("%s", entries[i].name);
        for (int s = 0; s < SETUPS; s++)
            printf(" %" PRIu64 " %" PRIu64, means[i][s][1], means[i][s][0]);
        printf("\n");
    }
    return refused != 0;
}
