/*
 * The stack that each entry point uses, measured on the bare board or under
 * Linux on x86-64: the stack is painted, the entry point called, and the lowest
 * byte that lost its paint looked for. What a caller keeps on the stack,
 * arguments too, is not counted.
 */
#include "../bench/interface.h"

#include <cbqri.h>

#include <inttypes.h>
#include <stdio.h>

/* ---- Paint ---- */

static const uint64_t paint = UINT64_C(0xc5c5c5c5c5c5c5c5);
static uint64_t *stack_at_call;

#ifdef __riscv
extern uint64_t stack_bottom[];
#define STACK_POINTER(pointer) __asm__ volatile("mv %0, sp" : "=r"(pointer))
#define FIND_BOTTOM()
#else
static uint64_t *stack_bottom;
#define STACK_POINTER(pointer) __asm__ volatile("mov %%rsp, %0" : "=r"(pointer))
#define FIND_BOTTOM()                                                                     \
    do {                                                                                  \
        STACK_POINTER(stack_bottom);                                                      \
        stack_bottom -= 1 << 13; /* 64 KiB */                                             \
    } while (0)
#endif

__attribute__((noinline)) static void paint_stack(void)
{
    uint64_t *end;
    STACK_POINTER(end);
    for (volatile uint64_t *word = stack_bottom; word < end; word++)
        *word = paint;
}

static uint64_t used_stack(void)
{
    const volatile uint64_t *word = stack_bottom;
    while (*word == paint)
        word++;
    return (uint64_t)((const char *)stack_at_call - (const char *)word);
}

/* ---- The calls: each entry point, on set-ups from the smallest to the largest ---- */

static const struct { uint64_t nr, na, nm, ncblks, u; } sizes[] = {
    {1, 1, 1, 1, 1}, {4, 2, 4, 16, 4}, {16, 8, 64, 40, 8}, {64, 2, 16, 32, 16},
    {43, 3, 100, 33, 5}, {256, 8, 256, 64, 64}};
enum { SIZES = sizeof sizes / sizeof sizes[0] };
static uint64_t nr, na, nm, ncblks, u, offset, value, out, pool;
static struct bandwidth_buffers bw;
static struct capacity_buffers cc;

#define ENTRY(name, ...)                                                                  \
    __attribute__((noinline)) static uint64_t name(void)                                  \
    {                                                                                     \
        STACK_POINTER(stack_at_call);                                                     \
        return cbqri_##name(__VA_ARGS__);                                                 \
    }
ENTRY(bandwidth_reset, 100, 80, nr, na, nm, 64, 24, BANDWIDTH_OF(&bw))
ENTRY(bandwidth_read, BANDWIDTH_OF(&bw), 8, offset, &out)
ENTRY(bandwidth_write, BANDWIDTH_OF(&bw), 8, offset, value)
ENTRY(bandwidth_request, BANDWIDTH_OF(&bw), 0, 0, 0, 0, 6000, &out, &pool)
ENTRY(bandwidth_device_request, BANDWIDTH_OF(&bw), CBQRI_IOMMU_DIRECTORY, cbqri_dc_ta(0, 0), 0, 0,
      6000, &out, &pool)
ENTRY(bandwidth_wait, BANDWIDTH_OF(&bw), 0, 0, 0, 1, 6000)
ENTRY(bandwidth_need, BANDWIDTH_OF(&bw), 0, &out)
ENTRY(bandwidth_end_window, BANDWIDTH_OF(&bw))
ENTRY(capacity_reset, ncblks, nr, na, nm, 24, u, CAPACITY_OF(&cc))
ENTRY(capacity_read, CAPACITY_OF(&cc), 8, offset, &out)
ENTRY(capacity_write, CAPACITY_OF(&cc), 8, offset, value)
ENTRY(capacity_fill, CAPACITY_OF(&cc), 0, 0, 0, 0, &out)
ENTRY(capacity_evict, CAPACITY_OF(&cc), 0)

#define NAMED(name) {"cbqri_" #name, name}
static const struct { const char *name; uint64_t (*call)(void); } entries[] = {
    NAMED(bandwidth_reset), NAMED(bandwidth_read), NAMED(bandwidth_write),
    NAMED(bandwidth_request), NAMED(bandwidth_device_request), NAMED(bandwidth_wait),
    NAMED(bandwidth_need), NAMED(bandwidth_end_window),
    NAMED(capacity_reset), NAMED(capacity_read), NAMED(capacity_write), NAMED(capacity_fill),
    NAMED(capacity_evict),
};

static uint64_t refused;

static uint64_t measure(uint64_t (*call)(void))
{
    paint_stack();
    refused |= call();
    return used_stack();
}

static void set_up(int size)
{
    nr = sizes[size].nr;
    na = sizes[size].na;
    nm = sizes[size].nm;
    ncblks = sizes[size].ncblks;
    u = sizes[size].u;
    bandwidth_lengths(&bw, nr, na, nm);
    capacity_lengths(&cc, ncblks, nr, na, nm, u);
    refused |= bandwidth_reset() | capacity_reset();
}

/* The largest over every register and operation; bw_alloc or block_mask first, so that
 * CONFIG_LIMIT has an operand. RCID 0 owns unit 0, and under it a request waits, but where
 * one is put to wait. */
static uint64_t largest(uint64_t (*call)(void), int size)
{
    uint64_t largest = 0;
    set_up(size);
    for (offset = CBQRI_SPAN; offset > 0;) {
        offset -= 8;
        for (uint64_t op = CBQRI_CONFIG_LIMIT; op <= CBQRI_FLUSH_RCID; op++) {
            value = cbqri_mon_ctl(op, 0, 0, CBQRI_EVENT_BYTES, 0);
            put_word(bw.waiters, 0, 8, call == bandwidth_wait ? 0 : cbqri_waiter(6000, 0, 0, 1));
            put_word(cc.owners, 0, 4, cbqri_owner(0, 0, 0));
            uint64_t used = measure(call);
            largest = used > largest ? used : largest;
        }
    }
    return largest;
}

int main(void)
{
    FIND_BOTTOM();
    printf("entry point, stack at set-ups of NR x NA x NM, NCBLKS x U:");
    for (int size = 0; size < SIZES; size++)
        printf("%s %" PRIu64 " x %" PRIu64 " x %" PRIu64 ", %" PRIu64 " x %" PRIu64,
               size ? ";" : "", sizes[size].nr, sizes[size].na, sizes[size].nm,
               sizes[size].ncblks, sizes[size].u);
    for (unsigned i = 0; i < sizeof entries / sizeof entries[0]; i++) {
        printf("\n%s", entries[i].name);
        for (int size = 0; size < SIZES; size++)
            printf(" %" PRIu64, largest(entries[i].call, size));
    }
    printf("\n");
    return refused != 0;
}
