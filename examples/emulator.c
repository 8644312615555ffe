/*
 * A small emulator with both controllers in its address map, and a driver that
 * uses them: the example to start from.
 *
 *     gcc emulator.c $(pkg-config --cflags --libs cbqri) -o emulator
 *
 * It has three parts: the machine (buffers, address map, traffic, devices), the
 * driver (reads and writes by address alone), and the story that main tells. In it
 * requests are granted in part, and some are put to wait instead of tried again;
 * and a job's RCID is flushed from the cache before another job has it.
 */
#include <cbqri.h>

#include <inttypes.h>
#include <stdio.h>
#include <stdlib.h>

/* ---- The machine: buffers of both controllers ---- */

enum { NR = 4, NA = 2, NM = 4, W = 24 };
enum { NBWBLKS = 100, MRBWB = 80, Q = 64, NCBLKS = 40, U = 4 };

static const struct cbqri_bw_setup bw_setup = {
    .nbwblks = NBWBLKS, .mrbwb = MRBWB, .nr = NR, .na = NA, .nm = NM, .q = Q, .w = W};
static const struct cbqri_cc_setup cc_setup = {
    .ncblks = NCBLKS, .nr = NR, .na = NA, .nm = NM, .w = W, .u = U};
static uint8_t bw_bytes[CBQRI_BW_LEN(NR, NA, NM)];
static uint8_t cc_bytes[CBQRI_CC_LEN(NCBLKS, NR, NA, NM, U)];
static struct cbqri_bw bw; /* views of these bytes, made by main */
static struct cbqri_cc cc;

/* A refusal here is a fault of the emulator, not of the driver. */
static void must(uint64_t refusal, const char *what)
{
    if (refusal == 0)
        return;
    printf("%s refused: %" PRIu64 "\n", what, refusal);
    exit(1);
}

/* ---- The machine: address map ---- */

#define BW_BASE UINT64_C(0x10000000)
#define CC_BASE UINT64_C(0x10001000)
#define PAGE UINT64_C(0x1000)

/* What the bus does with a bad access (size, offset or value) is the
 * emulator's choice; this one reads 0 and drops the write. */
static void bus_fault(uint64_t refusal, uint64_t address)
{
    if (refusal >= CBQRI_REFUSED_SIZE)
        printf("bus: access at 0x%" PRIx64 " refused, %" PRIu64 "\n", address, refusal);
    else
        must(refusal, "access");
}

static uint64_t mmio_read(uint64_t address, uint64_t size)
{
    uint64_t value = 0, refusal = CBQRI_REFUSED_OFFSET;
    if (address - BW_BASE < PAGE)
        refusal = cbqri_bw_read(&bw, size, address - BW_BASE, &value);
    else if (address - CC_BASE < PAGE)
        refusal = cbqri_cc_read(&cc, size, address - CC_BASE, &value);
    bus_fault(refusal, address);
    return value;
}

static void mmio_write(uint64_t address, uint64_t size, uint64_t value)
{
    uint64_t refusal = CBQRI_REFUSED_OFFSET;
    if (address - BW_BASE < PAGE)
        refusal = cbqri_bw_write(&bw, size, address - BW_BASE, value);
    else if (address - CC_BASE < PAGE)
        refusal = cbqri_cc_write(&cc, size, address - CC_BASE, value);
    bus_fault(refusal, address);
}

/* ---- The machine: traffic ---- */

/* Reserved bytes are there in every window; those of the pool may be gone in the next. */
static void print_grant(uint64_t reserved, uint64_t pool)
{
    printf("%4" PRIu64 " reserved, %4" PRIu64 " of the pool\n", reserved, pool);
}

/* Hands back how many bytes are not granted. */
static uint32_t request(uint64_t rcid, uint64_t mcid, uint64_t at, int write, uint32_t bytes)
{
    uint64_t reserved, pool;
    must(cbqri_bw_request(&bw, rcid, mcid, at, (uint64_t)write, bytes, &reserved, &pool),
         "request");
    printf("  RCID %" PRIu64 " AT %" PRIu64 " MCID %" PRIu64 " %s %4" PRIu32 ": ", rcid, at, mcid,
           write ? "writes" : "reads ", bytes);
    print_grant(reserved, pool);
    return bytes - (uint32_t)(reserved + pool);
}

/* What is not granted waits: it need not be asked for again. */
static void request_and_wait(uint64_t rcid, uint64_t mcid, uint64_t at, int write, uint32_t bytes)
{
    uint32_t missing = request(rcid, mcid, at, write, bytes);
    if (missing == 0)
        return;
    must(cbqri_bw_wait(&bw, rcid, mcid, at, (uint64_t)write, missing), "wait");
    printf("  RCID %" PRIu64 " waits for %" PRIu32 "\n", rcid, missing);
}

static void print_need(uint64_t rcid)
{
    uint64_t need;
    must(cbqri_bw_need(&bw, rcid, &need), "need");
    printf("  RCID %" PRIu64 " needs %4" PRIu64 "%s\n", rcid, need, need ? "" : ", it is done");
}

static void fill(uint64_t rcid, uint64_t mcid, uint64_t at, uint64_t unit)
{
    uint64_t allowed;
    must(cbqri_cc_fill(&cc, rcid, mcid, at, unit, &allowed), "fill");
    printf("  RCID %" PRIu64 " AT %" PRIu64 " MCID %" PRIu64 " fills unit %3" PRIu64
           " of block %2" PRIu64 ": %s\n", rcid, at, mcid, unit, unit / U,
           allowed ? "allowed" : "not allowed");
}

static void evict(uint64_t unit)
{
    must(cbqri_cc_evict(&cc, unit), "evict");
    printf("  unit %3" PRIu64 " is evicted\n", unit);
}

static uint64_t word_at(const uint8_t *bytes, size_t length)
{
    uint64_t word = 0;
    while (length-- > 0)
        word = word << 8 | bytes[length];
    return word;
}

/* The units that are not free, read from the table. */
static void print_owners(void)
{
    for (unsigned unit = 0; unit < NCBLKS * U; unit++) {
        uint64_t owner = word_at(cc.owners + 4 * unit, 4);
        if (owner)
            printf("  unit %3u: RCID %" PRIu64 " AT %" PRIu64 " MCID %" PRIu64 "\n", unit,
                   owner & 0xff, owner >> 16 & 7, owner >> 8 & 0xff);
    }
}

/* What governed in the window, read from the tables, and then its end. */
static void end_window(int window)
{
    uint64_t reserved = 0;
    printf("window %d ends; in force were\n", window);
    for (unsigned pair = 0; pair < NR * NA; pair++) {
        uint64_t setting = word_at(bw.active + 4 * pair, 4), rbwb = setting & 0xffff;
        if (setting >> 31)
            printf("  RCID %u AT %u: shares AT %u\n", pair / NA, pair % NA,
                   (unsigned)(setting >> 28 & 7));
        else if (setting)
            printf("  RCID %u AT %u: reservation %4" PRIu64 ", used %4" PRIu64 ", Mweight %" PRIu64
                   "\n", pair / NA, pair % NA, rbwb * Q, word_at(bw.used + 4 * pair, 4),
                   setting >> 20 & 0xff);
        reserved += rbwb;
    }
    printf("  pool: %" PRIu64 ", gave %" PRIu64 "\n\n", (NBWBLKS - reserved) * Q,
           word_at(bw.record + 88, 8));
    must(cbqri_bw_end_window(&bw), "window end");
}

/* ---- The machine: devices behind an IOMMU ---- */

/* As the guest has set them; DC.ta stands in the device directory in its memory. */
static uint64_t iommu_mode = CBQRI_IOMMU_BARE, iommu_qosid, dc_ta[2];

/* A bad device context is the guest's: this IOMMU reports it, and nothing is granted. */
static void dma(unsigned device, int write, uint32_t bytes)
{
    uint64_t word = iommu_mode <= CBQRI_IOMMU_BARE ? iommu_qosid : dc_ta[device];
    uint64_t reserved, pool, refusal;
    refusal = cbqri_bw_device_request(&bw, iommu_mode, word, 0, (uint64_t)write, bytes, &reserved,
                                      &pool);
    printf("  device %u %s %4" PRIu32 ": ", device, write ? "writes" : "reads ", bytes);
    if (refusal == CBQRI_REFUSED_DEVICE_CONTEXT) {
        printf("DDT entry misconfigured\n");
        return;
    }
    must(refusal, "device's request");
    print_grant(reserved, pool);
}

/* ---- The driver: it knows base addresses and registers only ---- */

static uint64_t driver_operation(uint64_t base, uint64_t ctl_offset, uint64_t ctl)
{
    mmio_write(base + ctl_offset, 8, ctl);
    return cbqri_status(mmio_read(base + ctl_offset, 8));
}

static void driver_limit(uint64_t base, uint64_t rcid, uint64_t at, uint64_t limit)
{
    mmio_write(base + CBQRI_BW_ALLOC, 8, limit);
    uint64_t status = driver_operation(base, CBQRI_ALLOC_CTL,
                                       cbqri_alloc_ctl(CBQRI_CONFIG_LIMIT, at, rcid));
    driver_operation(base, CBQRI_ALLOC_CTL, cbqri_alloc_ctl(CBQRI_READ_LIMIT, at, rcid));
    printf("driver: limit of RCID %" PRIu64 " AT %" PRIu64 " to 0x%" PRIx64 ": STATUS %" PRIu64
           ", reads back 0x%" PRIx64 "\n", rcid, at, limit, status,
           mmio_read(base + CBQRI_BW_ALLOC, 8));
}

static void driver_event(uint64_t base, uint64_t mcid, uint64_t event, uint64_t at, uint64_t atv)
{
    uint64_t ctl = cbqri_mon_ctl(CBQRI_CONFIG_EVENT, at, mcid, event, atv);
    printf("driver: MCID %" PRIu64 " counts event %" PRIu64, mcid, event);
    if (atv)
        printf(" of AT %" PRIu64, at);
    printf(": STATUS %" PRIu64 "\n", driver_operation(base, CBQRI_MON_CTL, ctl));
}

static void driver_counter(uint64_t base, uint64_t mcid)
{
    driver_operation(base, CBQRI_MON_CTL, cbqri_mon_ctl(CBQRI_READ_COUNTER, 0, mcid, 0, 0));
    printf("driver: counter of MCID %" PRIu64 " is 0x%016" PRIx64 "\n", mcid,
           mmio_read(base + CBQRI_MON_CTR_VAL, 8));
}

static void driver_flush(uint64_t rcid)
{
    printf("driver: flush of RCID %" PRIu64 ": STATUS %" PRIu64 "\n", rcid,
           driver_operation(CC_BASE, CBQRI_ALLOC_CTL, cbqri_alloc_ctl(CBQRI_FLUSH_RCID, 0, rcid)));
}

static void driver_probe(void)
{
    uint64_t bandwidth = mmio_read(BW_BASE + CBQRI_CAPABILITIES, 8);
    uint64_t capacity = mmio_read(CC_BASE + CBQRI_CAPABILITIES, 8);
    printf("driver: bandwidth VER %" PRIu64 " NBWBLKS %" PRIu64 " MRBWB %" PRIu64
           ", capacity VER %" PRIu64 " NCBLKS %" PRIu64 " FRCID %" PRIu64 "\n\n",
           bandwidth & 0xff, bandwidth >> 8 & 0xffff, bandwidth >> 32 & 0xffff, capacity & 0xff,
           capacity >> 8 & 0xffff, capacity >> 24 & 1);
}

/* ---- The story ---- */

static void bandwidth_story(void)
{
    request(0, 0, 0, 0, 6000); /* after reset RCID 0 has all: 5,120 reserved, 880 of the pool */
    request(1, 0, 0, 0, 1000); /* never set */
    driver_limit(BW_BASE, 1, 0, cbqri_holder(10, 5)); /* 80 + 10 exceeds MRBWB */
    driver_limit(BW_BASE, 0, 0, cbqri_holder(30, 1));
    driver_limit(BW_BASE, 1, 0, cbqri_holder(30, 5));
    driver_limit(BW_BASE, 1, 1, cbqri_sharer(0));
    driver_limit(BW_BASE, 2, 0, cbqri_holder(20, 0));
    driver_event(BW_BASE, 1, CBQRI_EVENT_BYTES, 0, 0);
    driver_event(BW_BASE, 2, CBQRI_EVENT_WRITES, 1, 1);
    request(1, 1, 0, 0, 10); /* configured, but not in force before the window ends */
    end_window(0);

    request(0, 0, 0, 0, 2500); /* 1,920 reserved, 580 of the pool */
    request(1, 1, 1, 0, 2000); /* by AT 0, which it shares: 1,920 reserved, 80 of the pool */
    request(1, 1, 0, 1, 1000); /* only the pool's last 620 */
    request(2, 2, 0, 1, 1500); /* 1,280 reserved; Mweight 0, so nothing of the pool */
    request(3, 0, 0, 0, 100);  /* never set */
    /* A refused CONFIG_LIMIT must not keep later ones from governing. */
    driver_limit(BW_BASE, 3, 0, cbqri_holder(1, 1)); /* 80 + 1 exceeds MRBWB */
    driver_limit(BW_BASE, 1, 0, cbqri_holder(15, 5));
    driver_limit(BW_BASE, 3, 0, cbqri_holder(10, 0));
    end_window(1);

    request(3, 0, 0, 0, 1000); /* now 640 reserved */
    request(1, 1, 0, 0, 900);  /* 900 of 960 reserved */
    request(1, 2, 1, 1, 2000); /* the other 60, and all 1,600 of the pool */
    request(0, 0, 0, 0, 2500); /* 1,920 reserved; the pool is empty */
    driver_limit(BW_BASE, 3, 1, cbqri_holder(5, 2)); /* AT 0 of RCID 3 gets this weight too */
    end_window(2);

    driver_counter(BW_BASE, 1); /* 2,000 + 620 + 900 */
    driver_counter(BW_BASE, 2); /* 1,660: the write of AT 1 alone */
    mmio_read(BW_BASE + 12, 8); /* no multiple of 8 */
}

static void device_story(void)
{
    printf("\n");
    driver_event(BW_BASE, 3, CBQRI_EVENT_BYTES, 0, 0);
    dma(0, 0, 2500); /* bare: RCID 0 of iommu_qosid, 1,920 reserved and 580 of the pool */
    iommu_mode = CBQRI_IOMMU_DIRECTORY;
    dc_ta[0] = cbqri_dc_ta(2, 3);
    dc_ta[1] = cbqri_dc_ta(NR, 3);
    dma(0, 1, 1500); /* RCID 2 of its context: 1,280 reserved; Mweight 0 */
    dma(1, 1, 1500); /* there is no RCID 4 */
    end_window(3);
    driver_counter(BW_BASE, 3); /* the 1,280 */
}

/* Two jobs ask for more than a window has. Others' requests can't crowd them out: each
 * window end serves both before anyone asks again. */
static void waiter_story(void)
{
    printf("\n");
    driver_event(BW_BASE, 0, CBQRI_EVENT_BYTES, 0, 0);
    request_and_wait(1, 1, 0, 0, 6000); /* 960 reserved and all 1,280 of the pool */
    request_and_wait(0, 0, 0, 0, 5000); /* 1,920 reserved */
    end_window(4); /* each has its reservation; of the pool 1,066 and 213, by the weights 5 and 1 */
    print_need(1);
    print_need(0);
    request(0, 0, 0, 0, 100); /* what waits came first: only what rounding left in the pool */
    end_window(5); /* RCID 0 has enough of its reservation, so that RCID 1 has the pool alone */
    print_need(1);
    print_need(0);
    driver_counter(BW_BASE, 0); /* all 5,000 of RCID 0, and the byte that it asked for beside */
}

static void capacity_story(void)
{
    printf("\n");
    driver_limit(CC_BASE, 1, 0, 0); /* a mask must not be 0 */
    driver_limit(CC_BASE, 1, 0, 0x0f);
    driver_limit(CC_BASE, 1, 1, UINT64_C(0xff000000f0)); /* in pieces */
    driver_event(CC_BASE, 1, CBQRI_EVENT_OCCUPANCY, 0, 0);
    driver_event(CC_BASE, 2, CBQRI_EVENT_OCCUPANCY, 1, 1);
    driver_event(CC_BASE, 2, CBQRI_EVENT_WRITES, 0, 0); /* no event of this controller */
    fill(1, 1, 0, 15); /* the last unit of block 3 */
    fill(1, 1, 0, 16); /* block 4 is AT 1's */
    fill(1, 1, 1, 16);
    fill(1, 2, 1, 159);
    fill(1, 2, 0, 8); /* allowed, but MCID 2 counts AT 1 alone */
    driver_counter(CC_BASE, 1);
    driver_counter(CC_BASE, 2);
    fill(0, 0, 0, 16); /* what RCID 1 had there is evicted first */
    evict(159);
    evict(159); /* it is free, and nothing changes */
    driver_counter(CC_BASE, 1);
    driver_counter(CC_BASE, 2);
    driver_event(CC_BASE, 2, CBQRI_EVENT_OCCUPANCY, 0, 0); /* too late: MCID 2 owns unit 8 */
    evict(8); /* so the counter stays at 0 and becomes INVALID */
    driver_counter(CC_BASE, 2);
}

/* RCID 1 and MCID 1 pass to another job. The old job's lines are still in the cache, so
 * the driver flushes the RCID first: the new job starts without them. */
static void next_job_story(void)
{
    printf("\n");
    fill(1, 1, 1, 20);
    printf("the job of RCID 1 ends, and these units have owners\n");
    print_owners();
    driver_counter(CC_BASE, 1);
    driver_flush(1); /* the units of both ATs */
    driver_counter(CC_BASE, 1);
    print_owners();
    printf("the next job has RCID 1\n");
    fill(1, 1, 0, 0); /* the masks are still those that the driver set */
    driver_counter(CC_BASE, 1); /* the new job's unit alone */
    driver_flush(NR); /* there is no RCID 4 */
}

int main(void)
{
    bw = cbqri_bw_view(bw_bytes, NR, NA, NM);
    cc = cbqri_cc_view(cc_bytes, NCBLKS, NR, NA, NM, U);
    must(cbqri_bw_reset(&bw, &bw_setup), "reset");
    must(cbqri_cc_reset(&cc, &cc_setup), "reset");
    driver_probe();
    bandwidth_story();
    device_story();
    waiter_story();
    capacity_story();
    next_job_story();
    return 0;
}
