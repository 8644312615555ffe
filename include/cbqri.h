/*
 * cbqri.h - a pair of RISC-V CBQRI quality-of-service controllers
 *
 * One bandwidth controller and one capacity controller, as an emulator uses
 * them: the registers a driver sees, the requests and cache events the
 * emulated system makes, and the end of a bandwidth window. Link with
 * libcbqri.a (pkg-config --cflags --libs cbqri).
 *
 * RCID is the resource control ID, MCID the monitoring counter ID and AT the
 * access type. A pair is an RCID with an AT. All numbers are unsigned.
 *
 *
 * HOW IT IS CALLED
 *
 * The library keeps nothing of its own. A controller is a small record and a
 * few tables in buffers that you own and lend to each call. Set the buffers up
 * with a reset, then hand the same buffers to every later call. Every call but
 * a reset checks them whole (docs/COST.md says what a call costs in time and in
 * stack).
 *
 * A function takes each buffer as a pointer and a length. A view (struct
 * cbqri_bw, struct cbqri_cc) has them all, and an inline function for each call
 * takes the view; it is the shorter way:
 *
 *     #include <cbqri.h>
 *     #include <stdint.h>
 *
 *     static const struct cbqri_bw_setup setup = {
 *         .nbwblks = 100, .mrbwb = 80, .nr = 4, .na = 2, .nm = 4, .q = 64, .w = 24};
 *     static uint8_t bytes[CBQRI_BW_LEN(4, 2, 4)];
 *     struct cbqri_bw bw = cbqri_bw_view(bytes, setup.nr, setup.na, setup.nm);
 *
 *     uint64_t ctl, reserved, pool;
 *     cbqri_bw_reset(&bw, &setup);
 *     // RCID 0, AT 0 down from 80 blocks to 30
 *     cbqri_bw_write(&bw, 8, CBQRI_BW_ALLOC, cbqri_holder(30, 1));
 *     cbqri_bw_write(&bw, 8, CBQRI_ALLOC_CTL, cbqri_alloc_ctl(CBQRI_CONFIG_LIMIT, 0, 0));
 *     cbqri_bw_read(&bw, 8, CBQRI_ALLOC_CTL, &ctl);
 *     // ctl is 0x0000000100000001, so cbqri_status(ctl) is CBQRI_STATUS_OK
 *     cbqri_bw_end_window(&bw);
 *     // 30 blocks of 64 bytes are reserved: reserved is 1920, pool is 80
 *     cbqri_bw_request(&bw, 0, 0, 0, 0, 2000, &reserved, &pool);
 *
 * Rules for the buffers:
 *
 * - A buffer is a pointer and its length in bytes. Words in it are
 *   little-endian on every host; no alignment is asked. On a little-endian host
 *   a table may be an array of numbers: uint32_t active[NR * NA] is handed over
 *   as (uint8_t *)active, sizeof active, and its elements are the words that
 *   TABLES lists (likewise uint64_t and uint16_t for words of 8 and 2 bytes).
 * - Record, tables and the numbers that a call hands back must not overlap one
 *   another, and no pointer may be NULL.
 * - Calls on buffers that have no byte in common may run at the same time.
 *   Reads (cbqri_bandwidth_read, cbqri_bandwidth_need, cbqri_capacity_read) of
 *   the same buffers may run at the same time too: a read writes nothing but
 *   *value or *need. Any other call must have its buffers for itself.
 * - Buffers may be saved and restored like any bytes. A state that one version
 *   saved is taken by every version with the same major number and, while that
 *   is 0, the same minor number, and means the same there. Keep CBQRI_VERSION
 *   beside a saved state: any other version may refuse it (1 to 3), or read the
 *   same bytes otherwise. CHANGELOG.md says so.
 *
 * Every function returns 0, or the number of a refusal (below). A refused call
 * has changed no byte of record and tables; what it hands back through pointers
 * (*value, *reserved and *pool, *need, *allowed) it sets to 0, so that no number
 * of an earlier call stays there.
 *
 * Refusals are about the caller: what a driver asks of a register shows in
 * STATUS, and the call that carried its write returns 0. Three of them a driver
 * can bring about all the same.
 * - An access of a wrong size (4) or at a wrong place (5). CBQRI leaves open
 *   what it does, so the emulator answers as its bus does: by an access fault of
 *   the hart, or, as the example does, by reading 0 and dropping the write.
 * - A device context, in the guest's memory, with an RCID or MCID out of range
 *   (9). The emulator answers as its IOMMU does: CBQRI has an identifier that is
 *   wider there than the IOMMU supports reported as "DDT entry misconfigured"
 *   (cause 259).
 * 6 does not come up if the emulator passes on no more bytes of a value than the
 * access has. Any other refusal is a fault of the emulator; it is also the
 * emulator that keeps an RCID and MCID of its guest below NR and NM (7), those
 * in iommu_qosid too, and that puts no second request and none for 0 bytes to
 * wait (10, 11).
 *
 *
 * SET-UP
 *
 *   NR       RCIDs                                1 to 256
 *   NA       access types                         1 to 8
 *   NM       MCIDs                                1 to 256
 *   W        width of a counter in bits           24 to 62
 *   NBWBLKS  bandwidth blocks                     1 to 65,535
 *   MRBWB    blocks that can be reserved          1 to NBWBLKS
 *   Q        bytes a block is worth in a window   1 to 65,536
 *   NCBLKS   capacity blocks                      1 to 64
 *   U        units of a capacity block            1 to 64
 *
 *
 * RECORDS, in bytes from the start, 8 bytes for each number
 *
 *   bandwidth, 96 bytes              capacity, 80 bytes
 *    0 NBWBLKS                        0 NCBLKS
 *    8 MRBWB                          8 NR
 *   16 NR                            16 NA
 *   24 NA                            24 NM
 *   32 NM                            32 W
 *   40 Q                             40 U
 *   48 W                             48 mon_ctl
 *   56 mon_ctl                       56 mon_ctr_val
 *   64 mon_ctr_val                   64 alloc_ctl
 *   72 alloc_ctl                     72 block_mask
 *   80 bw_alloc
 *   88 bytes the pool gave in this window
 *
 *
 * TABLES
 *
 * Those with a word for each pair hold the pair of RCID and AT at index
 * RCID * NA + AT; those of counters go by MCID, waiters by RCID. Owners go by
 * unit: the units of a block stand side by side, those of block 0 first, so that
 * a unit's block is its number divided by U, rounded down.
 *
 *   bandwidth: active      settings in force           4 bytes a pair
 *              configured  settings configured         4 bytes a pair
 *              used        bytes used of reservations  4 bytes a pair
 *   capacity:  masks       block masks                 8 bytes a pair
 *   both:      counters    counter words               8 bytes an MCID
 *              events      counter settings            2 bytes an MCID
 *   bandwidth: waiters     requests that wait          8 bytes an RCID
 *   capacity:  owners      who owns each unit          4 bytes a unit
 *
 * A setting is 0 for a pair never set, or has the fields of bw_alloc: a holder
 * has useShared 0, Rbwb other than 0 and sharedAT 0; a sharer has useShared 1
 * and sharedAT, a holder of the same RCID, and Rbwb and Mweight 0.
 * A counter word has the fields of mon_ctr_val. A counter setting has EVT_ID
 * in bits 7:0, AT in 10:8 and ATV in 11, and is 0 while the counter is stopped.
 * A word of waiters has the need, the bytes that the request still waits for, in
 * bits 31:0, MCID in 39:32, AT in 42:40 and write in 43, and is 0 where none
 * waits. A word of owners has the RCID in bits 7:0, MCID in 15:8, AT in 18:16 and
 * 1 in bit 19, and is 0 while the unit is free.
 *
 * Record and tables are well formed, as refusal 3 asks, when
 * - both settings tables hold only such words, and in each the holders of an
 *   RCID have one Mweight and the Rbwb of all holders together do not exceed
 *   MRBWB;
 * - used is at most Rbwb * Q for a holder in force, and 0 for other pairs;
 * - the pool gave at most (NBWBLKS - all Rbwb in force) * Q;
 * - masks and block_mask have no bit at or above NCBLKS;
 * - counters are below 2^W, flags aside;
 * - a counter setting is 0 or has a known EVT_ID other than 0, with ATV 1 only
 *   if NA is above 1 and AT below NA, and AT 0 if ATV is 0;
 * - a word of waiters is 0 or has a need other than 0, MCID below NM, AT below NA
 *   and no bit above 43;
 * - a word of owners is 0 or has bit 19, RCID below NR, MCID below NM, AT below NA
 *   and no bit above 19;
 * - registers have no bit outside their fields, BUSY is 0 and, with NA 1, the
 *   AT and ATV of the control registers are 0.
 *
 *
 * REGISTERS
 *
 * Each controller spans 40 bytes and is read and written in 4 or 8 bytes.
 *
 *    0 capabilities  VER 7:0 (0x01), and NBWBLKS 23:8, MRBWB 47:32 for
 *                    bandwidth, NCBLKS 23:8, FRCID 24 (1) for capacity
 *    8 mon_ctl       OP 4:0, AT 7:5, MCID 19:8, EVT_ID 27:20, ATV 28,
 *                    STATUS 38:32, BUSY 39
 *   16 mon_ctr_val   bandwidth: CTR 61:0, INVALID 62, OVF 63
 *                    capacity: CTR 62:0, INVALID 63
 *   24 alloc_ctl     OP 4:0, AT 7:5, RCID 19:8, STATUS 38:32, BUSY 39
 *   32 bw_alloc      Rbwb 15:0, Mweight 27:20, sharedAT 30:28, useShared 31
 *      block_mask    a bit for each capacity block
 *
 * Other bits read 0 and writes to them are dropped, as are writes to
 * capabilities and mon_ctr_val. A write of a control register, whole or its
 * low half, performs the operation before it returns, so BUSY reads 0; a write
 * of its high half does nothing. With NA 1 the AT and ATV of the control
 * registers are held as 0. Either half of block_mask may be written alone.
 *
 *
 * DEVICES
 *
 * The request of a device behind an IOMMU has its RCID and MCID from a word that
 * the emulator hands over beside the mode, the IOMMU's ddtp.iommu_mode:
 *
 *   mode 0 (off), 1 (bare)  iommu_qosid, the IOMMU's register
 *                           RCID 11:0, MCID 27:16
 *   any other (directory)   DC.ta of the device context
 *                           RCID 51:40, MCID 63:52
 *
 * Modes 2, 3 and 4 are device directories of 1 to 3 levels; any other number
 * counts as a directory too. Other bits of the word are ignored.
 */
#ifndef CBQRI_H
#define CBQRI_H

#include <stddef.h>
#include <stdint.h>

/* The version of this header and of the library beside it (CHANGELOG.md).
 * CBQRI_VERSION is one number, to be compared: 7000 for 0.7.0. */
#define CBQRI_VERSION_MAJOR 0
#define CBQRI_VERSION_MINOR 7
#define CBQRI_VERSION_PATCH 0
#define CBQRI_VERSION_STRING "0.7.0"
#define CBQRI_VERSION                                                                     \
    (CBQRI_VERSION_MAJOR * 1000000 + CBQRI_VERSION_MINOR * 1000 + CBQRI_VERSION_PATCH)

#ifdef __cplusplus
extern "C" {
#endif

/* Lengths of records and tables in bytes. */
#define CBQRI_BANDWIDTH_RECORD_LEN 96
#define CBQRI_CAPACITY_RECORD_LEN 80
/* active, configured and used, each */
#define CBQRI_SETTINGS_LEN(nr, na) (4 * (size_t)(nr) * (size_t)(na))
#define CBQRI_MASKS_LEN(nr, na) (8 * (size_t)(nr) * (size_t)(na))
#define CBQRI_COUNTERS_LEN(nm) (8 * (size_t)(nm))
#define CBQRI_EVENTS_LEN(nm) (2 * (size_t)(nm))
#define CBQRI_WAITERS_LEN(nr) (8 * (size_t)(nr))
#define CBQRI_OWNERS_LEN(ncblks, u) (4 * (size_t)(ncblks) * (size_t)(u))

/* Refusals. Of those that a call can give, the one with the lower number is checked first. */
enum {
    CBQRI_REFUSED_SETUP = 1,          /* set-up outside its ranges, or a record of another length */
    CBQRI_REFUSED_LENGTH = 2,         /* a table of another length than the set-up says */
    CBQRI_REFUSED_STATE = 3,          /* record or table not well formed; not checked by a reset */
    CBQRI_REFUSED_SIZE = 4,           /* access neither of 4 nor of 8 bytes */
    CBQRI_REFUSED_OFFSET = 5,         /* offset no multiple of the size, or end beyond byte 40 */
    CBQRI_REFUSED_VALUE = 6,          /* 4-byte write of a value of 2^32 or more */
    CBQRI_REFUSED_IDENTIFIER = 7,     /* RCID at or above NR, or MCID at or above NM */
    CBQRI_REFUSED_UNIT = 8,           /* unit at or above NCBLKS * U */
    CBQRI_REFUSED_DEVICE_CONTEXT = 9, /* a device context with an RCID or MCID as in 7 */
    CBQRI_REFUSED_ALREADY_WAITS = 10, /* a request already waits under that RCID */
    CBQRI_REFUSED_NO_BYTES = 11       /* a request for 0 bytes is put to wait */
};

/* Register offsets. */
enum {
    CBQRI_CAPABILITIES = 0,
    CBQRI_MON_CTL = 8,
    CBQRI_MON_CTR_VAL = 16,
    CBQRI_ALLOC_CTL = 24,
    CBQRI_BW_ALLOC = 32,   /* bandwidth */
    CBQRI_BLOCK_MASK = 32, /* capacity */
    CBQRI_SPAN = 40        /* bytes of a controller's registers */
};

/* OP of alloc_ctl and of mon_ctl. */
enum {
    CBQRI_CONFIG_LIMIT = 1,
    CBQRI_READ_LIMIT = 2,
    CBQRI_FLUSH_RCID = 3, /* capacity */
    CBQRI_CONFIG_EVENT = 1,
    CBQRI_READ_COUNTER = 2
};

/* EVT_ID. */
enum {
    CBQRI_EVENT_NONE = 0,     /* stops the counter; it keeps value and flags */
    CBQRI_EVENT_BYTES = 1,    /* bandwidth: bytes read and written */
    CBQRI_EVENT_READS = 2,    /* bandwidth: bytes read */
    CBQRI_EVENT_WRITES = 3,   /* bandwidth: bytes written */
    CBQRI_EVENT_OCCUPANCY = 1 /* capacity: units filled and not evicted */
};

/* STATUS; the first that applies. An operation that ends in another STATUS
 * than 1 has changed nothing but its own control register. */
enum {
    CBQRI_STATUS_OK = 1,
    CBQRI_STATUS_BAD_OP = 2,          /* no such operation */
    CBQRI_STATUS_BAD_ID = 3,          /* RCID at or above NR, or MCID at or above NM */
    CBQRI_STATUS_ALLOC_BAD_AT = 4,    /* CONFIG_LIMIT, READ_LIMIT: AT at or above NA */
    CBQRI_STATUS_ALLOC_BAD_LIMIT = 5, /* CONFIG_LIMIT: bw_alloc or block_mask cannot be taken */
    CBQRI_STATUS_MON_BAD_EVENT = 4,   /* CONFIG_EVENT: no such EVT_ID */
    CBQRI_STATUS_MON_BAD_AT = 5       /* CONFIG_EVENT: ATV 1 and AT at or above NA */
};

/* Modes of the IOMMU. */
enum {
    CBQRI_IOMMU_OFF = 0,
    CBQRI_IOMMU_BARE = 1,
    CBQRI_IOMMU_DIRECTORY = 2 /* and any other number */
};

/* Flags of mon_ctr_val and of a counter word. */
#define CBQRI_BANDWIDTH_INVALID (UINT64_C(1) << 62)
#define CBQRI_BANDWIDTH_OVF (UINT64_C(1) << 63)
#define CBQRI_CAPACITY_INVALID (UINT64_C(1) << 63)

/* Register words. */
static inline uint64_t cbqri_alloc_ctl(uint64_t op, uint64_t at, uint64_t rcid)
{
    return (op & 0x1f) | (at & 7) << 5 | (rcid & 0xfff) << 8;
}

static inline uint64_t cbqri_mon_ctl(uint64_t op, uint64_t at, uint64_t mcid, uint64_t evt_id,
                                     uint64_t atv)
{
    return (op & 0x1f) | (at & 7) << 5 | (mcid & 0xfff) << 8 | (evt_id & 0xff) << 20 |
           (atv & 1) << 28;
}

/* bw_alloc of a pair that holds Rbwb blocks, and the Mweight of all holders of its
 * RCID; with Mweight 0 the pool gives them nothing. */
static inline uint64_t cbqri_holder(uint64_t rbwb, uint64_t mweight)
{
    return (rbwb & 0xffff) | (mweight & 0xff) << 20;
}

/* bw_alloc of a pair that uses the blocks of another AT of its RCID. */
static inline uint64_t cbqri_sharer(uint64_t shared_at)
{
    return UINT64_C(0x80000000) | (shared_at & 7) << 28;
}

/* Words of the IOMMU; DC.ta with its other fields 0. */
static inline uint64_t cbqri_iommu_qosid(uint64_t rcid, uint64_t mcid)
{
    return (rcid & 0xfff) | (mcid & 0xfff) << 16;
}

static inline uint64_t cbqri_dc_ta(uint64_t rcid, uint64_t mcid)
{
    return (rcid & 0xfff) << 40 | (mcid & 0xfff) << 52;
}

/* A word of waiters: a request that waits for so many bytes; write is 1 if it
 * writes. */
static inline uint64_t cbqri_waiter(uint32_t need, uint64_t mcid, uint64_t at, uint64_t write)
{
    return need | (mcid & 0xff) << 32 | (at & 7) << 40 | (write & 1) << 43;
}

/* A word of owners: a unit that was filled for this RCID, MCID and AT. */
static inline uint32_t cbqri_owner(uint64_t rcid, uint64_t mcid, uint64_t at)
{
    return (uint32_t)((rcid & 0xff) | (mcid & 0xff) << 8 | (at & 7) << 16 | UINT64_C(1) << 19);
}

/* STATUS of a control register's word. */
static inline uint64_t cbqri_status(uint64_t ctl)
{
    return ctl >> 32 & 0x7f;
}

/* ------------------------------------------------------------------------
 * The bandwidth controller
 *
 * CONFIG_LIMIT writes the configured setting of a pair; the settings in force
 * are those that were configured at the last window end (or reset). It ends
 * in STATUS 5 if
 * - useShared is 0 and Rbwb is 0, or Rbwb with the Rbwb of all other
 *   configured holders exceeds MRBWB;
 * - useShared is 1 and sharedAT is this AT, is at or above NA, or is no
 *   configured holder of this RCID, or another AT of this RCID shares this one.
 * Stored are Rbwb and Mweight of a holder, sharedAT and useShared of a sharer;
 * the blocks that a new sharer had are free again. A holder's Mweight is stored
 * in all other configured holders of its RCID too; a sharer leaves theirs alone.
 * READ_LIMIT copies the configured setting into bw_alloc, 0 for a pair never
 * set.
 *
 * CONFIG_EVENT with an event other than 0 sets the counter and its flags to 0
 * and counts what the MCID does from then on, with ATV 1 only under that AT.
 * READ_COUNTER copies the counter word into mon_ctr_val.
 * ------------------------------------------------------------------------ */

/* Sets the controller up anew, whatever record and tables held. RCID 0 with
 * AT 0 holds MRBWB blocks with Mweight 1 and its other ATs share AT 0, in
 * force at once; no other pair is set. Counters and registers are 0, and no
 * request waits. Refusals: 1, 2. */
uint64_t cbqri_bandwidth_reset(uint64_t nbwblks, uint64_t mrbwb, uint64_t nr, uint64_t na,
                               uint64_t nm, uint64_t q, uint64_t w,
                               uint8_t *record, size_t record_len,
                               uint8_t *active, size_t active_len,
                               uint8_t *configured, size_t configured_len,
                               uint8_t *used, size_t used_len,
                               uint8_t *counters, size_t counters_len,
                               uint8_t *events, size_t events_len,
                               uint8_t *waiters, size_t waiters_len);

/* A driver's read of size bytes at offset: the register, or the half of it
 * that lies there, goes to *value. Refusals: 1 to 5. */
uint64_t cbqri_bandwidth_read(const uint8_t *record, size_t record_len,
                              const uint8_t *active, size_t active_len,
                              const uint8_t *configured, size_t configured_len,
                              const uint8_t *used, size_t used_len,
                              const uint8_t *counters, size_t counters_len,
                              const uint8_t *events, size_t events_len,
                              const uint8_t *waiters, size_t waiters_len,
                              uint64_t size, uint64_t offset, uint64_t *value);

/* A driver's write of size bytes at offset, with the operation it performs.
 * Refusals: 1 to 6. */
uint64_t cbqri_bandwidth_write(uint8_t *record, size_t record_len,
                               uint8_t *active, size_t active_len,
                               uint8_t *configured, size_t configured_len,
                               uint8_t *used, size_t used_len,
                               uint8_t *counters, size_t counters_len,
                               uint8_t *events, size_t events_len,
                               uint8_t *waiters, size_t waiters_len,
                               uint64_t size, uint64_t offset, uint64_t value);

/* A request to read (kind 0) or write (any other kind) so many bytes. An AT at
 * or above NA counts as 0. What is granted, perhaps fewer bytes than asked and
 * perhaps none, is told by where it came from, by the settings in force:
 * - a pair never set is granted nothing: both amounts are 0;
 * - *reserved: the pair's holder (itself, or the pair it shares) gives what is
 *   left of its Rbwb * Q bytes in this window;
 * - *pool: if the holder's Mweight is not 0, the rest comes from the pool, as
 *   far as it has bytes left: (NBWBLKS - all Rbwb in force) * Q in each window.
 * The sum of both is added to the counter of the MCID if its event and AT match;
 * it wraps at 2^W, and OVF is then set until an event other than 0 is
 * configured, or a reset. Refusals: 1 to 3, 7.
 *
 * What to plan by: the reserved bytes are those that a job has by its
 * reservation. While the setting is in force every window has them, whatever
 * others ask. The pool bytes are luck: spare bandwidth, which may be gone in the
 * next window. A job whose pool bytes are regularly above 0 needs a larger
 * reservation to be sure of them, by as many blocks of Q bytes as hold them. */
uint64_t cbqri_bandwidth_request(uint8_t *record, size_t record_len,
                                 uint8_t *active, size_t active_len,
                                 uint8_t *configured, size_t configured_len,
                                 uint8_t *used, size_t used_len,
                                 uint8_t *counters, size_t counters_len,
                                 uint8_t *events, size_t events_len,
                                 uint8_t *waiters, size_t waiters_len,
                                 uint64_t rcid, uint64_t mcid, uint64_t at, uint64_t kind,
                                 uint32_t bytes, uint64_t *reserved, uint64_t *pool);

/* A device's request: as cbqri_bandwidth_request, with the RCID and MCID of the
 * word that belongs to the mode (DEVICES). Where one is out of range the refusal
 * is 7 with the IOMMU off or bare, and 9 with a directory. Refusals: 1 to 3, 7
 * or 9. */
uint64_t cbqri_bandwidth_device_request(uint8_t *record, size_t record_len,
                                        uint8_t *active, size_t active_len,
                                        uint8_t *configured, size_t configured_len,
                                        uint8_t *used, size_t used_len,
                                        uint8_t *counters, size_t counters_len,
                                        uint8_t *events, size_t events_len,
                                        uint8_t *waiters, size_t waiters_len,
                                        uint64_t mode, uint64_t word, uint64_t at,
                                        uint64_t kind, uint32_t bytes, uint64_t *reserved,
                                        uint64_t *pool);

/* Puts a request to wait: the same arguments as cbqri_bandwidth_request (an AT at
 * or above NA is stored as 0), and nothing is granted by the call itself. One
 * request can wait under each RCID, and is served at every window end (below)
 * until it has all its bytes, or a reset comes. So a driver that was granted less
 * than it asked for puts the rest to wait and asks for the need, instead of trying
 * again. Other requests, of the same RCID too, go on beside it. Refusals: 1 to 3,
 * 7, 10, 11.
 *
 * How long it takes: a request for n bytes is done within n / (R * Q) window
 * ends, rounded up, as long as its holder has at least R blocks in force at each,
 * R at least 1; what others ask or wait for makes it no longer. */
uint64_t cbqri_bandwidth_wait(uint8_t *record, size_t record_len,
                              uint8_t *active, size_t active_len,
                              uint8_t *configured, size_t configured_len,
                              uint8_t *used, size_t used_len,
                              uint8_t *counters, size_t counters_len,
                              uint8_t *events, size_t events_len,
                              uint8_t *waiters, size_t waiters_len,
                              uint64_t rcid, uint64_t mcid, uint64_t at, uint64_t kind,
                              uint32_t bytes);

/* The bytes that the request under this RCID still waits for go to *need, 0 where
 * none waits or it is done. Refusals: 1 to 3, 7 (the RCID alone). */
uint64_t cbqri_bandwidth_need(const uint8_t *record, size_t record_len,
                              const uint8_t *active, size_t active_len,
                              const uint8_t *configured, size_t configured_len,
                              const uint8_t *used, size_t used_len,
                              const uint8_t *counters, size_t counters_len,
                              const uint8_t *events, size_t events_len,
                              const uint8_t *waiters, size_t waiters_len,
                              uint64_t rcid, uint64_t *need);

/* Ends the window: configured settings come into force, and reservations and
 * pool are whole again. Then the requests that wait are served, by the settings
 * now in force, each by its pair's holder:
 * - first each has from the holder's reservation as much as it needs, at most
 *   Rbwb * Q bytes;
 * - then each that still needs bytes, its holder's Mweight not 0, has from the
 *   pool the smaller of what it needs and its share, which is the whole pool
 *   times that Mweight, divided by the Mweights of all such requests together and
 *   rounded down.
 * A request whose pair is neither holder nor sharer has nothing, and waits on.
 * What is served is used up in the window that begins, and is counted as a
 * granted request's bytes are. Refusals: 1 to 3. */
uint64_t cbqri_bandwidth_end_window(uint8_t *record, size_t record_len,
                                    uint8_t *active, size_t active_len,
                                    uint8_t *configured, size_t configured_len,
                                    uint8_t *used, size_t used_len,
                                    uint8_t *counters, size_t counters_len,
                                    uint8_t *events, size_t events_len,
                                    uint8_t *waiters, size_t waiters_len);

/* ---- The same on a view ---- */

/* Record and tables of a bandwidth controller. */
struct cbqri_bw {
    uint8_t *record, *active, *configured, *used, *counters, *events, *waiters;
    size_t record_len, active_len, configured_len, used_len, counters_len, events_len, waiters_len;
};

struct cbqri_bw_setup {
    uint64_t nbwblks, mrbwb, nr, na, nm, q, w;
};

/* Bytes of record and tables together. */
#define CBQRI_BW_LEN(nr, na, nm)                                                          \
    (CBQRI_BANDWIDTH_RECORD_LEN + 3 * CBQRI_SETTINGS_LEN(nr, na) + CBQRI_COUNTERS_LEN(nm) + \
     CBQRI_EVENTS_LEN(nm) + CBQRI_WAITERS_LEN(nr))

/* A view of CBQRI_BW_LEN(nr, na, nm) bytes: the record and then the tables, in
 * the order of the arguments above. */
static inline struct cbqri_bw cbqri_bw_view(uint8_t *bytes, uint64_t nr, uint64_t na, uint64_t nm)
{
    struct cbqri_bw c;
    c.record_len = CBQRI_BANDWIDTH_RECORD_LEN;
    c.active_len = c.configured_len = c.used_len = CBQRI_SETTINGS_LEN(nr, na);
    c.counters_len = CBQRI_COUNTERS_LEN(nm);
    c.events_len = CBQRI_EVENTS_LEN(nm);
    c.waiters_len = CBQRI_WAITERS_LEN(nr);
    c.record = bytes;
    c.active = c.record + c.record_len;
    c.configured = c.active + c.active_len;
    c.used = c.configured + c.configured_len;
    c.counters = c.used + c.used_len;
    c.events = c.counters + c.counters_len;
    c.waiters = c.events + c.events_len;
    return c;
}

/* The buffers as arguments of the functions above. */
#define CBQRI_BW_BUFFERS(c)                                                               \
    (c)->record, (c)->record_len, (c)->active, (c)->active_len, (c)->configured,          \
        (c)->configured_len, (c)->used, (c)->used_len, (c)->counters, (c)->counters_len,  \
        (c)->events, (c)->events_len, (c)->waiters, (c)->waiters_len

static inline uint64_t cbqri_bw_reset(const struct cbqri_bw *c, const struct cbqri_bw_setup *s)
{
    return cbqri_bandwidth_reset(s->nbwblks, s->mrbwb, s->nr, s->na, s->nm, s->q, s->w,
                                 CBQRI_BW_BUFFERS(c));
}

static inline uint64_t cbqri_bw_read(const struct cbqri_bw *c, uint64_t size, uint64_t offset,
                                     uint64_t *value)
{
    return cbqri_bandwidth_read(CBQRI_BW_BUFFERS(c), size, offset, value);
}

static inline uint64_t cbqri_bw_write(const struct cbqri_bw *c, uint64_t size, uint64_t offset,
                                      uint64_t value)
{
    return cbqri_bandwidth_write(CBQRI_BW_BUFFERS(c), size, offset, value);
}

static inline uint64_t cbqri_bw_request(const struct cbqri_bw *c, uint64_t rcid, uint64_t mcid,
                                        uint64_t at, uint64_t kind, uint32_t bytes,
                                        uint64_t *reserved, uint64_t *pool)
{
    return cbqri_bandwidth_request(CBQRI_BW_BUFFERS(c), rcid, mcid, at, kind, bytes, reserved,
                                   pool);
}

static inline uint64_t cbqri_bw_device_request(const struct cbqri_bw *c, uint64_t mode,
                                               uint64_t word, uint64_t at, uint64_t kind,
                                               uint32_t bytes, uint64_t *reserved,
                                               uint64_t *pool)
{
    return cbqri_bandwidth_device_request(CBQRI_BW_BUFFERS(c), mode, word, at, kind, bytes,
                                          reserved, pool);
}

static inline uint64_t cbqri_bw_wait(const struct cbqri_bw *c, uint64_t rcid, uint64_t mcid,
                                     uint64_t at, uint64_t kind, uint32_t bytes)
{
    return cbqri_bandwidth_wait(CBQRI_BW_BUFFERS(c), rcid, mcid, at, kind, bytes);
}

static inline uint64_t cbqri_bw_need(const struct cbqri_bw *c, uint64_t rcid, uint64_t *need)
{
    return cbqri_bandwidth_need(CBQRI_BW_BUFFERS(c), rcid, need);
}

static inline uint64_t cbqri_bw_end_window(const struct cbqri_bw *c)
{
    return cbqri_bandwidth_end_window(CBQRI_BW_BUFFERS(c));
}

/* ------------------------------------------------------------------------
 * The capacity controller
 *
 * CONFIG_LIMIT stores block_mask as the mask of a pair, in force at once; it
 * ends in STATUS 5 if block_mask is 0. Masks may overlap. READ_LIMIT copies
 * the pair's mask into block_mask. The monitoring operations are those of the
 * bandwidth controller.
 *
 * Each block has U units. A unit that was filled has an owner, the RCID, MCID and
 * AT of that fill, until it is evicted. FLUSH_RCID evicts every unit that the RCID
 * owns, whatever AT it names; masks and block_mask stay. A driver performs it before
 * it gives an RCID to another job, as the old job's lines are still in the cache.
 *
 * Event 1 counts units: up by 1 as one is filled, down by 1 as one is evicted. At
 * 2^W - 1 or at 0 the counter stays and becomes INVALID, which lasts until an event
 * other than 0 is configured, or a reset. If an MCID owned no unit when its counter
 * was configured with event 1 and ATV 0, then until it is configured anew or a
 * reset comes the counter is valid and equals the units that the MCID owns.
 * ------------------------------------------------------------------------ */

/* Sets the controller up anew, whatever record and tables held. RCID 0 has
 * every block for each AT; other masks, counters and registers are 0, and all
 * units are free. Refusals: 1, 2. */
uint64_t cbqri_capacity_reset(uint64_t ncblks, uint64_t nr, uint64_t na, uint64_t nm, uint64_t w,
                              uint64_t u,
                              uint8_t *record, size_t record_len,
                              uint8_t *masks, size_t masks_len,
                              uint8_t *counters, size_t counters_len,
                              uint8_t *events, size_t events_len,
                              uint8_t *owners, size_t owners_len);

/* As cbqri_bandwidth_read. */
uint64_t cbqri_capacity_read(const uint8_t *record, size_t record_len,
                             const uint8_t *masks, size_t masks_len,
                             const uint8_t *counters, size_t counters_len,
                             const uint8_t *events, size_t events_len,
                             const uint8_t *owners, size_t owners_len,
                             uint64_t size, uint64_t offset, uint64_t *value);

/* As cbqri_bandwidth_write. */
uint64_t cbqri_capacity_write(uint8_t *record, size_t record_len,
                              uint8_t *masks, size_t masks_len,
                              uint8_t *counters, size_t counters_len,
                              uint8_t *events, size_t events_len,
                              uint8_t *owners, size_t owners_len,
                              uint64_t size, uint64_t offset, uint64_t value);

/* The cache wants to fill a unit for this RCID, MCID and AT (at or above NA counts
 * as 0). *allowed is 1 if the mask of RCID and AT has the unit's block. Then the
 * unit, if it is owned, is first evicted; RCID, MCID and AT are its owner from now
 * on, and the counter of the MCID goes up if its event and AT match. Otherwise
 * *allowed is 0 and nothing has changed. Refusals: 1 to 3, 7, 8. */
uint64_t cbqri_capacity_fill(uint8_t *record, size_t record_len,
                             uint8_t *masks, size_t masks_len,
                             uint8_t *counters, size_t counters_len,
                             uint8_t *events, size_t events_len,
                             uint8_t *owners, size_t owners_len,
                             uint64_t rcid, uint64_t mcid, uint64_t at, uint64_t unit,
                             uint64_t *allowed);

/* The cache evicts what is in a unit; no mask is asked. The unit is free, and the
 * counter of its owner's MCID goes down if its event and AT match. If the unit was
 * free, nothing has changed. Refusals: 1 to 3, 8. */
uint64_t cbqri_capacity_evict(uint8_t *record, size_t record_len,
                              uint8_t *masks, size_t masks_len,
                              uint8_t *counters, size_t counters_len,
                              uint8_t *events, size_t events_len,
                              uint8_t *owners, size_t owners_len,
                              uint64_t unit);

/* ---- The same on a view ---- */

/* Record and tables of a capacity controller. */
struct cbqri_cc {
    uint8_t *record, *masks, *counters, *events, *owners;
    size_t record_len, masks_len, counters_len, events_len, owners_len;
};

struct cbqri_cc_setup {
    uint64_t ncblks, nr, na, nm, w, u;
};

/* Bytes of record and tables together. */
#define CBQRI_CC_LEN(ncblks, nr, na, nm, u)                                               \
    (CBQRI_CAPACITY_RECORD_LEN + CBQRI_MASKS_LEN(nr, na) + CBQRI_COUNTERS_LEN(nm) +       \
     CBQRI_EVENTS_LEN(nm) + CBQRI_OWNERS_LEN(ncblks, u))

/* A view of CBQRI_CC_LEN(ncblks, nr, na, nm, u) bytes: the record and then the
 * tables, in the order of the arguments above. */
static inline struct cbqri_cc cbqri_cc_view(uint8_t *bytes, uint64_t ncblks, uint64_t nr,
                                            uint64_t na, uint64_t nm, uint64_t u)
{
    struct cbqri_cc c;
    c.record_len = CBQRI_CAPACITY_RECORD_LEN;
    c.masks_len = CBQRI_MASKS_LEN(nr, na);
    c.counters_len = CBQRI_COUNTERS_LEN(nm);
    c.events_len = CBQRI_EVENTS_LEN(nm);
    c.owners_len = CBQRI_OWNERS_LEN(ncblks, u);
    c.record = bytes;
    c.masks = c.record + c.record_len;
    c.counters = c.masks + c.masks_len;
    c.events = c.counters + c.counters_len;
    c.owners = c.events + c.events_len;
    return c;
}

/* The buffers as arguments of the functions above. */
#define CBQRI_CC_BUFFERS(c)                                                               \
    (c)->record, (c)->record_len, (c)->masks, (c)->masks_len, (c)->counters,              \
        (c)->counters_len, (c)->events, (c)->events_len, (c)->owners, (c)->owners_len

static inline uint64_t cbqri_cc_reset(const struct cbqri_cc *c, const struct cbqri_cc_setup *s)
{
    return cbqri_capacity_reset(s->ncblks, s->nr, s->na, s->nm, s->w, s->u, CBQRI_CC_BUFFERS(c));
}

static inline uint64_t cbqri_cc_read(const struct cbqri_cc *c, uint64_t size, uint64_t offset,
                                     uint64_t *value)
{
    return cbqri_capacity_read(CBQRI_CC_BUFFERS(c), size, offset, value);
}

static inline uint64_t cbqri_cc_write(const struct cbqri_cc *c, uint64_t size, uint64_t offset,
                                      uint64_t value)
{
    return cbqri_capacity_write(CBQRI_CC_BUFFERS(c), size, offset, value);
}

static inline uint64_t cbqri_cc_fill(const struct cbqri_cc *c, uint64_t rcid, uint64_t mcid,
                                     uint64_t at, uint64_t unit, uint64_t *allowed)
{
    return cbqri_capacity_fill(CBQRI_CC_BUFFERS(c), rcid, mcid, at, unit, allowed);
}

static inline uint64_t cbqri_cc_evict(const struct cbqri_cc *c, uint64_t unit)
{
    return cbqri_capacity_evict(CBQRI_CC_BUFFERS(c), unit);
}

#ifdef __cplusplus
}
#endif

#endif
