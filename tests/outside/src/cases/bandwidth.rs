//! Bandwidth: the places where a first version goes wrong, with numbers by hand.

use super::case::bandwidth_record::*;
use super::case::BandwidthCase;
use super::Report;
use crate::model::bandwidth::slices::*;

const TWO_TYPES: [u64; 7] = [100, 80, 4, 2, 4, 64, 24];
const THREE_TYPES: [u64; 7] = [100, 80, 4, 3, 4, 64, 24];

pub fn run(report: &mut Report) {
    after_reset(report);
    sums(report);
    sharers(report);
    stored_forms(report);
    failed_operations(report);
    halves(report);
    pool_and_reservations(report);
    weights(report);
    window_ends(report);
    counter_wraps(report);
    counter_flags(report);
    counter_settings(report);
    counter_filters(report);
    one_access_type(report);
}

fn after_reset(report: &mut Report) {
    let mut c = BandwidthCase::after_reset(report, THREE_TYPES);
    for table in [ACTIVE, CONFIGURED] {
        c.word("RCID 0 AT 0 holds MRBWB with weight 1", table, 0, 0x0010_0050);
        c.word("RCID 0 AT 1 shares AT 0", table, 1, 0x8000_0000);
        c.word("RCID 0 AT 2 shares AT 0", table, 2, 0x8000_0000);
        c.word("RCID 1 is unset", table, 3, 0);
        c.word("RCID 3 AT 2 is unset", table, 11, 0);
    }
    for offset in [8, 16, 24, 32] {
        c.read("other registers are 0", 8, offset, 0);
    }
    c.read_limit("RCID 0 AT 0", (0, 0), 0x0010_0050);
    c.read_limit("RCID 0 AT 2", (0, 2), 0x8000_0000);
    c.read_limit("a pair never set reads 0 with STATUS 1", (3, 1), 0);
    // 80 blocks of 64 bytes and the pool of 20
    c.request("all that RCID 0 can get", [0, 0, 2, 0, 0xFFFF_FFFF], (5_120, 1_280));
}

/// The sum counts every other configured holder, and not the setting that is replaced.
fn sums(report: &mut Report) {
    let mut c = BandwidthCase::after_reset(report, TWO_TYPES);
    c.configure("80 again", (0, 0), 80, 1);
    c.configure("81", (0, 0), 81, 5);
    c.configure("0", (0, 0), 0, 5);
    c.configure("0 with a weight", (0, 0), 0x0FF0_0000, 5);
    c.configure("30", (0, 0), 30, 1);
    c.configure("50 fits by the configured table, not by the one in force", (1, 0), 50, 1);
    c.configure("one more does not", (2, 0), 1, 5);
    c.end_window();
    c.configure("20", (0, 0), 20, 1);
    c.configure("10 fits before the next window end", (2, 1), 10, 1);
    c.configure("11 does not", (2, 1), 11, 5);
    c.configure("65,535", (2, 1), 65_535, 5);
    c.read_limit("STATUS 5 changed nothing", (2, 1), 10);
}

fn sharers(report: &mut Report) {
    let mut c = BandwidthCase::after_reset(report, THREE_TYPES);
    c.configure("AT 0 to 30", (0, 0), 30, 1);
    c.configure("a sharer becomes a holder", (0, 2), 10, 1);
    c.configure("AT 0 cannot share AT 2 while AT 1 shares it", (0, 0), 0xA000_0000, 5);
    c.configure("AT 1 shares AT 2 instead", (0, 1), 0xA000_0000, 1);
    c.configure("now AT 0 can", (0, 0), 0xA000_0000, 1);
    c.configure("its 30 blocks are free again", (1, 0), 70, 1);
    c.configure("and no more", (1, 1), 1, 5);
    c.configure("AT 1 of RCID 1 shares AT 0", (1, 1), 0x8000_0000, 1);
    c.configure("no sharer can be shared", (1, 2), 0x9000_0000, 5);
    c.configure("AT 3 of 3", (1, 2), 0xB000_0000, 5);
    c.configure("AT 7", (1, 2), 0xF000_0000, 5);
    c.configure("itself", (1, 2), 0xA000_0000, 5);
    c.configure("an unset pair, though another RCID holds it", (2, 1), 0x8000_0000, 5);
    c.configure("a holder again, within 70", (1, 0), 70, 1);
    c.configure("a sharer may be set to the same again", (1, 1), 0x8000_0000, 1);
}

/// Only the table has the stored form; bw_alloc stays as written.
fn stored_forms(report: &mut Report) {
    let mut c = BandwidthCase::after_reset(report, TWO_TYPES);
    c.write(8, 0x20, u64::MAX);
    c.read("named bits of bw_alloc", 8, 0x20, 0xFFF0_FFFF);
    c.read("its high half is 0", 4, 0x24, 0);

    c.configure("a sharer with Rbwb and Mweight", (0, 1), 0x8FF0_FFFF, 1);
    c.read("bw_alloc after it", 8, 0x20, 0x8FF0_FFFF);
    c.word("its stored form", CONFIGURED, 1, 0x8000_0000);
    c.read_limit("and read back", (0, 1), 0x8000_0000);

    c.configure("a holder with sharedAT", (0, 0), 0x7120_0005, 1);
    c.read("bw_alloc after it", 8, 0x20, 0x7120_0005);
    c.word("its stored form", CONFIGURED, 0, 0x0120_0005);
    c.word("not yet in force", ACTIVE, 0, 0x0010_0050);
    c.read_limit("READ_LIMIT goes by the configured table", (0, 0), 0x0120_0005);
}

/// The control register is stored whatever the STATUS, and nothing else changes.
fn failed_operations(report: &mut Report) {
    let mut c = BandwidthCase::after_reset(report, TWO_TYPES);
    c.write(8, 0x20, 0x0050_0051);
    let changes = [
        ("OP 0", 0x0, 0x2_0000_0000),
        ("OP 3", 0x103, 0x2_0000_0103),
        ("OP 31 with bad RCID and AT", 0xF_FFFF, 0x2_000F_FFFF),
        ("RCID 4 with a bad AT", 0x461, 0x3_0000_0461),
        ("RCID 4,095", 0xF_FF01, 0x3_000F_FF01),
        ("AT 2 of 2", 0x141, 0x4_0000_0141),
        ("READ_LIMIT of AT 7", 0x1E2, 0x4_0000_01E2),
        ("81 blocks", 0x1, 0x5_0000_0001),
        ("bits outside the fields", 0xFFFF_FFFF_FFF0_0001, 0x5_0000_0001),
    ];
    for (name, value, word) in changes {
        c.write_changes(name, [8, 0x18, value], &[(ALLOC_CTL_WORD, word)]);
        c.read(name, 8, 0x18, word);
    }
}

fn halves(report: &mut Report) {
    let mut c = BandwidthCase::after_reset(report, TWO_TYPES);
    c.read("capabilities, low half", 4, 0, 0x6401);
    c.read("capabilities, high half", 4, 4, 0x50);
    c.write(4, 0x20, 0x001E_001E);
    c.read("the low half of bw_alloc is written alone", 8, 0x20, 0x0010_001E);
    c.write_changes("its high half has no field", [4, 0x24, 0xFFFF_FFFF], &[]);
    c.write_changes("the high half of alloc_ctl does nothing", [4, 0x1C, 1], &[]);
    c.write_changes("the high half of mon_ctl does nothing", [4, 0x0C, 0x10_0001], &[]);
    c.write(4, 0x18, 1);
    c.read("the low half of alloc_ctl performs", 8, 0x18, 0x1_0000_0001);
    c.read("STATUS in its high half", 4, 0x1C, 1);
    c.read("the fields in its low half", 4, 0x18, 1);
    c.word("CONFIG_LIMIT was performed", CONFIGURED, 0, 0x0010_001E);
    c.write(4, 0x08, 0x20_0001);
    c.word("CONFIG_EVENT was performed", EVENTS, 0, 2);
    c.write_changes("capabilities is read-only", [8, 0, u64::MAX], &[]);
    c.write_changes("mon_ctr_val is read-only", [8, 0x10, u64::MAX], &[]);
    c.write_changes("and so are their halves", [4, 0x14, 0xFFFF_FFFF], &[]);
}

/// The pool is what nobody reserved: what others reserved and did not use stays theirs.
fn pool_and_reservations(report: &mut Report) {
    let mut c = BandwidthCase::after_reset(report, TWO_TYPES);
    c.configure("RCID 0: 30, weight 1", (0, 0), 0x0010_001E, 1);
    c.configure("RCID 1: 20, weight 0", (1, 0), 20, 1);
    c.end_window();
    // 1,920 and 1,280 bytes reserved, 50 blocks or 3,200 bytes in the pool
    c.request("reservation and pool", [0, 0, 0, 0, 6_000], (1_920, 3_200));
    c.word("used of the reservation", USED, 0, 1_920);
    c.word("given by the pool", RECORD, POOL, 3_200);
    c.request("nothing is left", [0, 0, 1, 0, 1], (0, 0));
    c.request("RCID 1 has all its own", [1, 0, 0, 0, 2_000], (1_280, 0));
    c.request("an unset pair", [1, 0, 1, 0, 10], (0, 0));
    c.request("0 bytes", [1, 0, 0, 0, 0], (0, 0));
    c.word("used by RCID 1", USED, 2, 1_280);
}

/// The weight is that of the holder in force.
fn weights(report: &mut Report) {
    let mut c = BandwidthCase::after_reset(report, TWO_TYPES);
    c.configure("RCID 0: 30, weight 0", (0, 0), 30, 1);
    c.request("weight 1 is still in force", [0, 0, 0, 0, 5_200], (5_120, 80));
    c.end_window();
    c.request("weight 0 now, by its sharer too", [0, 0, 1, 0, 2_000], (1_920, 0));
    c.word("the pool gave nothing", RECORD, POOL, 0);
    c.configure("weight 255", (0, 0), 0x0FF0_001E, 1);
    c.request("not yet in force", [0, 0, 1, 0, 1], (0, 0));
    c.end_window();
    // 1,920 reserved and 70 blocks, 4,480 bytes, in the pool
    c.request("by the sharer, with the holder's weight", [0, 0, 1, 0, 2_000], (1_920, 80));
    c.word("80 from the pool", RECORD, POOL, 80);
    c.request("an AT that does not exist counts as 0", [0, 0, 2, 0, 5_000], (0, 4_400));
    c.word("the pool gave all", RECORD, POOL, 4_480);
}

fn window_ends(report: &mut Report) {
    let mut c = BandwidthCase::after_reset(report, TWO_TYPES);
    c.configure("RCID 0 to 10", (0, 0), 0x0010_000A, 1);
    c.request("the old setting is in force", [0, 0, 0, 0, 5_121], (5_120, 1));
    c.end_window();
    c.word("nothing used", USED, 0, 0);
    c.word("nothing given", RECORD, POOL, 0);
    c.word("the new setting is in force", ACTIVE, 0, 0x0010_000A);
    c.configure("RCID 0 to 20, in a later window", (0, 0), 0x0010_0014, 1);
    c.request("640 reserved, 5,760 in the pool", [0, 0, 0, 0, 7_000], (640, 5_760));
    c.word("640 used", USED, 0, 640);
    c.end_window();
    c.word("the later setting is in force too", ACTIVE, 0, 0x0010_0014);
    c.request("1,280 reserved", [0, 0, 0, 0, 1_280], (1_280, 0));
    c.word("nothing from the pool", RECORD, POOL, 0);
}

fn counter_wraps(report: &mut Report) {
    // 65,535 blocks of 65,536 bytes: 4,294,901,760, which is 255 times 2^24 and 16,711,680
    let mut c = BandwidthCase::after_reset(report, [65_535, 65_535, 1, 1, 1, 65_536, 24]);
    c.mon("event 1", 0x10_0001, 1);
    c.request("all of it", [0, 0, 0, 0, 0xFFFF_FFFF], (4_294_901_760, 0));
    c.word("wrapped 255 times", COUNTERS, 0, 0x8000_0000_00FF_0000);
    c.end_window();
    c.request("100 more", [0, 0, 0, 0, 100], (100, 0));
    c.word("OVF stays", COUNTERS, 0, 0x8000_0000_00FF_0064);
    c.store(COUNTERS, 0, 0xFF_FFFF);
    c.request("1 more", [0, 0, 0, 0, 1], (1, 0));
    c.word("exactly 2^24 sets OVF", COUNTERS, 0, 0x8000_0000_0000_0000);
    c.store(COUNTERS, 0, 0xFF_FFFE);
    c.request("1 more", [0, 0, 0, 0, 1], (1, 0));
    c.word("2^24 - 1 does not", COUNTERS, 0, 0xFF_FFFF);
    c.request("0 more", [0, 0, 0, 0, 0], (0, 0));
    c.word("nor does a grant of 0", COUNTERS, 0, 0xFF_FFFF);

    let mut c = BandwidthCase::after_reset(report, [65_535, 65_535, 1, 1, 1, 65_536, 62]);
    c.mon("event 1", 0x10_0001, 1);
    c.store(COUNTERS, 0, 0x3FFF_FFFF_FFFF_FFFF);
    c.request("2 more", [0, 0, 0, 0, 2], (2, 0));
    c.word("62 bits wrap", COUNTERS, 0, 0x8000_0000_0000_0001);
}

/// INVALID of a bandwidth counter is a field that no rule sets: it is kept until an event is set.
fn counter_flags(report: &mut Report) {
    let mut c = BandwidthCase::after_reset(report, TWO_TYPES);
    c.mon("event 1", 0x10_0001, 1);
    c.store(COUNTERS, 0, 0x4000_0000_0000_0005);
    c.request("3 bytes", [0, 0, 0, 0, 3], (3, 0));
    c.word("INVALID stays", COUNTERS, 0, 0x4000_0000_0000_0008);
    c.store(COUNTERS, 0, 0xC000_0000_0000_0007);
    c.mon("event 0", 0x00_0001, 1);
    c.word("event 0 keeps value and flags", COUNTERS, 0, 0xC000_0000_0000_0007);
    c.word("and stores setting 0", EVENTS, 0, 0);
    c.request("3 bytes", [0, 0, 0, 0, 3], (3, 0));
    c.word("a stopped counter stays", COUNTERS, 0, 0xC000_0000_0000_0007);
    c.mon("READ_COUNTER of a stopped counter", 0x2, 1);
    c.read("mon_ctr_val", 8, 0x10, 0xC000_0000_0000_0007);
    c.mon("event 2", 0x20_0001, 1);
    c.word("another event starts at 0", COUNTERS, 0, 0);
    c.read("mon_ctr_val is a copy", 8, 0x10, 0xC000_0000_0000_0007);
}

fn counter_settings(report: &mut Report) {
    let mut c = BandwidthCase::after_reset(report, TWO_TYPES);
    c.mon("ATV 0 with AT 1", 0x10_0021, 1);
    c.word("AT is stored as 0", EVENTS, 0, 0x0001);
    c.read("mon_ctl keeps AT", 8, 0x08, 0x1_0010_0021);
    c.mon("ATV 0 with AT 7", 0x30_00E1, 1);
    c.word("AT is not judged", EVENTS, 0, 0x0003);
    c.mon("event 2, ATV 1, AT 1", 0x1020_0021, 1);
    c.word("stored", EVENTS, 0, 0x0902);
    c.mon("event 1, ATV 1, AT 2 of 2", 0x1010_0041, 5);
    c.word("nothing stored", EVENTS, 0, 0x0902);
    c.mon("event 0, ATV 1, AT 2 of 2", 0x1000_0041, 5);
    c.word("nothing stored", EVENTS, 0, 0x0902);
    c.mon("event 0, ATV 1, AT 1", 0x1000_0021, 1);
    c.word("setting 0", EVENTS, 0, 0);
    c.mon("event 4 comes before AT", 0x1040_0041, 4);
    c.mon("event 127", 0x07F0_0001, 4);
    c.mon("event 128", 0x0800_0001, 4);
    c.mon("event 255", 0x0FF0_0001, 4);
    c.mon("MCID 4 of 4 comes before the event", 0x0FF0_0401, 3);
    c.mon("OP comes before MCID", 0x0FF0_0400, 2);
    c.mon("OP 3", 0x3, 2);
    c.mon("OP 31", 0x1F, 2);
    c.mon("READ_COUNTER judges neither event nor AT", 0x1C80_00E2, 1);
    c.read("mon_ctl", 8, 0x08, 0x1_1C80_00E2);
    c.mon("READ_COUNTER of MCID 4", 0x402, 3);
}

/// A counter goes by the request's own AT, not its holder's, and by read or write.
fn counter_filters(report: &mut Report) {
    let mut c = BandwidthCase::after_reset(report, TWO_TYPES);
    c.mon("MCID 0: event 1, AT 1", 0x1010_0021, 1);
    c.mon("MCID 1: event 1, AT 0", 0x1010_0101, 1);
    c.mon("MCID 2: reads", 0x20_0201, 1);
    c.mon("MCID 3: writes", 0x30_0301, 1);
    c.request("AT 1 shares AT 0", [0, 0, 1, 0, 10], (10, 0));
    c.request("AT 0", [0, 0, 0, 0, 100], (100, 0));
    c.request("AT 2 counts as 0", [0, 0, 2, 0, 1_000], (1_000, 0));
    c.word("only AT 1", COUNTERS, 0, 10);
    c.request("AT 1", [0, 1, 1, 0, 20], (20, 0));
    c.request("AT 2^64 - 1 counts as 0", [0, 1, u64::MAX, 0, 200], (200, 0));
    c.word("only AT 0", COUNTERS, 1, 200);
    c.request("a read", [0, 2, 0, 0, 30], (30, 0));
    c.request("a write", [0, 2, 0, 1, 40], (40, 0));
    c.word("only reads", COUNTERS, 2, 30);
    c.request("a read", [0, 3, 1, 0, 50], (50, 0));
    c.request("any other kind is a write", [0, 3, 1, 1 << 63, 60], (60, 0));
    c.request("kind 2 too", [0, 3, 1, 2, 70], (70, 0));
    c.word("only writes", COUNTERS, 3, 130);
}

/// AT of alloc_ctl and mon_ctl and ATV are held as 0; sharedAT and useShared are not.
fn one_access_type(report: &mut Report) {
    let mut c = BandwidthCase::after_reset(report, [100, 80, 4, 1, 4, 64, 24]);
    c.configure("a sharer", (0, 0), 0x8000_0000, 5);
    c.configure("AT 1 is held as 0", (0, 1), 0x9000_0000, 5);
    c.read("bw_alloc is as written", 8, 0x20, 0x9000_0000);
    c.configure("30 for AT 7, held as 0", (0, 7), 30, 1);
    c.read("alloc_ctl", 8, 0x18, 0x1_0000_0001);
    c.word("stored for AT 0", CONFIGURED, 0, 30);
    c.mon("event 1, ATV 1, AT 1", 0x1010_0021, 1);
    c.read("mon_ctl", 8, 0x08, 0x1_0010_0001);
    c.word("stored without AT and ATV", EVENTS, 0, 0x0001);
    c.request("AT 5 counts as 0", [0, 0, 5, 0, 12], (12, 0));
    c.word("and is counted", COUNTERS, 0, 12);
}
