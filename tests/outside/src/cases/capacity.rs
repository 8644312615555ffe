//! Capacity: the places where a first version goes wrong, with numbers by hand; a block has one unit.

use super::case::capacity_record::ALLOC_CTL_WORD;
use super::case::{fill, CapacityCase};
use super::Report;
use crate::model::capacity::slices::*;

const EIGHT_BLOCKS: [u64; 6] = [8, 4, 2, 4, 24, 1];

pub fn run(report: &mut Report) {
    after_reset(report);
    masks(report);
    mask_halves(report);
    failed_operations(report);
    occupancy(report);
    ends_of_a_counter(report);
    counter_settings(report);
    access_types(report);
    refused_fills(report);
}

fn after_reset(report: &mut Report) {
    let mut c = CapacityCase::after_reset(report, EIGHT_BLOCKS);
    c.read("capabilities, FRCID 1", 8, 0, 0x0100_0801);
    for offset in [8, 16, 24, 32] {
        c.read("other registers are 0", 8, offset, 0);
    }
    c.word("RCID 0 AT 0", MASKS, 0, 0xFF);
    c.word("RCID 0 AT 1", MASKS, 1, 0xFF);
    c.word("RCID 1 AT 0", MASKS, 2, 0);
    c.word("RCID 3 AT 1", MASKS, 7, 0);
    c.fill("RCID 0 has every block", [0, 0, 1, 7], 1);
    c.fill("RCID 1 has none", [1, 0, 0, 0], 0);

    let mut c = CapacityCase::after_reset(report, [64, 1, 1, 1, 62, 1]);
    c.read("capabilities of 64 blocks", 8, 0, 0x0100_4001);
    c.word("all 64", MASKS, 0, u64::MAX);
    c.fill("block 63", [0, 0, 0, 63], 1);
}

fn masks(report: &mut Report) {
    let mut c = CapacityCase::after_reset(report, EIGHT_BLOCKS);
    c.configure("blocks 0 and 2", (1, 0), 0b101, 1);
    c.fill("block 0 at once", [1, 0, 0, 0], 1);
    c.fill("block 1", [1, 0, 0, 1], 0);
    c.fill("block 2", [1, 0, 0, 2], 1);
    c.fill("the other AT", [1, 0, 1, 0], 0);
    c.configure("overlap is allowed", (2, 1), 0b111, 1);
    c.configure("bits from block 8 up are dropped", (1, 0), 0xFFFF_FFFF_FFFF_FF10, 1);
    c.read_limit("block 4 alone", (1, 0), 0x10);
    c.fill("block 0 no more", [1, 0, 0, 0], 0);
    c.configure("mask 0", (1, 0), 0, 5);
    c.configure("no bit below 8", (1, 0), 0xFFFF_FFFF_FFFF_FF00, 5);
    c.read("held as 0", 8, 0x20, 0);
    c.read_limit("unchanged", (1, 0), 0x10);
    c.read_limit("a pair never set reads 0 with STATUS 1", (3, 1), 0);
}

fn mask_halves(report: &mut Report) {
    let mut c = CapacityCase::after_reset(report, [64, 2, 1, 1, 24, 1]);
    c.write(4, 0x24, 0xAABB_CCDD);
    c.read("the high half alone", 8, 0x20, 0xAABB_CCDD_0000_0000);
    c.write(4, 0x20, 0x1122_3344);
    c.read("the low half keeps the high one", 8, 0x20, 0xAABB_CCDD_1122_3344);
    c.read("read by halves", 4, 0x24, 0xAABB_CCDD);
    c.alloc("configured", 0x101, 1);
    c.word("whole", MASKS, 1, 0xAABB_CCDD_1122_3344);

    let mut c = CapacityCase::after_reset(report, [40, 2, 1, 1, 24, 1]);
    c.write(4, 0x20, 0xFFFF_FFFF);
    c.write(4, 0x24, 0xFFFF_FF02);
    c.read("40 blocks", 8, 0x20, 0x2_FFFF_FFFF);

    let mut c = CapacityCase::after_reset(report, [32, 2, 1, 1, 24, 1]);
    c.write(4, 0x24, 0xFFFF_FFFF);
    c.read("32 blocks", 8, 0x20, 0);
}

fn failed_operations(report: &mut Report) {
    let mut c = CapacityCase::after_reset(report, EIGHT_BLOCKS);
    let changes = [
        ("OP 0", 0x0, 0x2_0000_0000),
        ("OP 4", 0x104, 0x2_0000_0104),
        ("FLUSH_RCID of RCID 4 with a bad AT", 0x463, 0x3_0000_0463),
        ("OP 31 with bad RCID and AT", 0xF_FFFF, 0x2_000F_FFFF),
        ("RCID 4 with a bad AT", 0x461, 0x3_0000_0461),
        ("AT 2 of 2", 0x141, 0x4_0000_0141),
        ("READ_LIMIT of AT 7", 0x1E2, 0x4_0000_01E2),
        ("mask 0", 0x1, 0x5_0000_0001),
        ("bits outside the fields", 0xFFFF_FFFF_FFF0_0001, 0x5_0000_0001),
    ];
    for (name, value, word) in changes {
        c.write_changes(name, [8, 0x18, value], &[(ALLOC_CTL_WORD, word)]);
    }
    c.write_changes("the high half of alloc_ctl", [4, 0x1C, 1], &[]);
    c.write_changes("the high half of mon_ctl", [4, 0x0C, 0x10_0001], &[]);
    c.write_changes("capabilities", [8, 0, u64::MAX], &[]);
    c.write_changes("mon_ctr_val", [8, 0x10, u64::MAX], &[]);
}

fn occupancy(report: &mut Report) {
    let mut c = CapacityCase::after_reset(report, EIGHT_BLOCKS);
    c.fill("a stopped counter", [0, 1, 0, 7], 1);
    c.word("counts nothing", COUNTERS, 1, 0);
    c.mon("event 1 of MCID 1", 0x10_0101, 1);
    c.fill("allowed", [0, 1, 0, 0], 1);
    c.fill("another unit, AT 1", [0, 1, 1, 1], 1);
    c.fill("another MCID", [0, 2, 0, 2], 1);
    c.fill("not allowed", [1, 1, 0, 3], 0);
    c.word("two fills", COUNTERS, 1, 2);
    c.configure("RCID 0 has block 7 alone", (0, 1), 0x80, 1);
    c.evict(1);
    c.word("an eviction needs no mask", COUNTERS, 1, 1);
    c.mon("READ_COUNTER", 0x102, 1);
    c.read("mon_ctr_val", 8, 0x10, 1);
    c.mon("event 0", 0x101, 1);
    c.evict(0);
    c.word("stopped", COUNTERS, 1, 1);
    c.mon("event 1 again", 0x10_0101, 1);
    c.word("from 0", COUNTERS, 1, 0);
}

/// Unit 0 is filled while the counter is stopped, so its eviction counts below 0.
fn ends_of_a_counter(report: &mut Report) {
    let mut c = CapacityCase::after_reset(report, EIGHT_BLOCKS);
    c.fill("before the event is set", [0, 0, 0, 0], 1);
    c.mon("event 1", 0x10_0001, 1);
    c.evict(0);
    c.word("at 0 it stays and becomes INVALID", COUNTERS, 0, 0x8000_0000_0000_0000);
    c.fill("counting goes on", [0, 0, 0, 0], 1);
    c.word("with INVALID", COUNTERS, 0, 0x8000_0000_0000_0001);
    c.mon("event 0", 0x000_0001, 1);
    c.word("event 0 keeps INVALID", COUNTERS, 0, 0x8000_0000_0000_0001);
    c.mon("event 1", 0x10_0001, 1);
    c.word("event 1 clears it", COUNTERS, 0, 0);
    c.store(COUNTERS, 0, 0xFF_FFFE);
    c.fill("to 2^24 - 1", [0, 0, 0, 1], 1);
    c.word("2^24 - 1", COUNTERS, 0, 0xFF_FFFF);
    c.fill("not allowed", [1, 0, 0, 2], 0);
    c.word("a fill that is not allowed changes nothing", COUNTERS, 0, 0xFF_FFFF);
    c.fill("beyond", [0, 0, 0, 2], 1);
    c.word("it stays and becomes INVALID", COUNTERS, 0, 0x8000_0000_00FF_FFFF);
    c.evict(2);
    c.word("INVALID lasts", COUNTERS, 0, 0x8000_0000_00FF_FFFE);
    c.mon("READ_COUNTER", 0x2, 1);
    c.read("mon_ctr_val", 8, 0x10, 0x8000_0000_00FF_FFFE);

    let mut c = CapacityCase::after_reset(report, [8, 1, 1, 1, 62, 1]);
    c.mon("event 1", 0x10_0001, 1);
    c.store(COUNTERS, 0, 0x3FFF_FFFF_FFFF_FFFF);
    c.fill("at 2^62 - 1", [0, 0, 0, 0], 1);
    c.word("it stays and becomes INVALID", COUNTERS, 0, 0xBFFF_FFFF_FFFF_FFFF);
}

fn counter_settings(report: &mut Report) {
    let mut c = CapacityCase::after_reset(report, EIGHT_BLOCKS);
    c.mon("ATV 0 with AT 7", 0x10_00E1, 1);
    c.word("AT is stored as 0", EVENTS, 0, 0x0001);
    c.mon("ATV 1 with AT 1", 0x1010_0021, 1);
    c.word("stored", EVENTS, 0, 0x0901);
    c.mon("event 2 is unknown here", 0x20_0001, 4);
    c.mon("event 128", 0x0800_0001, 4);
    c.mon("event 255", 0x0FF0_0001, 4);
    c.mon("AT 2 of 2", 0x1010_0041, 5);
    c.mon("event 0, AT 2 of 2", 0x1000_0041, 5);
    c.mon("MCID 4 of 4", 0x10_0401, 3);
    c.mon("OP 0", 0x10_0400, 2);
    c.mon("READ_COUNTER judges neither event nor AT", 0x1FF0_00E2, 1);
    c.word("nothing stored", EVENTS, 0, 0x0901);
    c.mon("event 0, AT 1", 0x1000_0021, 1);
    c.word("setting 0", EVENTS, 0, 0);
}

fn access_types(report: &mut Report) {
    let mut c = CapacityCase::after_reset(report, EIGHT_BLOCKS);
    c.configure("RCID 0 AT 1: block 1", (0, 1), 0b10, 1);
    c.mon("MCID 0 counts AT 0", 0x1010_0001, 1);
    c.mon("MCID 1 counts AT 1", 0x1010_0121, 1);
    c.fill("AT 2 of 2 goes by the mask of AT 0", [0, 0, 2, 0], 1);
    c.word("and is stored as AT 0", OWNERS, 0, 0x0008_0000);
    c.fill("so does 2^64 - 1", [0, 0, u64::MAX, 2], 1);
    c.fill("AT 1 has its own mask", [0, 0, 1, 0], 0);
    c.fill("and is not counted by MCID 0", [0, 0, 1, 1], 1);
    c.word("AT 0 twice", COUNTERS, 0, 2);
    c.fill("AT 1", [0, 1, 1, 1], 1);
    c.fill("AT 9 counts as AT 0", [0, 1, 9, 3], 1);
    c.word("AT 1 once", COUNTERS, 1, 1);
    c.evict(3);
    c.word("and so does its eviction", COUNTERS, 1, 1);
    c.evict(1);
    c.word("AT 1 is counted", COUNTERS, 1, 0);

    let mut c = CapacityCase::after_reset(report, [8, 2, 1, 1, 24, 1]);
    c.configure("AT 7 of alloc_ctl is held as 0", (1, 7), 1, 1);
    c.read("alloc_ctl", 8, 0x18, 0x1_0000_0101);
    c.mon("ATV and AT are held as 0", 0x1010_00E1, 1);
    c.read("mon_ctl", 8, 0x08, 0x1_0010_0001);
    c.word("the setting too", EVENTS, 0, 0x0001);
}

/// An eviction has no check 7.
fn refused_fills(report: &mut Report) {
    let mut c = CapacityCase::after_reset(report, EIGHT_BLOCKS);
    let fills = [
        ("RCID 4 of 4", [4, 0, 0, 0], 7),
        ("MCID 4 of 4", [0, 4, 0, 0], 7),
        ("7 comes before 8", [4, 0, 0, 8], 7),
        ("MCID 2^64 - 1", [0, u64::MAX, 0, 8], 7),
        ("unit 8 of 8", [0, 0, 0, 8], 8),
        ("unit 64", [0, 0, 0, 64], 8),
        ("unit 2^64 - 1", [1, 0, 0, u64::MAX], 8),
    ];
    for (name, arguments, number) in fills {
        c.refuses(name, &fill(arguments), number);
    }
}
