//! FLUSH_RCID of the capacity controller, with numbers by hand.

use super::case::capacity_record::ALLOC_CTL_WORD;
use super::case::{fill, CapacityCase};
use super::units::{evict, filled, SETUP};
use super::Report;
use crate::model::capacity::slices::*;
use crate::model::capacity::Call;

pub fn run(report: &mut Report) {
    every_unit_of_the_rcid(report);
    status(report);
    all_else_stays(report);
    counts(report);
    one_access_type(report);
    many_units(report);
}

pub fn write_alloc(value: u64) -> Call {
    Call::Write { size: 8, offset: 0x18, value }
}

/// Every unit of the RCID and no other, whatever AT is written.
fn every_unit_of_the_rcid(report: &mut Report) {
    let mut c = filled(report);
    let of_rcid_1 = [
        (OWNERS, 8, 0),
        (OWNERS, 12, 0),
        (OWNERS, 20, 0),
        (COUNTERS, 1, 1),
        (COUNTERS, 2, 1),
        (COUNTERS, 3, 0),
    ];
    for at in 0..8 {
        let (value, word) = (0x103 | at << 5, 0x1_0000_0103 | at << 5);
        let changes = [&of_rcid_1[..], &[(RECORD, ALLOC_CTL_WORD, word)]].concat();
        c.aside(|c| c.changes("RCID 1", &write_alloc(value), &changes));
    }
    let word = (RECORD, ALLOC_CTL_WORD, 0x1_0000_0003);
    c.aside(|c| {
        let changes = [(OWNERS, 0, 0), (COUNTERS, 2, 1), word];
        c.changes("RCID 0", &write_alloc(0x3), &changes);
        c.changes("once more", &write_alloc(0x3), &[]);
    });
    let word = (RECORD, ALLOC_CTL_WORD, 0x1_0000_0303);
    c.changes("RCID 3 owns nothing", &write_alloc(0x303), &[word]);
    c.flush("RCID 1", 1);
    c.changes("its unit is free", &evict(8), &[]);
    c.fill("RCID 1 fills again", [1, 1, 0, 8], 1);
    c.word("and owns it", OWNERS, 8, 0x0008_0101);
    c.word("two of MCID 1", COUNTERS, 1, 2);
}

/// 3 for an RCID at or above NR; never 4, nor 5.
fn status(report: &mut Report) {
    let mut c = filled(report);
    c.write(8, 0x20, 0);
    for rcid in [4, 5, 255, 256, 257, 4_095] {
        for at in [0, 1, 2, 7] {
            let value = rcid << 8 | at << 5 | 3;
            let word = (RECORD, ALLOC_CTL_WORD, 0x3_0000_0000 | value);
            c.changes("no such RCID", &write_alloc(value), &[word]);
        }
    }
    c.alloc("AT 7 of 2 and block_mask 0", 0x1E3, 1);
    c.read("the fields as written", 8, 0x18, 0x1_0000_01E3);
    c.write_changes("the high half alone", [4, 0x1C, 0x3], &[]);
    c.write(4, 0x18, 0x203);
    c.word("the low half alone", OWNERS, 13, 0);
}

/// Masks, block_mask, mon_ctl and mon_ctr_val stay, and fills go by the masks as before.
fn all_else_stays(report: &mut Report) {
    let mut c = filled(report);
    c.mon("READ_COUNTER", 0x102, 1);
    c.write(8, 0x20, 0xA5);
    c.flush("RCID 1", 1);
    c.read("block_mask", 8, 0x20, 0xA5);
    c.read("mon_ctl", 8, 0x08, 0x1_0000_0102);
    c.read("mon_ctr_val", 8, 0x10, 2);
    for (pair, mask) in [((1, 0), 0x0C), ((1, 1), 0x20), ((2, 0), 0x08), ((0, 0), 0xFF)] {
        c.read_limit("masks", pair, mask);
    }
    c.fill("as before", [1, 1, 0, 8], 1);
    c.fill("as before", [1, 1, 0, 16], 0);
}

/// Each unit is counted for its owner; at 0 a counter becomes INVALID.
fn counts(report: &mut Report) {
    let mut c = CapacityCase::after_reset(report, SETUP);
    c.mon("MCID 0 counts AT 1", 0x1010_0021, 1);
    c.mon("MCID 1 counts every unit", 0x10_0101, 1);
    for unit in 0..12 {
        c.fill("MCIDs 0 to 2, AT 0 and 1", [0, unit % 3, unit % 2, unit], 1);
    }
    c.word("MCID 0: units 3 and 9", COUNTERS, 0, 2);
    c.word("MCID 1: units 1, 4, 7 and 10", COUNTERS, 1, 4);
    c.mon("MCID 2 is set late", 0x10_0201, 1);
    c.store(COUNTERS, 1, 3);
    c.flush("all", 0);
    c.word("MCID 0", COUNTERS, 0, 0);
    c.word("MCID 1 was one short", COUNTERS, 1, 0x8000_0000_0000_0000);
    c.word("MCID 2 had counted none", COUNTERS, 2, 0x8000_0000_0000_0000);
    for unit in 0..12 {
        c.word("free", OWNERS, unit, 0);
    }
}

/// With NA 1 the AT field is held as 0.
fn one_access_type(report: &mut Report) {
    let mut c = CapacityCase::after_reset(report, [2, 2, 1, 1, 24, 1]);
    c.fill("AT 5", [0, 0, 5, 1], 1);
    c.word("stored as 0", OWNERS, 1, 0x0008_0000);
    let changes = [(OWNERS, 1, 0), (RECORD, ALLOC_CTL_WORD, 0x1_0000_0003)];
    c.changes("AT 7 is held as 0", &write_alloc(0xE3), &changes);
}

/// 4,096 units, every other one of each of two RCIDs.
fn many_units(report: &mut Report) {
    let mut c = CapacityCase::after_reset(report, [64, 2, 1, 2, 24, 64]);
    c.configure("RCID 1 has every block", (1, 0), u64::MAX, 1);
    c.mon("MCID 0", 0x10_0001, 1);
    c.mon("MCID 1", 0x10_0101, 1);
    for unit in 0..4_096 {
        c.refusal("a fill", &fill([unit % 2, unit % 2, 0, unit]), 0);
    }
    c.word("half", COUNTERS, 0, 2_048);
    c.word("the other half", COUNTERS, 1, 2_048);
    c.flush("RCID 1", 1);
    c.word("stays", COUNTERS, 0, 2_048);
    c.word("none left", COUNTERS, 1, 0);
    for unit in [0, 1, 2, 63, 64, 65, 4_093, 4_094, 4_095] {
        let word = if unit % 2 == 0 { 0x0008_0000 } else { 0 };
        c.word("every other one", OWNERS, unit, word);
    }
    c.flush("RCID 0", 0);
    c.word("none left", COUNTERS, 0, 0);
}
