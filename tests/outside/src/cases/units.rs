//! Units of the capacity controller, with numbers by hand: filled, refilled, evicted, and counted.

use super::case::{capacity_setup, fill, CapacityCase};
use super::flush::write_alloc;
use super::Report;
use crate::model::capacity::slices::*;
use crate::model::capacity::Call;

/// 8 blocks of 4 units, 4 RCIDs, 2 access types, 4 MCIDs.
pub const SETUP: [u64; 6] = [8, 4, 2, 4, 24, 4];

pub fn run(report: &mut Report) {
    owners(report);
    largest_fields(report);
    blocks_of_units(report);
    not_allowed(report);
    refills(report);
    evictions(report);
    missing_units(report);
    occupancy_is_the_units_owned(report);
    counters_set_late(report);
    resets(report);
}

pub fn evict(unit: u64) -> Call {
    Call::Evict { unit }
}

/// RCID 1 has blocks 2 and 3 for AT 0 and block 5 for AT 1, RCID 2 has block 3 for both; MCIDs 1 and 2
/// count every unit, MCID 3 those of AT 1.
fn in_use(report: &mut Report) -> CapacityCase<'_> {
    let mut c = CapacityCase::after_reset(report, SETUP);
    c.configure("RCID 1", (1, 0), 0b0000_1100, 1);
    c.configure("RCID 1 AT 1", (1, 1), 0b0010_0000, 1);
    c.configure("RCID 2", (2, 0), 0b0000_1000, 1);
    c.configure("RCID 2 AT 1", (2, 1), 0b0000_1000, 1);
    c.mon("MCID 1", 0x10_0101, 1);
    c.mon("MCID 2", 0x10_0201, 1);
    c.mon("MCID 3, AT 1", 0x1010_0321, 1);
    c
}

/// RCID 1 owns units 8 (MCID 1), 12 (MCID 2) and 20 (MCID 3, AT 1), RCID 2 unit 13 (MCID 1), RCID 0
/// unit 0 (MCID 2).
pub fn filled(report: &mut Report) -> CapacityCase<'_> {
    let mut c = in_use(report);
    let fills = [[1, 1, 0, 8], [1, 2, 0, 12], [1, 3, 1, 20], [2, 1, 0, 13], [0, 2, 0, 0]];
    for arguments in fills {
        c.fill("filled", arguments, 1);
    }
    c
}

/// A fill changes its unit's word and its counter, and nothing else.
fn owners(report: &mut Report) {
    let mut c = in_use(report);
    let fills = [
        ("no counter", [0, 0, 0, 0], 0x0008_0000, None),
        ("MCID 1", [1, 1, 0, 8], 0x0008_0101, Some((1, 1))),
        ("AT 1, not counted", [0, 0, 1, 31], 0x0009_0000, None),
        ("AT 1, counted", [1, 3, 1, 20], 0x0009_0301, Some((3, 1))),
        ("AT 0 is not", [1, 3, 0, 15], 0x0008_0301, None),
        ("AT 2 of 2 is stored as 0", [1, 2, 2, 12], 0x0008_0201, Some((2, 1))),
        ("so is 2^64 - 1", [2, 2, u64::MAX, 13], 0x0008_0202, Some((2, 1))),
    ];
    for (name, arguments, word, counter) in fills {
        c.aside(|c| {
            let mut changes = vec![(OWNERS, arguments[3] as usize, word)];
            changes.extend(counter.map(|(mcid, value)| (COUNTERS, mcid, value)));
            c.aside(|c| c.fill(name, arguments, 1));
            c.changes(name, &fill(arguments), &changes);
        });
    }
}

fn largest_fields(report: &mut Report) {
    let mut c = CapacityCase::after_reset(report, [64, 256, 8, 256, 62, 64]);
    c.configure("RCID 255 AT 7", (255, 7), 1 << 63, 1);
    c.fill("every field", [255, 255, 7, 4_095], 1);
    c.word("every field", OWNERS, 4_095, 0x000F_FFFF);
    c.fill("block 62", [255, 255, 7, 4_031], 0);
    c.fill("block 63", [255, 255, 7, 4_032], 1);
    c.flush("RCID 255", 255);
    c.word("free", OWNERS, 4_095, 0);
    c.refuses("unit 4,096", &fill([0, 0, 0, 4_096]), 8);
    c.refuses("RCID 256", &fill([256, 0, 0, 0]), 7);
}

/// The block of a unit is its number divided by U, rounded down.
fn blocks_of_units(report: &mut Report) {
    let mut c = in_use(report);
    for unit in 0..32 {
        let block = [2, 3].contains(&(unit / 4)) as u64;
        c.fill("RCID 1 AT 0: units 8 to 15", [1, 0, 0, unit], block);
        let block = (20..24).contains(&unit) as u64;
        c.fill("RCID 1 AT 1: units 20 to 23", [1, 0, 1, unit], block);
        c.fill("RCID 0 has every block", [0, 0, 1, unit], 1);
        c.fill("RCID 3 has none", [3, 0, 0, unit], 0);
    }
    let mut c = CapacityCase::after_reset(report, [3, 2, 1, 1, 24, 64]);
    c.configure("block 1 of 64 units", (1, 0), 0b010, 1);
    for (unit, allowed) in [(63, 0), (64, 1), (127, 1), (128, 0), (191, 0)] {
        c.fill("units 64 to 127", [1, 0, 0, unit], allowed);
    }
}

/// It changes nothing, whoever owns the unit.
fn not_allowed(report: &mut Report) {
    let mut c = in_use(report);
    c.changes("a free unit", &fill([3, 1, 0, 8]), &[]);
    c.fill("RCID 1", [1, 1, 0, 8], 1);
    c.changes("a unit of the same MCID", &fill([2, 1, 0, 8]), &[]);
    c.changes("a unit of another MCID", &fill([2, 2, 0, 8]), &[]);
    c.configure("RCID 1 loses block 2", (1, 0), 0b0000_1000, 1);
    c.changes("its own unit", &fill([1, 1, 0, 8]), &[]);
    c.word("the unit stays its own", OWNERS, 8, 0x0008_0101);
}

/// The old owner is counted down by its own AT, then the new one up.
fn refills(report: &mut Report) {
    let mut c = in_use(report);
    c.fill("RCID 1, MCID 1", [1, 1, 0, 12], 1);
    let changes = [(OWNERS, 12, 0x0009_0202), (COUNTERS, 1, 0), (COUNTERS, 2, 1)];
    c.changes("another MCID", &fill([2, 2, 1, 12]), &changes);
    c.changes("the same owner", &fill([2, 2, 1, 12]), &[]);
    c.changes("the same MCID, another RCID", &fill([0, 2, 1, 12]), &[(OWNERS, 12, 0x0009_0200)]);
    let changes = [(OWNERS, 12, 0x0009_0300), (COUNTERS, 2, 0), (COUNTERS, 3, 1)];
    c.changes("MCID 3 counts AT 1", &fill([0, 3, 1, 12]), &changes);
    let changes = [(OWNERS, 12, 0x0008_0300), (COUNTERS, 3, 0)];
    c.changes("the same MCID, AT 0 is not counted", &fill([0, 3, 0, 12]), &changes);
    let changes = [(OWNERS, 12, 0x0009_0300), (COUNTERS, 3, 1)];
    c.changes("AT 1 again", &fill([0, 3, 1, 12]), &changes);
    let changes = [(OWNERS, 12, 0x0008_0000), (COUNTERS, 3, 0)];
    c.changes("a stopped counter", &fill([0, 0, 0, 12]), &changes);

    c.fill("at 2^24 - 1", [0, 1, 0, 0], 1);
    c.store(COUNTERS, 1, 0xFF_FFFF);
    c.changes("the same MCID: down, then up", &fill([0, 1, 1, 0]), &[(OWNERS, 0, 0x0009_0100)]);
    c.store(COUNTERS, 1, 0);
    let changes = [(OWNERS, 0, 0x0008_0100), (COUNTERS, 1, 0x8000_0000_0000_0001)];
    c.changes("at 0: INVALID, then up", &fill([0, 1, 0, 0]), &changes);
}

/// An eviction counts for the owner, by its MCID and AT.
fn evictions(report: &mut Report) {
    let mut c = in_use(report);
    c.changes("a free unit", &evict(8), &[]);
    c.fill("MCID 1", [1, 1, 0, 8], 1);
    c.fill("MCID 3, AT 1", [1, 3, 1, 20], 1);
    c.fill("MCID 3, AT 0", [1, 3, 0, 9], 1);
    c.fill("no counter", [0, 0, 0, 31], 1);
    c.changes("MCID 1", &evict(8), &[(OWNERS, 8, 0), (COUNTERS, 1, 0)]);
    c.changes("once more", &evict(8), &[]);
    c.changes("AT 0 is not counted", &evict(9), &[(OWNERS, 9, 0)]);
    c.changes("AT 1", &evict(20), &[(OWNERS, 20, 0), (COUNTERS, 3, 0)]);
    c.changes("no counter", &evict(31), &[(OWNERS, 31, 0)]);
    c.fill("stopped after its fill", [1, 1, 0, 8], 1);
    c.mon("event 0", 0x101, 1);
    c.changes("the counter stays", &evict(8), &[(OWNERS, 8, 0)]);
}

/// Refusal 8 speaks of units at or above 32, and an eviction has no check 7.
fn missing_units(report: &mut Report) {
    let mut c = in_use(report);
    c.changes("unit 31", &evict(31), &[]);
    for unit in [32, 33, 4_096, 1 << 32, 1 << 63, u64::MAX - 3, u64::MAX] {
        c.refuses("an eviction", &evict(unit), 8);
        c.refuses("a fill", &fill([0, 0, 0, unit]), 8);
        c.refuses("a fill that is not allowed", &fill([3, 0, 0, unit]), 8);
        c.refuses("7 comes before 8", &fill([4, 0, 0, unit]), 7);
    }
    c.store(OWNERS, 31, 1);
    c.refuses("3 comes before 8", &evict(32), 3);
    c.refuses("3 comes before 7", &fill([4, 0, 0, 0]), 3);
    c.lend_length(OWNERS, 4 * 31);
    c.refuses("2 comes before 3", &evict(32), 2);
}

/// MCID 1 owned no unit when its counter was set: through fills, refills, evictions and flushes its
/// count is the units that it owns.
fn occupancy_is_the_units_owned(report: &mut Report) {
    let mut c = in_use(report);
    let mut count = |name: &str, calls: &[Call], units: u64| {
        calls.iter().for_each(|call| c.refusal(name, call, 0));
        c.word(name, COUNTERS, 1, units);
    };
    count("none", &[], 0);
    count("two", &[fill([1, 1, 0, 8]), fill([0, 1, 1, 0])], 2);
    count("refilled by itself", &[fill([0, 1, 0, 8]), fill([0, 1, 1, 0])], 2);
    count("not allowed", &[fill([3, 1, 0, 4]), fill([3, 2, 0, 0])], 2);
    count("refilled by MCID 2", &[fill([0, 2, 0, 0])], 1);
    count("taken from MCID 2", &[fill([2, 1, 1, 12]), fill([0, 1, 0, 0])], 3);
    count("evicted", &[evict(8), evict(8), evict(9)], 2);
    count("RCID 2 flushed", &[write_alloc(0x203)], 1);
    count("RCID 3 flushed", &[write_alloc(0x303), write_alloc(0x403)], 1);
    count("RCID 0 flushed", &[write_alloc(0x3)], 0);
    count("and filled again", &[fill([0, 1, 0, 0]), fill([0, 1, 0, 1])], 2);
    c.mon("READ_COUNTER", 0x102, 1);
    c.read("valid", 8, 0x10, 2);
}

/// A counter that is set while its MCID owns units counts from 0.
fn counters_set_late(report: &mut Report) {
    let mut c = filled(report);
    c.mon("MCID 1 again", 0x10_0101, 1);
    c.word("from 0, with two units owned", COUNTERS, 1, 0);
    c.fill("a third", [0, 1, 0, 1], 1);
    c.evict(8);
    c.word("one up, one down", COUNTERS, 1, 0);
    c.flush("RCID 2", 2);
    c.word("INVALID", COUNTERS, 1, 0x8000_0000_0000_0000);
    c.evict(1);
    c.mon("MCID 1 owns none", 0x10_0101, 1);
    c.fill("one", [0, 1, 0, 1], 1);
    c.word("valid", COUNTERS, 1, 1);
}

/// A reset frees every unit; a refused one frees none.
fn resets(report: &mut Report) {
    let mut c = filled(report);
    let reset = |numbers| Call::Reset(capacity_setup(numbers));
    c.refuses("U 0", &reset([8, 4, 2, 4, 24, 0]), 1);
    c.refuses("U 65", &reset([8, 4, 2, 4, 24, 65]), 1);
    c.refuses("U 2^64 - 1", &reset([8, 4, 2, 4, 24, u64::MAX]), 1);
    c.refuses("U 2^61 + 4, 32 units modulo 2^64", &reset([8, 4, 2, 4, 24, (1 << 61) + 4]), 1);
    c.refuses("U 5", &reset([8, 4, 2, 4, 24, 5]), 2);
    c.word("as it was", OWNERS, 8, 0x0008_0101);
    c.answers("a reset", &reset(SETUP), 0);
    for unit in 0..32 {
        c.word("free", OWNERS, unit, 0);
    }
    c.changes("nothing to count", &evict(8), &[]);
}
