//! Refusals 1, 2 and 4 to 7, and the order in which they are judged.

use super::case::bandwidth_record::W;
use super::case::{bandwidth_setup, capacity_setup, fill, BandwidthCase, CapacityCase};
use super::Report;
use crate::model::bandwidth::slices::*;
use crate::model::{bandwidth, capacity};

const SETUP: [u64; 7] = [100, 80, 4, 2, 4, 64, 24];
const CAPACITY: [u64; 6] = [8, 4, 2, 4, 24, 3];

pub fn run(report: &mut Report) {
    bandwidth_ranges(report);
    capacity_ranges(report);
    bandwidth_lengths(report);
    capacity_lengths(report);
    sizes_and_offsets(report);
    order(report);
    requests(report);
}

/// The lowest and highest of each number are accepted, one beyond is not.
fn bandwidth_ranges(report: &mut Report) {
    let lowest = [1, 1, 1, 1, 1, 1, 24];
    let highest = [65_535, 65_535, 256, 8, 256, 65_536, 62];
    for numbers in [lowest, highest] {
        BandwidthCase::after_reset(report, numbers);
    }
    let mut c = BandwidthCase::after_reset(report, SETUP);
    for (index, (low, high)) in lowest.into_iter().zip(highest).enumerate() {
        // NBWBLKS stays 100 while MRBWB is tried, so MRBWB ends there
        let high = if index == 1 { 100 } else { high };
        for beyond in [low - 1, high + 1, 1 << 32, u64::MAX] {
            let mut numbers = SETUP;
            numbers[index] = beyond;
            let reset = bandwidth::Call::Reset(bandwidth_setup(numbers));
            c.refuses("a number out of range", &reset, 1);
            c.aside(|c| {
                c.store(0, index, beyond);
                c.refuses("the same in the record", &bandwidth::Call::EndWindow, 1);
            });
        }
    }
    c.refuses("NBWBLKS below MRBWB", &reset_of([79, 80, 4, 2, 4, 64, 24]), 1);
}

fn reset_of(numbers: [u64; 7]) -> bandwidth::Call {
    bandwidth::Call::Reset(bandwidth_setup(numbers))
}

fn capacity_ranges(report: &mut Report) {
    let lowest = [1, 1, 1, 1, 24, 1];
    let highest = [64, 256, 8, 256, 62, 64];
    for numbers in [lowest, highest] {
        CapacityCase::after_reset(report, numbers);
    }
    let mut c = CapacityCase::after_reset(report, CAPACITY);
    for (index, (low, high)) in lowest.into_iter().zip(highest).enumerate() {
        for beyond in [low - 1, high + 1, 1 << 32, u64::MAX] {
            let mut numbers = CAPACITY;
            numbers[index] = beyond;
            let reset = capacity::Call::Reset(capacity_setup(numbers));
            c.refuses("a number out of range", &reset, 1);
            c.aside(|c| {
                c.store(0, index, beyond);
                c.refuses(
                    "the same in the record",
                    &capacity::Call::Read { size: 8, offset: 0 },
                    1,
                );
            });
        }
    }
}

/// A record of another length gives 1, a table of another length 2; a reset judges both.
fn bandwidth_lengths(report: &mut Report) {
    let mut c = BandwidthCase::after_reset(report, SETUP);
    for (region, right) in c.lengths().into_iter().enumerate() {
        let number = if region == 0 { 1 } else { 2 };
        for length in [0, 1, right - 1, right + 1, right - 2, right + 8, 2 * right] {
            c.aside(|c| {
                c.lend_length(region, length);
                c.refuses("a read", &bandwidth::Call::Read { size: 8, offset: 0 }, number);
                c.refuses("a window end", &bandwidth::Call::EndWindow, number);
                c.refuses("a reset", &reset_of(SETUP), number);
            });
        }
    }
    // a reset's lengths go by the set-up that it is given
    c.refuses("one RCID more", &reset_of([100, 80, 5, 2, 4, 64, 24]), 2);
    c.refuses("one MCID less", &reset_of([100, 80, 4, 2, 3, 64, 24]), 2);
    let same_product = reset_of([100, 80, 2, 4, 4, 64, 24]);
    c.refuses("the same product of NR and NA, a word for each of 4 RCIDs", &same_product, 2);
    c.lend_length(WAITERS, 16);
    c.answers("a word for each of 2", &same_product, 0);
    c.word("RCID 0 AT 3 shares", 1, 3, 0x8000_0000);
}

/// Faults are added one before another in the order of checking, on a controller of `SETUP`.
pub fn one_to_three_first(c: &mut BandwidthCase, call: &bandwidth::Call) {
    c.aside(|c| {
        c.store(ACTIVE, 7, 0x0010_0000);
        c.refuses("3 before the call's own", call, 3);
        c.lend_length(EVENTS, 9);
        c.refuses("2 before 3", call, 2);
        c.store(RECORD, W, 63);
        c.refuses("1 before 2", call, 1);
        c.store(RECORD, W, 24);
        c.lend_length(RECORD, 95);
        c.refuses("1 for the record's length", call, 1);
    });
}

/// Each slice with another length, for calls that would be accepted.
pub fn lengths_first(c: &mut BandwidthCase, calls: &[bandwidth::Call]) {
    for (region, right) in c.lengths().into_iter().enumerate() {
        let number = if region == RECORD { 1 } else { 2 };
        for length in [0, right - 1, right + 1, right + 8] {
            c.aside(|c| {
                c.lend_length(region, length);
                calls.iter().for_each(|call| c.refuses("a length", call, number));
            });
        }
    }
}

fn capacity_lengths(report: &mut Report) {
    let mut c = CapacityCase::after_reset(report, CAPACITY);
    for (region, right) in c.lengths().into_iter().enumerate() {
        let number = if region == 0 { 1 } else { 2 };
        for length in [0, right - 1, right + 1, right + 8] {
            c.aside(|c| {
                c.lend_length(region, length);
                c.refuses("a read", &capacity::Call::Read { size: 8, offset: 0 }, number);
                c.refuses("a fill", &fill([0, 0, 0, 0]), number);
                c.refuses("an eviction", &capacity::Call::Evict { unit: 0 }, number);
                let reset = capacity::Call::Reset(capacity_setup(CAPACITY));
                c.refuses("a reset", &reset, number);
            });
        }
    }
    for numbers in [[8, 4, 2, 4, 24, 2], [8, 4, 2, 4, 24, 4], [7, 4, 2, 4, 24, 3]] {
        let reset = capacity::Call::Reset(capacity_setup(numbers));
        c.refuses("another number of units", &reset, 2);
    }
    // 8 times 3 is 4 times 6
    c.answers("as many units", &capacity::Call::Reset(capacity_setup([4, 4, 2, 4, 24, 6])), 0);
}

fn sizes_and_offsets(report: &mut Report) {
    let accesses = [
        ("size 0", 0, 0, 4),
        ("size 1", 1, 0, 4),
        ("size 16", 16, 0, 4),
        ("size 2^32 + 4", (1 << 32) + 4, 0, 4),
        ("size before offset", 3, 41, 4),
        ("8 bytes at 4", 8, 4, 5),
        ("4 bytes at 2", 4, 2, 5),
        ("8 bytes at 36", 8, 36, 5),
        ("8 bytes at 40", 8, 40, 5),
        ("4 bytes at 40", 4, 40, 5),
        ("4 bytes at 2^32", 4, 1 << 32, 5),
        ("8 bytes at 2^64 - 8", 8, u64::MAX - 7, 5),
        ("4 bytes at 2^64 - 4", 4, u64::MAX - 3, 5),
        ("4 bytes at 2^64 - 1", 4, u64::MAX, 5),
    ];
    let mut c = BandwidthCase::after_reset(report, SETUP);
    for (name, size, offset, number) in accesses {
        c.refuses(name, &bandwidth::Call::Read { size, offset }, number);
        let value = u64::MAX;
        c.refuses(name, &bandwidth::Call::Write { size, offset, value }, number);
    }
    for offset in [0, 4, 8, 12, 16, 20, 24, 28, 32, 36] {
        let write = |value| bandwidth::Call::Write { size: 4, offset, value };
        c.refuses("4 bytes of 2^32, read-only and dropped halves too", &write(1 << 32), 6);
        c.refuses("4 bytes of 2^64 - 1", &write(u64::MAX), 6);
        c.answers("4 bytes of 2^32 - 1", &write(0xFFFF_FFFF), 0);
    }
    c.write(8, 0, 1 << 32);
}

/// Faults are added one before another in the order of checking.
fn order(report: &mut Report) {
    let mut c = BandwidthCase::after_reset(report, SETUP);
    let write = |size, offset| bandwidth::Call::Write { size, offset, value: 1 << 32 };
    c.refuses("6", &write(4, 0x18), 6);
    c.refuses("5 before 6", &write(4, 0x2A), 5);
    c.refuses("4 before 5 and 6", &write(5, 0x2A), 4);
    c.store(1, 7, 0x0010_0000);
    c.refuses("3 before 4", &write(5, 0x2A), 3);
    let request = bandwidth::Request { rcid: 9, mcid: 9, at: 0, kind: 0, bytes: 1 };
    c.refuses("3 before 7", &bandwidth::Call::Request(request), 3);
    c.lend_length(5, 9);
    c.refuses("2 before 3", &write(5, 0x2A), 2);
    c.store(0, 6, 63);
    c.refuses("1 before 2", &write(5, 0x2A), 1);
    c.store(0, 6, 24);
    c.refuses("a reset has no check 3, but 2", &reset_of(SETUP), 2);
    c.lend_length(5, 8);
    c.answers("a reset has no check 3", &reset_of(SETUP), 0);
    c.read("and all is well", 8, 0, 0x0000_0050_0000_6401);
}

fn requests(report: &mut Report) {
    let mut c = BandwidthCase::after_reset(report, SETUP);
    for (rcid, mcid) in [(4, 0), (0, 4), (u64::MAX, 0), (0, 1 << 32), (256, 256)] {
        let request = bandwidth::Request { rcid, mcid, at: 0, kind: 0, bytes: 10 };
        c.refuses("no such RCID or MCID", &bandwidth::Call::Request(request), 7);
    }
    c.request("the last ones", [3, 3, 1, 0, 10], (0, 0));
    c.request("any AT and any kind", [0, 3, u64::MAX, u64::MAX, 10], (10, 0));
}
