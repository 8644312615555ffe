//! Refusal 3 at every place of every table, in sizes where a library may read the tables in parts.

use super::case::{BandwidthCase, CapacityCase, Case};
use super::Report;
use crate::controller::Controller;
use crate::model::bandwidth::slices::*;
use crate::model::capacity::slices::{MASKS, OWNERS};
use crate::model::CommonCall;

/// NR and NA.
pub const SIZES: [(u64, u64); 8] =
    [(256, 8), (256, 1), (43, 3), (33, 4), (26, 5), (22, 6), (19, 7), (17, 2)];

pub fn run(report: &mut Report) {
    for (nr, na) in SIZES {
        bandwidth_settings(report, nr, na);
        bandwidth_sharers(report, nr, na);
        bandwidth_waiters(report, nr, na);
        capacity_masks(report, nr, na);
    }
    for nm in [1, 7, 33, 256] {
        bandwidth_counters(report, nm);
        capacity_counters(report, nm);
    }
    for (ncblks, u) in [(64, 64), (64, 1), (1, 64), (1, 1), (13, 7), (31, 33)] {
        capacity_owners(report, ncblks, u);
    }
}

/// Puts words into the memory, expects a read to be refused by this number or accepted, and puts back.
pub fn probe<C: Controller>(
    c: &mut Case<C>,
    name: &str,
    words: &[(usize, usize, u64)],
    number: u64,
) {
    let old: Vec<u64> = words.iter().map(|&(region, index, _)| c.load(region, index)).collect();
    for &(region, index, value) in words {
        c.store(region, index, value);
    }
    c.refusal(name, &C::Call::read(8, 0), number);
    for (&(region, index, _), &value) in words.iter().zip(&old) {
        c.store(region, index, value);
    }
}

/// RCID 0 has 599 of MRBWB 600 blocks of 4 bytes; all pairs of other RCIDs are unset.
fn one_block_left(report: &mut Report, nr: u64, na: u64) -> BandwidthCase<'_> {
    let mut c = BandwidthCase::after_reset(report, [1_000, 600, nr, na, 3, 4, 24]);
    c.configure("RCID 0", (0, 0), 599, 1);
    c.end_window();
    c
}

fn bandwidth_settings(report: &mut Report, nr: u64, na: u64) {
    let mut c = one_block_left(report, nr, na);
    probe(&mut c, "RCID 0 used all", &[(USED, 0, 2_396)], 0);
    probe(&mut c, "RCID 0 used more", &[(USED, 0, 2_397)], 3);
    for place in na as usize..(nr * na) as usize {
        for table in [ACTIVE, CONFIGURED] {
            probe(&mut c, "the last block", &[(table, place, 1)], 0);
            probe(&mut c, "one block more", &[(table, place, 2)], 3);
            probe(&mut c, "bit 16", &[(table, place, 0x0001_0000)], 3);
            probe(&mut c, "only a weight", &[(table, place, 0x0FF0_0000)], 3);
            probe(&mut c, "shares AT 0, unset", &[(table, place, 0x8000_0000)], 3);
        }
        probe(&mut c, "used at an unset pair", &[(USED, place, 1)], 3);
        probe(&mut c, "used all of a block", &[(ACTIVE, place, 1), (USED, place, 4)], 0);
        probe(&mut c, "used more than a block", &[(ACTIVE, place, 1), (USED, place, 5)], 3);
        probe(&mut c, "used of a configured block", &[(CONFIGURED, place, 1), (USED, place, 1)], 3);
    }
}

/// In every row, the last AT shares AT 0, which holds a block; then itself, and one that is unset.
fn bandwidth_sharers(report: &mut Report, nr: u64, na: u64) {
    if na == 1 {
        return;
    }
    let mut c = one_block_left(report, nr, na);
    for rcid in 1..nr {
        let first = (rcid * na) as usize;
        let last = first + na as usize - 1;
        let share = |at: u64| 0x8000_0000 | at << 28;
        for table in [ACTIVE, CONFIGURED] {
            let holder = (table, first, 1);
            probe(&mut c, "shares AT 0", &[holder, (table, last, share(0))], 0);
            probe(&mut c, "shares itself", &[holder, (table, last, share(na - 1))], 3);
            if na < 8 {
                probe(&mut c, "shares AT NA", &[holder, (table, last, share(na))], 3);
            }
            if na > 2 {
                probe(&mut c, "shares an unset pair", &[holder, (table, last, share(1))], 3);
                let sharer = (table, first + 1, share(0));
                probe(&mut c, "shares a sharer", &[holder, sharer, (table, last, share(1))], 3);
                probe(&mut c, "two sharers", &[holder, sharer, (table, last, share(0))], 0);
            }
        }
        probe(&mut c, "used at a sharer", &[(ACTIVE, first, 1), (USED, last, 1)], 3);
    }
}

/// 100 MCIDs. Every word alone, and the same beside a waiter under RCID 0.
fn bandwidth_waiters(report: &mut Report, nr: u64, na: u64) {
    let mut c = BandwidthCase::after_reset(report, [100, 80, nr, na, 100, 64, 24]);
    for first in [0, 5] {
        c.store(WAITERS, 0, first);
        for rcid in 0..nr as usize {
            let highest = 0x0863_0000_0000 | (na - 1) << 40;
            let mut word = |name, value, number| {
                probe(&mut c, name, &[(WAITERS, rcid, value)], number);
            };
            word("one byte", 1, 0);
            word("the highest of each field", highest | 0xFFFF_FFFF, 0);
            word("no need", highest, 3);
            word("a write without a need", 0x0800_0000_0000, 3);
            word("MCID 100", 0x0064_0000_0001, 3);
            word("MCID 255", 0x00FF_0000_0001, 3);
            if na < 8 {
                word("AT NA", na << 40 | 1, 3);
            }
            word("bit 44", 1 << 44 | 1, 3);
            word("bit 63", 1 << 63 | 1, 3);
        }
    }
}

fn bandwidth_counters(report: &mut Report, nm: u64) {
    let mut c = BandwidthCase::after_reset(report, [100, 80, 2, 3, nm, 64, 30]);
    for mcid in 0..nm as usize {
        probe(&mut c, "2^30 - 1", &[(COUNTERS, mcid, (1 << 30) - 1)], 0);
        probe(&mut c, "2^30", &[(COUNTERS, mcid, 1 << 30)], 3);
        probe(&mut c, "bit 61", &[(COUNTERS, mcid, 1 << 61)], 3);
        probe(&mut c, "the flags", &[(COUNTERS, mcid, 3 << 62)], 0);
        probe(&mut c, "event 3, AT 2", &[(EVENTS, mcid, 0x0A03)], 0);
        probe(&mut c, "event 3, AT 3 of 3", &[(EVENTS, mcid, 0x0B03)], 3);
        probe(&mut c, "event 4", &[(EVENTS, mcid, 0x0004)], 3);
        probe(&mut c, "event 128", &[(EVENTS, mcid, 0x0080)], 3);
        probe(&mut c, "AT without ATV", &[(EVENTS, mcid, 0x0201)], 3);
        probe(&mut c, "ATV without an event", &[(EVENTS, mcid, 0x0800)], 3);
        probe(&mut c, "bit 15", &[(EVENTS, mcid, 0x8001)], 3);
    }
}

/// 47 blocks: bit 47 and those above are held as 0.
fn capacity_masks(report: &mut Report, nr: u64, na: u64) {
    let mut c = CapacityCase::after_reset(report, [47, nr, na, 3, 24, 1]);
    for place in 0..(nr * na) as usize {
        probe(&mut c, "every block", &[(MASKS, place, (1 << 47) - 1)], 0);
        probe(&mut c, "no block", &[(MASKS, place, 0)], 0);
        probe(&mut c, "bit 47", &[(MASKS, place, 1 << 47)], 3);
        probe(&mut c, "bit 63", &[(MASKS, place, 1 << 63)], 3);
    }
}

/// 100 RCIDs, 50 MCIDs and 5 access types.
fn capacity_owners(report: &mut Report, ncblks: u64, u: u64) {
    let mut c = CapacityCase::after_reset(report, [ncblks, 100, 5, 50, 24, u]);
    for unit in 0..(ncblks * u) as usize {
        let mut word = |name, value, number| probe(&mut c, name, &[(OWNERS, unit, value)], number);
        word("the lowest of each field", 0x0008_0000, 0);
        word("the highest of each field", 0x000C_3163, 0);
        word("RCID 100", 0x0008_0064, 3);
        word("MCID 50", 0x0008_3200, 3);
        word("AT 5", 0x000D_0000, 3);
        word("not owned", 0x0004_3163, 3);
        word("bit 20", 0x0018_0000, 3);
        word("bit 31", 0x8008_0000, 3);
    }
}

fn capacity_counters(report: &mut Report, nm: u64) {
    use crate::model::capacity::slices::{COUNTERS, EVENTS};
    let mut c = CapacityCase::after_reset(report, [8, 2, 3, nm, 30, 1]);
    for mcid in 0..nm as usize {
        probe(&mut c, "2^30 - 1", &[(COUNTERS, mcid, (1 << 30) - 1)], 0);
        probe(&mut c, "2^30", &[(COUNTERS, mcid, 1 << 30)], 3);
        probe(&mut c, "bit 62", &[(COUNTERS, mcid, 1 << 62)], 3);
        probe(&mut c, "INVALID", &[(COUNTERS, mcid, 1 << 63)], 0);
        probe(&mut c, "event 1, AT 2", &[(EVENTS, mcid, 0x0A01)], 0);
        probe(&mut c, "event 1, AT 3 of 3", &[(EVENTS, mcid, 0x0B01)], 3);
        probe(&mut c, "event 2", &[(EVENTS, mcid, 0x0002)], 3);
        probe(&mut c, "event 3", &[(EVENTS, mcid, 0x0003)], 3);
        probe(&mut c, "AT without ATV", &[(EVENTS, mcid, 0x0201)], 3);
        probe(&mut c, "bit 12", &[(EVENTS, mcid, 0x1001)], 3);
    }
}
