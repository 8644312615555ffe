//! What window ends serve to requests that wait, with numbers by hand: reservations, shares of the
//! pool, counters and deadlines.

use super::case::bandwidth_record::*;
use super::case::BandwidthCase;
use super::waiters::{in_use, needs};
use super::Report;
use crate::model::bandwidth::slices::*;

const SETUP: [u64; 7] = [100, 80, 4, 2, 4, 64, 24];
const ALL: u64 = 0xFFFF_FFFF;

pub fn run(report: &mut Report) {
    settings_come_first(report);
    ends_of_a_reservation(report);
    shares(report);
    shares_of_nothing(report);
    done_waiters_have_no_weight(report);
    counters(report);
    deadlines(report);
    all_wait(report);
}

/// Waiters are served by the settings that come into force at that window end.
fn settings_come_first(report: &mut Report) {
    let mut c = BandwidthCase::after_reset(report, SETUP);
    c.configure("RCID 0 to 10", (0, 0), 0x0010_000A, 1);
    c.configure("RCID 3 AT 1 to 20", (3, 1), 20, 1);
    c.configure("RCID 3 AT 0 shares it", (3, 0), 0x9000_0000, 1);
    c.wait("RCID 0 has 10 blocks then, and 70 of the pool", [0, 0, 1, 0, 6_000]);
    c.wait("RCID 3 has 20 then", [3, 0, 0, 0, 1_280]);
    c.end_window();
    c.word("640 of 5,120", USED, 0, 640);
    c.word("all of AT 1", USED, 7, 1_280);
    c.word("the new pool has 4,480", RECORD, POOL, 4_480);
    needs(&mut c, "after it", [880, 0, 0, 0]);
    c.wait("RCID 3 again", [3, 0, 0, 0, 1_280]);
    c.configure("RCID 3 AT 0 holds 1", (3, 0), 1, 1);
    c.end_window();
    needs(&mut c, "by AT 0 itself", [0, 0, 0, 1_216]);
    c.word("64 of AT 0", USED, 6, 64);
    c.word("nothing of AT 1", USED, 7, 0);
}

/// RCID 2 has 1,280 bytes and weight 0.
fn ends_of_a_reservation(report: &mut Report) {
    let mut c = in_use(report);
    for (bytes, used, left) in [(1, 1, 0), (1_279, 1_279, 0), (1_280, 1_280, 0), (1_281, 1_280, 1)]
    {
        c.aside(|c| {
            c.wait("RCID 2", [2, 0, 0, 0, bytes]);
            c.end_window();
            c.word("used", USED, 4, used);
            c.word("the pool gave nothing", RECORD, POOL, 0);
            c.need("left", 2, left);
        });
    }
    c.wait("an AT that is not set", [2, 0, 1, 0, 5]);
    c.end_window();
    c.need("nobody serves it", 2, 5);
}

/// RCIDs 0, 1 and 2 have 64 bytes each and these weights; the pool has 97 blocks of 64, 6,208 bytes.
fn shares(report: &mut Report) {
    let mut c = BandwidthCase::after_reset(report, SETUP);
    let rows = [
        ("equal", [7, 7, 7], [9_000; 3], [2_069, 2_069, 2_069]),
        ("1, 2 and 3", [1, 2, 3], [9_000; 3], [1_034, 2_069, 3_104]),
        ("255 and 1", [255, 1, 0], [9_000; 3], [6_183, 24, 0]),
        ("one alone", [0, 255, 0], [9_000; 3], [0, 6_208, 0]),
        ("no weight", [0, 0, 0], [9_000; 3], [0, 0, 0]),
        ("less than a share", [1, 1, 1], [164, 9_000, 9_000], [100, 2_069, 2_069]),
        ("just a share", [1, 1, 1], [2_133, 9_000, 9_000], [2_069, 2_069, 2_069]),
        ("one more", [1, 1, 1], [2_134, 9_000, 9_000], [2_069, 2_069, 2_069]),
        ("one done before", [1, 1, 1], [64, 9_000, 9_000], [0, 3_104, 3_104]),
    ];
    for (name, weights, asked, parts) in rows {
        c.aside(|c| {
            for (rcid, weight) in (0..).zip(weights) {
                c.configure(name, (rcid, 0), weight << 20 | 1, 1);
                c.wait(name, [rcid, 0, 0, 0, asked[rcid as usize]]);
            }
            c.end_window();
            for rcid in 0..3 {
                c.need(name, rcid as u64, asked[rcid] - 64 - parts[rcid]);
            }
            c.word(name, RECORD, POOL, parts.iter().sum());
        });
    }
}

/// A pool of one byte, in which no share is a whole byte; and no pool at all.
fn shares_of_nothing(report: &mut Report) {
    let mut c = BandwidthCase::after_reset(report, [3, 3, 2, 1, 1, 1, 24]);
    c.configure("RCID 0", (0, 0), 0x0010_0001, 1);
    c.configure("RCID 1", (1, 0), 0x0FF0_0001, 1);
    c.wait("RCID 0", [0, 0, 0, 0, 3]);
    c.wait("RCID 1", [1, 0, 0, 0, 3]);
    c.end_window();
    c.word("1/256 and 255/256 of a byte", RECORD, POOL, 0);
    c.need("a byte each", 0, 2);
    c.need("a byte each", 1, 2);
    c.request("the byte is for who asks first", [1, 0, 0, 0, 5], (0, 1));
    c.configure("all blocks", (0, 0), 0x0010_0002, 1);
    c.end_window();
    c.need("two bytes reserved", 0, 0);
    c.need("no pool", 1, 1);
}

/// RCID 1 needs no more after its reservation: RCID 0 alone shares, in spite of weight 5.
fn done_waiters_have_no_weight(report: &mut Report) {
    let mut c = in_use(report);
    c.wait("RCID 0", [0, 0, 0, 0, 9_000]);
    c.wait("RCID 1", [1, 0, 0, 0, 1_920]);
    c.end_window();
    needs(&mut c, "the whole pool", [9_000 - 1_920 - 1_280, 0, 0, 0]);
    c.wait("RCID 1", [1, 0, 0, 0, 1_921]);
    c.end_window();
    needs(&mut c, "a sixth, and one byte", [5_800 - 1_920 - 213, 0, 0, 0]);
    c.word("the rest stays", RECORD, POOL, 214);
}

/// A counter goes by a waiter's own AT and by read or write, and counts both amounts.
fn counters(report: &mut Report) {
    let mut c = in_use(report);
    c.mon("MCID 0: event 1, AT 1", 0x1010_0021, 1);
    c.mon("MCID 1: reads", 0x20_0101, 1);
    c.mon("MCID 2: writes", 0x30_0201, 1);
    c.wait("AT 1, which shares AT 0", [1, 0, 1, 0, 3_000]);
    c.wait("a write, where reads are counted", [0, 1, 0, 7, 1_000]);
    c.wait("a write", [2, 2, 0, 7, 1_281]);
    c.word("a wait counts nothing", COUNTERS, 0, 0);
    c.end_window();
    c.word("1,920 and 1,080", COUNTERS, 0, 3_000);
    c.word("no read", COUNTERS, 1, 0);
    c.word("1,280 of a reservation", COUNTERS, 2, 1_280);
    c.store(COUNTERS, 2, 0x4000_0000_00FF_FFFF);
    c.wait("AT 2 counts as 0", [1, 0, 2, 0, 100]);
    c.end_window();
    c.word("AT 0 is not counted", COUNTERS, 0, 3_000);
    c.word("one byte reaches 2^24", COUNTERS, 2, 0xC000_0000_0000_0000);
    c.mon("MCID 2 stops", 0x00_0201, 1);
    c.wait("a stopped counter", [0, 2, 0, 1, 10]);
    c.end_window();
    c.word("it stays", COUNTERS, 2, 0xC000_0000_0000_0000);
}

/// Without weight, n bytes take n / (R * Q) window ends, rounded up, and not one less.
fn deadlines(report: &mut Report) {
    let mut c = in_use(report);
    c.wait("RCID 0 takes the pool", [0, 0, 0, 0, ALL]);
    for (bytes, window_ends) in [(1_280, 1), (1_281, 2), (2_560, 2), (2_561, 3), (12_801, 11)] {
        c.aside(|c| {
            c.wait("RCID 2", [2, 0, 0, 0, bytes]);
            for window_end in 1..=window_ends {
                c.need("before it", 2, bytes - 1_280 * (window_end - 1));
                c.end_window();
            }
            c.need("done", 2, 0);
        });
    }
    c.wait("RCID 2", [2, 0, 0, 0, 2_000]);
    c.end_window();
    c.configure("RCID 2 to 5 blocks", (2, 0), 5, 1);
    c.end_window();
    c.need("1,280 and 320", 2, 400);
    c.end_window();
    c.need("320", 2, 80);
    c.end_window();
    c.need("the fourth of 7, by 5 blocks at least", 2, 0);
}

/// 256 RCIDs with a block of 65,536 bytes and weight 255 each: the pool has 65,279 blocks, of which
/// each has a 256th, 16,711,424 bytes.
fn all_wait(report: &mut Report) {
    let mut c = BandwidthCase::after_reset(report, [65_535, 65_535, 256, 1, 256, 65_536, 24]);
    for rcid in 0..256 {
        for table in [ACTIVE, CONFIGURED] {
            c.store(table, rcid, 0x0FF0_0001);
        }
        c.store(EVENTS, rcid, 3);
        c.wait("all", [rcid as u64, 255 - rcid as u64, 0, 1, ALL]);
    }
    c.end_window();
    for rcid in 0..256 {
        c.need("a block and a share less", rcid as u64, ALL - 65_536 - 16_711_424);
        c.word("a block", USED, rcid, 65_536);
        c.word("16,776,960", COUNTERS, rcid, 16_776_960);
    }
    c.word("the whole pool", RECORD, POOL, 65_279 * 65_536);
}
