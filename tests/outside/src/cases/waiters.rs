//! Requests that wait, with numbers by hand: put to wait, refused, served beside requests, dropped.

use super::case::bandwidth_record::*;
use super::case::{bandwidth_setup, wait, BandwidthCase};
use super::refusals::{lengths_first, one_to_three_first};
use super::Report;
use crate::model::bandwidth::slices::*;
use crate::model::bandwidth::Call;

const SETUP: [u64; 7] = [100, 80, 4, 2, 4, 64, 24];
const ALL: u64 = 0xFFFF_FFFF;

pub fn run(report: &mut Report) {
    words(report);
    largest_fields(report);
    refusals(report);
    order(report);
    worked(report);
    three_holders(report);
    beside_requests(report);
    dropped(report);
}

/// RCIDs 0 and 1 have 1,920 bytes and the weights 1 and 5, RCID 1 for both access types; RCID 2 has
/// 1,280 for AT 0 and weight 0; the pool has 1,280, and RCID 3 nothing.
pub fn in_use(report: &mut Report) -> BandwidthCase<'_> {
    let mut c = BandwidthCase::after_reset(report, SETUP);
    c.configure("RCID 0", (0, 0), 0x0010_001E, 1);
    c.configure("RCID 1", (1, 0), 0x0050_001E, 1);
    c.configure("RCID 1 AT 1", (1, 1), 0x8000_0000, 1);
    c.configure("RCID 2", (2, 0), 20, 1);
    c.end_window();
    c
}

/// What each RCID needs.
pub fn needs(c: &mut BandwidthCase, name: &str, needs: [u64; 4]) {
    for (rcid, need) in (0..).zip(needs) {
        c.need(&format!("{name}, RCID {rcid}"), rcid, need);
    }
}

/// Nothing but the word of the RCID changes, and nothing is granted.
fn words(report: &mut Report) {
    let mut c = in_use(report);
    let waits = [
        ("RCID 0 reads 1 byte", [0, 0, 0, 0, 1], 0x0000_0000_0001),
        ("it writes", [0, 0, 0, 1, 1], 0x0800_0000_0001),
        ("kind 2 is a write", [0, 0, 0, 2, 1], 0x0800_0000_0001),
        ("kind 2^32 is a write", [0, 0, 0, 1 << 32, 1], 0x0800_0000_0001),
        ("MCID 3, AT 1", [1, 3, 1, 0, 4_000], 0x0103_0000_0FA0),
        ("AT 2 of 2 is stored as 0", [1, 3, 2, 0, 4_000], 0x0003_0000_0FA0),
        ("so is 2^32 + 1", [2, 0, (1 << 32) + 1, 0, 9], 0x0000_0000_0009),
        ("all that can be asked", [3, 3, 1, 1, ALL], 0x0903_FFFF_FFFF),
    ];
    for (name, request, word) in waits {
        c.aside(|c| {
            let rcid = request[0] as usize;
            c.changes(name, &wait(request), &[(WAITERS, rcid, word)]);
            c.need(name, request[0], request[4]);
            c.changes(name, &Call::Need { rcid: request[0] }, &[]);
        });
    }
}

/// 256 MCIDs and 8 access types.
fn largest_fields(report: &mut Report) {
    let numbers = [65_535, 65_535, 256, 8, 256, 65_536, 62];
    let mut c = BandwidthCase::after_reset(report, numbers);
    c.wait("every field", [255, 255, 7, 1, ALL]);
    c.word("every field", WAITERS, 255, 0x0FFF_FFFF_FFFF);
    c.need("all", 255, ALL);
    c.end_window();
    c.need("nobody serves it", 255, ALL);
    c.refuses("MCID 256", &wait([0, 256, 0, 0, 1]), 7);
    c.refuses("RCID 256", &wait([256, 0, 0, 0, 1]), 7);
    c.refuses("RCID 2^32", &wait([1 << 32, 0, 0, 0, 1]), 7);
}

/// Refusals 7, 10 and 11 of a wait and 7 of a need.
fn refusals(report: &mut Report) {
    let mut c = in_use(report);
    c.wait("RCID 1", [1, 0, 0, 0, 9_000]);
    let refused = [
        ("RCID 4 of 4", [4, 0, 0, 0, 1], 7),
        ("MCID 4 of 4", [0, 4, 0, 0, 1], 7),
        ("both", [u64::MAX, u64::MAX, 0, 0, 1], 7),
        ("7 before 11", [4, 0, 0, 0, 0], 7),
        ("7 before 10", [1, 4, 0, 0, 1], 7),
        ("7 before 10 and 11", [1, 4, 0, 0, 0], 7),
        ("one waits already", [1, 0, 0, 0, 1], 10),
        ("with another AT", [1, 2, 1, 1, 1], 10),
        ("10 before 11", [1, 0, 0, 0, 0], 10),
        ("0 bytes", [0, 0, 0, 0, 0], 11),
        ("0 bytes of an RCID without a holder", [3, 3, 1, 1, 0], 11),
    ];
    for (name, request, number) in refused {
        c.refuses(name, &wait(request), number);
    }
    c.refuses("the need of RCID 4", &Call::Need { rcid: 4 }, 7);
    c.refuses("the need of RCID 2^32 + 1", &Call::Need { rcid: (1 << 32) + 1 }, 7);
    needs(&mut c, "nothing came of these", [0, 9_000, 0, 0]);
    c.request("a request goes on", [1, 0, 0, 0, 100], (100, 0));
    c.end_window();
    c.refuses("still one", &wait([1, 0, 0, 0, 1]), 10);
    c.end_window();
    c.end_window();
    c.need("done", 1, 0);
    c.wait("the next one", [1, 0, 0, 0, 1]);
}

/// Faults are added one before another in the order of checking.
fn order(report: &mut Report) {
    let mut c = BandwidthCase::after_reset(report, SETUP);
    for call in [wait([4, 0, 0, 0, 0]), wait([0, 0, 0, 0, 1]), Call::Need { rcid: 4 }] {
        one_to_three_first(&mut c, &call);
        c.aside(|c| {
            c.store(WAITERS, 3, 0x0800_0000_0000);
            c.refuses("3 before 7, 10 and 11", &call, 3);
        });
    }
    lengths_first(&mut c, &[wait([0, 0, 0, 0, 1]), Call::Need { rcid: 0 }]);
}

/// Four wait: RCID 0 is 580 short of its bytes after its reservation, RCID 1 2,080, RCID 2 220; the
/// shares of the pool are a sixth and five sixths of 1,280: 213 and 1,066.
fn worked(report: &mut Report) {
    let mut c = in_use(report);
    c.mon("MCID 1 counts reads", 0x20_0101, 1);
    c.wait("RCID 0", [0, 0, 0, 0, 2_500]);
    c.wait("RCID 1, by its sharer", [1, 1, 1, 0, 4_000]);
    c.wait("RCID 2", [2, 2, 0, 1, 1_500]);
    c.wait("RCID 3", [3, 3, 1, 0, 1]);
    let served = [
        (USED, 0, 1_920),
        (USED, 2, 1_920),
        (USED, 4, 1_280),
        (RECORD, POOL, 213 + 1_066),
        (COUNTERS, 1, 1_920 + 1_066),
        (WAITERS, 0, 367),
        (WAITERS, 1, 0x0101_0000_0000 | 1_014),
        (WAITERS, 2, 0x0802_0000_0000 | 220),
    ];
    c.changes("the first window end", &Call::EndWindow, &served);
    needs(&mut c, "after it", [367, 1_014, 220, 1]);
    c.request("the byte that rounding left", [1, 0, 0, 0, 10], (0, 1));
    let served = [
        (USED, 0, 367),
        (USED, 2, 1_014),
        (USED, 4, 220),
        (RECORD, POOL, 0),
        (COUNTERS, 1, 4_000),
        (WAITERS, 0, 0),
        (WAITERS, 1, 0),
        (WAITERS, 2, 0),
    ];
    c.changes("the second", &Call::EndWindow, &served);
    needs(&mut c, "after it", [0, 0, 0, 1]);
    let rest = [(USED, 0, 0), (USED, 2, 0), (USED, 4, 0)];
    c.changes("the third", &Call::EndWindow, &rest);
}

/// The list of calls that is proved too (`waiting` in bandwidth_model's Cases): RCID 0 has 1,920 bytes
/// and weight 0, RCID 1 1,920 and weight 5, RCID 2 1,280 and weight 2.
fn three_holders(report: &mut Report) {
    let mut c = BandwidthCase::after_reset(report, SETUP);
    c.configure("RCID 0", (0, 0), 30, 1);
    c.configure("RCID 1", (1, 0), 0x0050_001E, 1);
    c.configure("RCID 2", (2, 0), 0x0020_0014, 1);
    c.configure("RCID 1 AT 1", (1, 1), 0x8000_0000, 1);
    c.mon("MCID 1 counts writes", 0x30_0101, 1);
    c.wait("RCID 0", [0, 0, 0, 0, 3_000]);
    c.wait("RCID 1, by its sharer", [1, 1, 1, 1, 2_500]);
    c.wait("RCID 2, AT 5 of 2", [2, 2, 5, 0, 5_000]);
    c.request("by the settings of the reset", [0, 0, 0, 0, 100], (100, 0));
    c.end_window();
    needs(&mut c, "580 and 2/7 of 1,280 of the pool", [1_080, 0, 3_355, 0]);
    c.request("weight 0, all is used", [0, 0, 0, 0, 1], (0, 0));
    c.request("the rest of the pool", [2, 0, 0, 0, 1_000], (0, 335));
    c.word("1,920 and 580 written", COUNTERS, 1, 2_500);
    c.wait("RCID 1 again", [1, 1, 0, 0, 100]);
    c.end_window();
    needs(&mut c, "RCID 2 has the pool alone", [0, 0, 795, 0]);
}

/// A waiter has its bytes before any request of the window; requests have what is left, and leave
/// the waiter alone.
fn beside_requests(report: &mut Report) {
    let mut c = in_use(report);
    c.request("before", [1, 0, 0, 0, 3_000], (1_920, 1_080));
    c.wait("the same RCID", [1, 0, 0, 0, 2_000]);
    c.request("still in the window", [1, 0, 1, 0, 500], (0, 200));
    c.device_request("by a device", [1, 1, 0, 0, 1], (0, 0));
    c.need("as it was", 1, 2_000);
    c.end_window();
    c.need("80 of the pool", 1, 0);
    c.request("1,200 are left", [1, 0, 0, 0, 3_000], (0, 1_200));
    c.wait("less than a reservation", [1, 0, 1, 0, 1_000]);
    c.end_window();
    c.request("920 are left, and the pool", [1, 0, 0, 0, 3_000], (920, 1_280));
    c.request("others have theirs", [0, 0, 0, 0, 2_000], (1_920, 0));
}

/// A reset drops all; a refused window end or reset serves and drops nothing.
fn dropped(report: &mut Report) {
    let mut c = in_use(report);
    c.wait("RCID 0", [0, 0, 0, 0, 5_000]);
    c.wait("RCID 3", [3, 0, 0, 0, 5_000]);
    c.aside(|c| {
        c.store(ACTIVE, 7, 0x0010_0000);
        c.refuses("a window end", &Call::EndWindow, 3);
        c.store(ACTIVE, 7, 0);
        needs(c, "as before", [5_000, 0, 0, 5_000]);
    });
    c.refuses("a reset", &Call::Reset(bandwidth_setup([100, 0, 4, 2, 4, 64, 24])), 1);
    needs(&mut c, "as before", [5_000, 0, 0, 5_000]);
    c.answers("a reset", &Call::Reset(bandwidth_setup(SETUP)), 0);
    needs(&mut c, "dropped", [0; 4]);
    c.end_window();
    c.word("nothing is used", USED, 0, 0);
    c.wait("again", [0, 0, 0, 0, 1]);
}
