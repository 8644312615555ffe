//! Where granted bytes come from, with numbers by hand: the reservation first, then the pool; for a
//! request and for a device's alike.

use super::case::bandwidth_record::*;
use super::case::BandwidthCase;
use super::forms::good_state;
use super::Report;
use crate::model::bandwidth::slices::*;

const ALL: u64 = 0xFFFF_FFFF;

pub fn run(report: &mut Report) {
    for way in [Way::Request, Way::Device(0), Way::Device(1), Way::Device(2)] {
        one_window(report, way);
        whole_windows(report, way);
        two_rcids(report, way);
        no_pool(report, way);
        largest(report, way);
    }
}

/// A request names RCID and MCID, a device's has a mode of the IOMMU and a word with both.
#[derive(Clone, Copy)]
enum Way {
    Request,
    Device(u64),
}

impl Way {
    /// A read with MCID 2 by RCID, AT and bytes: reserved bytes and pool bytes.
    fn grants(
        self,
        c: &mut BandwidthCase,
        name: &str,
        [rcid, at, bytes]: [u64; 3],
        grant: (u64, u64),
    ) {
        match self {
            Way::Request => c.request(name, [rcid, 2, at, 0, bytes], grant),
            Way::Device(mode) => {
                let word = if mode < 2 { 2 << 16 | rcid } else { 2 << 52 | rcid << 40 };
                c.device_request(name, [mode, word, at, 0, bytes], grant);
            }
        }
    }
}

/// RCID 0 has 1,920 bytes, RCID 1 has 1,920 for both access types and weight 5, RCID 2 has 1,280 for
/// AT 0; RCIDs 0 and 2 have weight 0. The pool has 1,280 bytes.
fn one_window(report: &mut Report, way: Way) {
    let mut c = good_state(report);
    c.mon("MCID 2 counts all bytes", 0x10_0201, 1);
    let steps = [
        ("the first byte", [1, 0, 1], (1, 0)),
        ("the rest of the reservation", [1, 1, 1_919], (1_919, 0)),
        ("the next is the pool's first", [1, 0, 1], (0, 1)),
        ("all but one of the pool", [1, 1, 1_278], (0, 1_278)),
        ("two asked, the last one granted", [1, 0, 2], (0, 1)),
        ("nothing is left", [1, 1, 1], (0, 0)),
        ("weight 0, the reservation", [0, 1, 1_920], (1_920, 0)),
        ("weight 0, nothing is left", [0, 0, 1], (0, 0)),
        ("weight 0, one byte too many", [2, 0, 1_281], (1_280, 0)),
        ("an unset AT", [2, 1, 1], (0, 0)),
        ("an unset RCID", [3, 0, ALL], (0, 0)),
    ];
    for (name, request, grant) in steps {
        way.grants(&mut c, name, request, grant);
    }
    c.word("1,920, 1,280, 1,920 and 1,280 are counted", COUNTERS, 2, 6_400);
}

/// As before, and each request opens a window of its own.
fn whole_windows(report: &mut Report, way: Way) {
    let mut c = good_state(report);
    let windows = [
        ("0 bytes", [1, 0, 0], (0, 0)),
        ("exactly the reservation", [1, 0, 1_920], (1_920, 0)),
        ("one more", [1, 1, 1_921], (1_920, 1)),
        ("reservation and pool but one", [1, 0, 3_199], (1_920, 1_279)),
        ("exactly reservation and pool", [1, 1, 3_200], (1_920, 1_280)),
        ("all that can be asked", [1, 0, ALL], (1_920, 1_280)),
        ("all that can be asked, weight 0", [2, 0, ALL], (1_280, 0)),
    ];
    for (name, request, grant) in windows {
        way.grants(&mut c, name, request, grant);
        c.word("the pool gave as much", RECORD, POOL, grant.1);
        c.end_window();
    }
}

/// RCID 0 and RCID 1 have 640 bytes each and both weights: the pool of 5,120 is for both together.
fn two_rcids(report: &mut Report, way: Way) {
    let mut c = BandwidthCase::after_reset(report, [100, 80, 4, 2, 4, 64, 24]);
    c.configure("RCID 0", (0, 0), 0x0010_000A, 1);
    c.configure("RCID 1", (1, 0), 0x0FF0_000A, 1);
    c.end_window();
    way.grants(&mut c, "RCID 0", [0, 0, 5_000], (640, 4_360));
    way.grants(&mut c, "RCID 1, the rest of the pool", [1, 0, 5_000], (640, 760));
    way.grants(&mut c, "RCID 0, no more", [0, 1, 1], (0, 0));
    c.end_window();
    way.grants(&mut c, "RCID 1 comes first", [1, 0, 5_000], (640, 4_360));
    way.grants(&mut c, "RCID 0, its own and the rest", [0, 0, 5_000], (640, 760));
}

/// Every block is reserved: a weight is of no use.
fn no_pool(report: &mut Report, way: Way) {
    let mut c = BandwidthCase::after_reset(report, [80, 80, 4, 2, 4, 64, 24]);
    way.grants(&mut c, "in part from the reservation", [0, 0, 5_121], (5_120, 0));
    way.grants(&mut c, "nothing", [0, 1, 1], (0, 0));
}

/// 65,535 blocks of 65,536 bytes, one of them reserved: the counter has the sum, 255 times 2^24 and
/// 16,711,680.
fn largest(report: &mut Report, way: Way) {
    let mut c = BandwidthCase::after_reset(report, [65_535, 65_535, 1, 1, 3, 65_536, 24]);
    c.configure("one block", (0, 0), 0x0FF0_0001, 1);
    c.end_window();
    c.mon("MCID 2 counts all bytes", 0x10_0201, 1);
    way.grants(&mut c, "all", [0, 0, ALL], (65_536, 4_294_836_224));
    c.word("the sum is counted", COUNTERS, 2, 0x8000_0000_00FF_0000);
}
