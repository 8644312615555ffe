//! One controller worked through: rules P1 to P12, and the listing as calls.

use super::case::bandwidth_record::POOL;
use super::case::BandwidthCase;
use super::Report;
use crate::model::bandwidth::slices::{COUNTERS, RECORD, USED};

const SETUP: [u64; 7] = [100, 80, 4, 2, 4, 64, 24];

pub fn run(report: &mut Report) {
    p1_to_p10(report);
    p11(report);
    p12(report);
    listing(report);
}

fn p1_to_p10(report: &mut Report) {
    let mut c = BandwidthCase::after_reset(report, SETUP);
    c.read("P1 capabilities", 8, 0x00, 0x0000_0050_0000_6401);

    c.operates("P2 STATUS 5", 10, 0x101, 0x0000_0005_0000_0101);
    c.operates("P3 RCID 0 to 30", 30, 1, 0x0000_0001_0000_0001);
    c.operates("P4 RCID 1 to 30, weight 5", 0x0050_001E, 0x101, 0x0000_0001_0000_0101);
    c.operates("P5 RCID 2 to 21", 21, 0x201, 0x0000_0005_0000_0201);
    c.operates("P5 RCID 2 to 20", 20, 0x201, 0x0000_0001_0000_0201);

    c.write(8, 0x18, 0x401);
    c.read("P6 RCID 4", 8, 0x18, 0x0000_0003_0000_0401);
    c.write(8, 0x18, 0x403);
    c.read("P6 OP comes first", 8, 0x18, 0x0000_0002_0000_0403);

    c.operates("P7 AT 1 shares AT 0", 0x8000_0000, 0x121, 0x0000_0001_0000_0121);
    c.operates("P7 AT 1 shares itself", 0x9000_0000, 0x121, 0x0000_0005_0000_0121);

    p8_to_p10(&mut c);
}

fn p8_to_p10(c: &mut BandwidthCase) {
    c.request("P8 before the window end", [1, 0, 0, 0, 10], (0, 0));

    c.end_window();
    c.request("P9 RCID 1 AT 1", [1, 0, 1, 0, 2_000], (1_920, 80));
    c.word("P9 from the reservation of AT 0", USED, 2, 1_920);
    c.word("P9 from the pool", RECORD, POOL, 80);

    c.mon("P10 event 1 of MCID 2", 0x10_0201, 1);
    c.read("P10 mon_ctl", 8, 0x08, 0x0000_0001_0010_0201);
    c.mon("P10 event 4", 0x40_0201, 4);
    c.read("P10 mon_ctl", 8, 0x08, 0x0000_0004_0040_0201);

    // not in the paper: the pool of 1,280 has 1,200 left, and then nothing
    c.request("after P9, the rest of the pool", [1, 0, 1, 0, 1_300], (0, 1_200));
    c.request("after P9, nothing is left", [1, 0, 0, 0, 1], (0, 0));
    c.request("after P9, another's reservation is whole", [2, 0, 0, 0, 1_280], (1_280, 0));
}

/// The counter is written into the lent table.
fn p11(report: &mut Report) {
    let mut c = BandwidthCase::after_reset(report, SETUP);
    c.mon("P11 event 1 of MCID 3", 0x10_0301, 1);
    c.store(COUNTERS, 3, 16_777_000);
    c.request("P11 grant", [0, 3, 0, 0, 300], (300, 0));
    c.word("P11 counter", COUNTERS, 3, 0x8000_0000_0000_0054);
    c.mon("P11 READ_COUNTER", 0x302, 1);
    c.read("P11 mon_ctr_val", 8, 0x10, 0x8000_0000_0000_0054);
    c.read("P11 OVF in the high half", 4, 0x14, 0x8000_0000);
}

fn p12(report: &mut Report) {
    let mut c = BandwidthCase::after_reset(report, [100, 80, 4, 1, 4, 64, 24]);
    c.write(8, 0x18, 0x121);
    c.read("P12 the low half", 4, 0x18, 0x101);
    c.read("P12 bw_alloc is 0, so STATUS 5", 8, 0x18, 0x0000_0005_0000_0101);
}

/// s 100 80 4 2 4 64 24 · w 8 20 1e · w 8 18 1 · r 8 18 · q 1 0 0 0 10 · e
fn listing(report: &mut Report) {
    let mut c = BandwidthCase::after_reset(report, SETUP);
    c.operates("listing, r 8 18", 0x1e, 1, 0x0000_0001_0000_0001);
    c.request("listing, q 1 0 0 0 10", [1, 0, 0, 0, 10], (0, 0));
    c.end_window();
}
