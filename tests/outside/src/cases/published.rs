//! The source's published examples (document 000, sections 3.4 and 4.5).

use super::case::{BandwidthCase, CapacityCase};
use super::Report;
use crate::model::capacity::slices::OWNERS;

pub fn run(report: &mut Report) {
    three_access_types(report);
    three_access_types_in_use(report);
    eight_blocks(report);
}

// Section 4.5: RCID 3 with AT 0: Rbwb 100, Mweight 16; AT 1: Rbwb 50, Mweight 16; AT 2 shares AT 1.
// The source gives no set-up. MRBWB 151 is exactly this and the one block that RCID 0
// must keep, since rule O4 lets a holder be lowered to 1 and not to 0. Figures 6 and 9, the
// registers, are lost: the fields stand where rules G4 to G9 put them. "N/A" is stored as 0 (rule O6).
const THREE_TYPES: [u64; 7] = [160, 151, 4, 3, 2, 64, 32];
const AT_0: u64 = 100 | 16 << 20;
const AT_1: u64 = 50 | 16 << 20;
const AT_2: u64 = 1 << 31 | 1 << 28;

fn example(report: &mut Report) -> BandwidthCase<'_> {
    let mut c = BandwidthCase::after_reset(report, THREE_TYPES);
    c.configure("RCID 0 keeps one block", (0, 0), 1, 1);
    c.configure("RCID 3 AT 0", (3, 0), AT_0, 1);
    c.configure("RCID 3 AT 1", (3, 1), AT_1, 1);
    c.configure("RCID 3 AT 2", (3, 2), AT_2, 1);
    c
}

fn three_access_types(report: &mut Report) {
    let mut c = example(report);
    c.read("capabilities", 8, 0, 0x0000_0097_0000_A001);
    c.read_limit("RCID 3 AT 0 reads back", (3, 0), 0x0100_0064);
    c.read_limit("RCID 3 AT 1 reads back", (3, 1), 0x0100_0032);
    c.read_limit("RCID 3 AT 2 reads back", (3, 2), 0x9000_0000);
    c.configure("one block more", (3, 1), 51 | 16 << 20, 5);
    // what the source calls UNSPECIFIED, rules O4 and O5 refuse
    c.configure("AT 0 shares AT 2, no holder", (3, 0), 1 << 31 | 2 << 28, 5);
    c.configure("AT 1 shares AT 0 while AT 2 shares AT 1", (3, 1), 1 << 31, 5);
}

fn three_access_types_in_use(report: &mut Report) {
    let mut c = example(report);
    c.request("before the window end", [3, 0, 2, 0, 64], (0, 0));
    c.end_window();
    // AT 1 and AT 2 have 50 blocks together, 3,200 bytes; the pool has 9 blocks, 576 bytes
    c.request("AT 2 from AT 1's blocks", [3, 0, 2, 0, 3_000], (3_000, 0));
    c.request("AT 1: 200 left and 300 of the pool", [3, 0, 1, 1, 500], (200, 300));
    c.request("AT 2: the other 276 of the pool", [3, 0, 2, 1, 500], (0, 276));
    c.request("AT 0: its own 6,400", [3, 0, 0, 0, 7_000], (6_400, 0));
    c.request("RCID 0: its one block, weight 0", [0, 0, 0, 0, 100], (64, 0));
}

// Section 3.4: NCBLKS 8, masks of RCIDs 3, 5 and 6 for two access types. The table's columns are
// blocks 7 to 0. Figures 2 and 5 are lost: the fields stand where rules G4 to G9 put them.
const MASKS: [((u64, u64), u64); 6] = [
    ((3, 0), 0b0001_1000),
    ((3, 1), 0b0001_1000),
    ((5, 0), 0b0000_0011),
    ((5, 1), 0b0000_0100),
    ((6, 0), 0b0001_1000),
    ((6, 1), 0b0001_1000),
];

fn eight_blocks(report: &mut Report) {
    let mut c = CapacityCase::after_reset(report, [8, 7, 2, 1, 24, 1]);
    c.read("capabilities, FRCID 1", 8, 0, 0x0100_0801);
    for (pair, mask) in MASKS {
        c.configure("a published mask", pair, mask, 1);
    }
    for (pair, mask) in MASKS {
        c.read_limit("a published mask reads back", pair, mask);
        for block in 0..8 {
            let allowed = if mask & (1 << block) != 0 { 1 } else { 0 };
            c.fill("a fill by the published table", [pair.0, 0, pair.1, block], allowed);
        }
    }
    c.word("block 3 is RCID 6's", OWNERS, 3, 0x0009_0006);
    c.flush("FLUSH_RCID of RCID 6", 6);
    c.word("block 3 is free", OWNERS, 3, 0);
    c.word("block 0 is RCID 5's", OWNERS, 0, 0x0008_0005);
    c.read_limit("its mask stays", (6, 0), 0b0001_1000);
}
