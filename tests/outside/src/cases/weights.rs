//! The holders of an RCID have one weight: what an accepted setting carries, and refusal 3.

use super::case::bandwidth_record::*;
use super::case::{bandwidth_setup, device_request, BandwidthCase};
use super::sweep::{probe, SIZES};
use super::Report;
use crate::model::bandwidth::slices::*;
use crate::model::bandwidth::{Call, Request};

const SETUP: [u64; 7] = [100, 80, 4, 3, 4, 64, 24];

pub fn run(report: &mut Report) {
    code_and_data(report);
    after_a_reset(report);
    every_setter(report);
    sharers(report);
    other_rcids(report);
    in_force(report);
    operations_without_effect(report);
    halves(report);
    read_back(report);
    every_call_judges(report);
    order(report);
    let ends = (1..=8).flat_map(|na| [(1, na), (256, na)]);
    for (nr, na) in ends.chain(SIZES) {
        every_holder(report, nr, na);
        two_holders(report, nr, na);
    }
}

/// The words of an RCID's pairs in a table.
fn row(c: &mut BandwidthCase, name: &str, table: usize, rcid: usize, words: [u64; 3]) {
    for (at, word) in words.into_iter().enumerate() {
        c.word(name, table, 3 * rcid + at, word);
    }
}

/// RCID 0 has 10 blocks with weight 1; RCID 1 has 20 for AT 0 and 10 for AT 1, with weight 5.
fn reserved_apart(report: &mut Report) -> BandwidthCase<'_> {
    let mut c = BandwidthCase::after_reset(report, SETUP);
    c.configure("RCID 0", (0, 0), 0x0010_000A, 1);
    c.configure("RCID 1 AT 0", (1, 0), 0x0050_0014, 1);
    c.configure("RCID 1 AT 1", (1, 1), 0x0050_000A, 1);
    c
}

/// AT 0 is data, AT 1 code.
fn code_and_data(report: &mut Report) {
    let mut c = reserved_apart(report);
    c.configure("code to weight 7", (1, 1), 0x0070_000A, 1);
    row(&mut c, "data too", CONFIGURED, 1, [0x0070_0014, 0x0070_000A, 0]);
    c.configure("data to 25 blocks and weight 255", (1, 0), 0x0FF0_0019, 1);
    row(&mut c, "code too, with its 10 blocks", CONFIGURED, 1, [0x0FF0_0019, 0x0FF0_000A, 0]);
    c.configure("code to weight 0", (1, 1), 0x0000_000A, 1);
    row(&mut c, "weight 0 for both", CONFIGURED, 1, [0x0000_0019, 0x0000_000A, 0]);
    c.configure("a third holder, with sharedAT", (1, 2), 0x7AA0_0001, 1);
    c.read("bw_alloc is as written", 8, 0x20, 0x7AA0_0001);
    let words = [0x0AA0_0019, 0x0AA0_000A, 0x0AA0_0001];
    row(&mut c, "carried to two", CONFIGURED, 1, words);
    row(&mut c, "RCID 0", CONFIGURED, 0, [0x0010_000A, 0x8000_0000, 0x8000_0000]);
    row(&mut c, "nothing is in force yet", ACTIVE, 1, [0, 0, 0]);
}

/// RCID 0 begins with weight 1 and sharers.
fn after_a_reset(report: &mut Report) {
    let mut c = BandwidthCase::after_reset(report, SETUP);
    c.configure("AT 0 to 30 and weight 2", (0, 0), 0x0020_001E, 1);
    row(&mut c, "sharers stay", CONFIGURED, 0, [0x0020_001E, 0x8000_0000, 0x8000_0000]);
    c.configure("AT 1 becomes a holder", (0, 1), 0x0090_0005, 1);
    row(&mut c, "its weight is carried", CONFIGURED, 0, [0x0090_001E, 0x0090_0005, 0x8000_0000]);
    row(&mut c, "not in force", ACTIVE, 0, [0x0010_0050, 0x8000_0000, 0x8000_0000]);
}

/// Eight holders of 1 to 8 blocks: whichever is set, all have its weight and their own blocks.
fn every_setter(report: &mut Report) {
    let mut c = BandwidthCase::after_reset(report, [100, 80, 2, 8, 1, 64, 24]);
    c.configure("RCID 0", (0, 0), 0x0010_0001, 1);
    for at in 0..8 {
        c.configure("a holder of RCID 1", (1, at), at + 1, 1);
    }
    for setter in 0..8 {
        for weight in [1, 2, 4, 8, 16, 32, 64, 128, 255, 0, 170, 85] {
            c.configure("another weight", (1, setter), weight << 20 | (setter + 1), 1);
            for at in 0..8 {
                c.word("carried to all", CONFIGURED, 8 + at, weight << 20 | (at as u64 + 1));
            }
        }
    }
    c.word("RCID 0", CONFIGURED, 0, 0x0010_0001);
    c.word("its sharer", CONFIGURED, 7, 0x8000_0000);
}

fn sharers(report: &mut Report) {
    let mut c = reserved_apart(report);
    c.configure("AT 2 shares AT 0, weight 255", (1, 2), 0x8FF0_FFFF, 1);
    row(&mut c, "carries nothing", CONFIGURED, 1, [0x0050_0014, 0x0050_000A, 0x8000_0000]);
    c.configure("AT 2 shares AT 1, weight 0", (1, 2), 0x9000_0000, 1);
    row(&mut c, "carries nothing", CONFIGURED, 1, [0x0050_0014, 0x0050_000A, 0x9000_0000]);
    c.configure("AT 0 to weight 6", (1, 0), 0x0060_0014, 1);
    row(&mut c, "a sharer has none", CONFIGURED, 1, [0x0060_0014, 0x0060_000A, 0x9000_0000]);
    c.configure("AT 0 shares AT 1, weight 9", (1, 0), 0x9090_0014, 1);
    row(&mut c, "AT 1 stays", CONFIGURED, 1, [0x9000_0000, 0x0060_000A, 0x9000_0000]);
    c.configure("AT 1 to weight 3", (1, 1), 0x0030_000A, 1);
    row(&mut c, "no other holder", CONFIGURED, 1, [0x9000_0000, 0x0030_000A, 0x9000_0000]);
    c.configure("AT 0 holds again", (1, 0), 0x0080_0001, 1);
    row(&mut c, "and carries", CONFIGURED, 1, [0x0080_0001, 0x0080_000A, 0x9000_0000]);
}

/// RCIDs 0 to 3 each have two holders, with weights 1 to 4.
fn other_rcids(report: &mut Report) {
    let mut c = BandwidthCase::after_reset(report, SETUP);
    for rcid in 0..4 {
        let weight = (rcid + 1) << 20;
        c.configure("AT 0", (rcid, 0), weight | 5, 1);
        c.configure("AT 1", (rcid, 1), weight | 6, 1);
    }
    row(&mut c, "RCID 0", CONFIGURED, 0, [0x0010_0005, 0x0010_0006, 0x8000_0000]);
    row(&mut c, "RCID 1", CONFIGURED, 1, [0x0020_0005, 0x0020_0006, 0]);
    row(&mut c, "RCID 2", CONFIGURED, 2, [0x0030_0005, 0x0030_0006, 0]);
    row(&mut c, "RCID 3", CONFIGURED, 3, [0x0040_0005, 0x0040_0006, 0]);
    c.configure("RCID 2 to weight 255", (2, 1), 0x0FF0_0006, 1);
    row(&mut c, "RCID 0 stays", CONFIGURED, 0, [0x0010_0005, 0x0010_0006, 0x8000_0000]);
    row(&mut c, "RCID 1 stays", CONFIGURED, 1, [0x0020_0005, 0x0020_0006, 0]);
    row(&mut c, "RCID 2 alone", CONFIGURED, 2, [0x0FF0_0005, 0x0FF0_0006, 0]);
    row(&mut c, "RCID 3 stays", CONFIGURED, 3, [0x0040_0005, 0x0040_0006, 0]);
}

/// RCID 0 has 20 blocks, RCID 1 has 10 for AT 0 and 10 for AT 1, all with weight 0; 60 blocks, 3,840
/// bytes, are in the pool.
fn in_force(report: &mut Report) {
    let mut c = BandwidthCase::after_reset(report, SETUP);
    for (pair, blocks) in [((0, 0), 20), ((1, 0), 10), ((1, 1), 10)] {
        c.configure("weight 0", pair, blocks, 1);
    }
    c.end_window();
    c.configure("AT 1 to weight 4", (1, 1), 0x0040_000A, 1);
    row(&mut c, "configured", CONFIGURED, 1, [0x0040_000A, 0x0040_000A, 0]);
    row(&mut c, "weight 0 is in force", ACTIVE, 1, [10, 10, 0]);
    c.request("AT 0 by weight 0", [1, 0, 0, 0, 1_000], (640, 0));
    c.request("AT 1 by weight 0", [1, 0, 1, 0, 1_000], (640, 0));
    c.end_window();
    row(&mut c, "in force", ACTIVE, 1, [0x0040_000A, 0x0040_000A, 0]);
    c.request("AT 0 by the weight carried", [1, 0, 0, 0, 1_000], (640, 360));
    c.word("360 from the pool", RECORD, POOL, 360);
    c.request("AT 1 by its own", [1, 0, 1, 0, 1_000], (640, 360));
    c.configure("AT 0 to weight 0", (1, 0), 10, 1);
    c.request("AT 1 by weight 4, still in force", [1, 0, 1, 0, 100], (0, 100));
    c.word("820 from the pool", RECORD, POOL, 820);
    c.end_window();
    c.request("AT 1 by weight 0", [1, 0, 1, 0, 1_000], (640, 0));
    c.word("nothing from the pool", RECORD, POOL, 0);
}

/// Whatever does not end in STATUS 1 changes alloc_ctl alone; READ_LIMIT carries nothing.
fn operations_without_effect(report: &mut Report) {
    let mut c = reserved_apart(report);
    let refused = [
        ("61 blocks", 0x0FF0_003D, 0x101, 0x5_0000_0101),
        ("no block", 0x0FF0_0000, 0x121, 0x5_0000_0121),
        ("a third holder of 41 blocks", 0x0FF0_0029, 0x141, 0x5_0000_0141),
        ("shares itself", 0x8FF0_0000, 0x101, 0x5_0000_0101),
        ("shares an unset pair", 0xAFF0_0000, 0x121, 0x5_0000_0121),
        ("AT 3 of 3", 0x0FF0_0001, 0x161, 0x4_0000_0161),
        ("RCID 4 of 4", 0x0FF0_0001, 0x401, 0x3_0000_0401),
        ("OP 3", 0x0FF0_0001, 0x103, 0x2_0000_0103),
        ("OP 0", 0x0FF0_0001, 0x100, 0x2_0000_0100),
    ];
    for (name, operand, control, word) in refused {
        c.write(8, 0x20, operand);
        c.write_changes(name, [8, 0x18, control], &[(ALLOC_CTL_WORD, word)]);
    }
    c.write(8, 0x20, 0x0FF0_0001);
    c.alloc("READ_LIMIT", 0x122, 1);
    row(&mut c, "as before", CONFIGURED, 1, [0x0050_0014, 0x0050_000A, 0]);
}

fn halves(report: &mut Report) {
    let mut c = reserved_apart(report);
    c.write(4, 0x20, 0x0070_000A);
    c.write_changes("the high half of alloc_ctl", [4, 0x1C, 0x121], &[]);
    c.write(4, 0x18, 0x121);
    row(&mut c, "the low half carries", CONFIGURED, 1, [0x0070_0014, 0x0070_000A, 0]);
}

/// All but the weight reads back until the pair is set again, the weight until then or until a holder
/// of the RCID is set.
fn read_back(report: &mut Report) {
    let mut c = reserved_apart(report);
    c.read_limit("both parts", (1, 0), 0x0050_0014);
    c.configure("a sharer", (1, 2), 0x8FF0_0000, 1);
    c.read_limit("after a sharer", (1, 0), 0x0050_0014);
    c.configure("RCID 2", (2, 0), 0x0FF0_0001, 1);
    c.read_limit("after another RCID's holder", (1, 0), 0x0050_0014);
    c.configure("81 blocks", (1, 1), 0x0FF0_0051, 5);
    c.read_limit("after STATUS 5", (1, 0), 0x0050_0014);
    c.end_window();
    c.read_limit("after a window end", (1, 0), 0x0050_0014);
    c.configure("AT 1", (1, 1), 0x0030_0002, 1);
    c.read_limit("all but the weight after a holder", (1, 0), 0x0030_0014);
    c.read_limit("the holder itself", (1, 1), 0x0030_0002);
    c.read_limit("the sharer", (1, 2), 0x8000_0000);
    c.end_window();
    c.read_limit("the same after a window end", (1, 0), 0x0030_0014);
    c.configure("AT 0 again", (1, 0), 0x0060_0003, 1);
    c.read_limit("set again", (1, 0), 0x0060_0003);
    c.read_limit("AT 1 with its blocks", (1, 1), 0x0060_0002);
    c.answers("reset", &Call::Reset(bandwidth_setup(SETUP)), 0);
    c.read_limit("neither part is left", (1, 0), 0);
    c.read_limit("neither part is left", (1, 1), 0);
}

/// Two weights of RCID 1, in either table: every call but a reset is refused.
fn every_call_judges(report: &mut Report) {
    let mut c = reserved_apart(report);
    c.end_window();
    let request = Request { rcid: 1, mcid: 0, at: 0, kind: 0, bytes: 10 };
    let calls = [
        Call::Read { size: 8, offset: 0 },
        Call::Write { size: 8, offset: 0x20, value: 0 },
        Call::Write { size: 8, offset: 0x18, value: 0x121 },
        Call::Request(request),
        Call::Request(Request { rcid: 0, ..request }),
        device_request([0, 1, 0, 0, 10]),
        device_request([2, 0x100_0000_0000, 0, 0, 10]),
        Call::EndWindow,
    ];
    for (table, place) in [(ACTIVE, 3), (ACTIVE, 4), (CONFIGURED, 3), (CONFIGURED, 4)] {
        let word = c.load(table, place);
        c.aside(|c| {
            c.store(table, place, word ^ 0x0010_0000);
            calls.iter().for_each(|call| c.refuses("two weights", call, 3));
            c.answers("a reset", &Call::Reset(bandwidth_setup(SETUP)), 0);
            c.read("and all is well", 8, 0, 0x0000_0050_0000_6401);
            c.word("RCID 1 is unset", table, place, 0);
        });
    }
    c.read("all is well without", 8, 0, 0x0000_0050_0000_6401);
}

/// Two weights are a fault of check 3: after 1 and 2, and before those of the arguments.
fn order(report: &mut Report) {
    let mut c = reserved_apart(report);
    c.store(CONFIGURED, 4, 0x0040_000A);
    c.refuses("3 before 4", &Call::Read { size: 5, offset: 0x2A }, 3);
    c.refuses("3 before 6", &Call::Write { size: 4, offset: 0x18, value: 1 << 32 }, 3);
    let request = Request { rcid: 4, mcid: 4, at: 0, kind: 0, bytes: 1 };
    c.refuses("3 before 7", &Call::Request(request), 3);
    c.refuses("3 before 9", &device_request([2, u64::MAX, 0, 0, 1]), 3);
    c.lend_length(EVENTS, 9);
    c.refuses("2 before 3", &Call::EndWindow, 2);
    c.store(RECORD, W, 63);
    c.refuses("1 before 2", &Call::EndWindow, 1);
}

/// Every pair holds one block. RCID n has weight n configured and 255 - n in force; then one weight
/// gets another bit, which is a fault unless its holder is the RCID's only one.
fn every_holder(report: &mut Report, nr: u64, na: u64) {
    let mut c = BandwidthCase::after_reset(report, [65_535, 65_535, nr, na, 1, 1, 24]);
    for place in 0..(nr * na) as usize {
        let rcid = place as u64 / na;
        c.store(CONFIGURED, place, rcid << 20 | 1);
        c.store(ACTIVE, place, (255 - rcid) << 20 | 1);
    }
    c.read("weights by RCID and by table", 8, 0, 0xFFFF_00FF_FF01);
    let number = if na == 1 { 0 } else { 3 };
    for place in 0..(nr * na) as usize {
        let rcid = place as u64 / na;
        let is_end = rcid == 0 || rcid == nr - 1;
        for bit in (0..8).filter(|&bit| is_end || bit == place % 8 || bit == rcid as usize % 8) {
            for table in [ACTIVE, CONFIGURED] {
                let word = c.load(table, place) ^ 1 << (20 + bit);
                probe(&mut c, "another bit of a weight", &[(table, place, word)], number);
            }
        }
    }
}

/// Two pairs of the first or the last RCID hold, the rest share the first of them or are unset.
fn two_holders(report: &mut Report, nr: u64, na: u64) {
    let mut c = BandwidthCase::after_reset(report, [65_535, 65_535, nr, na, 1, 1, 24]);
    c.store(ACTIVE, 0, 0x0010_0001);
    c.store(CONFIGURED, 0, 0x0010_0001);
    let pairs = (0..na).flat_map(|b| (0..b).map(move |a| (a, b)));
    for ((a, b), table) in pairs.flat_map(|pair| [(pair, ACTIVE), (pair, CONFIGURED)]) {
        for (first, others) in [(0, 0x8000_0000 | a << 28), ((nr - 1) * na, 0)] {
            let mut words: Vec<(usize, usize, u64)> =
                (first..first + na).map(|place| (table, place as usize, others)).collect();
            words[a as usize].2 = 0x0A50_0003;
            words[b as usize].2 = 0x0A50_0002;
            probe(&mut c, "one weight", &words, 0);
            for bit in 20..28 {
                words[b as usize].2 = 0x0A50_0002 ^ 1 << bit;
                probe(&mut c, "two weights", &words, 3);
            }
        }
    }
}
