//! Requests of devices through the IOMMU: identifiers by mode and word, with numbers by hand.

use super::case::bandwidth_record::*;
use super::case::{device_request, BandwidthCase};
use super::forms::good_state;
use super::refusals::{lengths_first, one_to_three_first};
use super::Report;
use crate::model::bandwidth::slices::*;

const SETUP: [u64; 7] = [100, 80, 4, 2, 4, 64, 24];

const OFF: u64 = 0;
const BARE: u64 = 1;
/// Every number but 0 and 1 is a device directory.
const DIRECTORIES: [u64; 9] =
    [2, 3, 4, 256, 257, 1 << 32, (1 << 32) + 1, 1 << 63, 0xFFFF_FFFF_FFFF_FFFF];

pub fn run(report: &mut Report) {
    iommu_qosid_fields(report);
    device_context_fields(report);
    every_bit(report);
    modes(report);
    unknown_identifiers(report);
    order(report);
    p9_by_a_device(report);
    grants(report);
    counters(report);
}

/// 256 RCIDs and 256 MCIDs. RCID n reserves n + 1 bytes with weight 0, and every counter counts all
/// bytes: a grant tells the RCID, and the counter that has it the MCID.
fn all_identifiers(report: &mut Report) -> BandwidthCase<'_> {
    let mut c = BandwidthCase::after_reset(report, [65_535, 65_535, 256, 1, 256, 1, 24]);
    for number in 0..256 {
        c.store(ACTIVE, number, number as u64 + 1);
        c.store(CONFIGURED, number, number as u64 + 1);
        c.store(EVENTS, number, 1);
    }
    c
}

/// Expects a device's request to be one of this RCID and MCID.
fn names(c: &mut BandwidthCase, name: &str, mode: u64, word: u64, (rcid, mcid): (u64, u64)) {
    c.aside(|c| {
        c.device_request(name, [mode, word, 0, 0, 1_000], (rcid + 1, 0));
        c.word(&format!("{name}, RCID"), USED, rcid as usize, rcid + 1);
        c.word(&format!("{name}, MCID"), COUNTERS, mcid as usize, rcid + 1);
    });
}

fn refuses(c: &mut BandwidthCase, name: &str, mode: u64, word: u64, number: u64) {
    c.refuses(name, &device_request([mode, word, 0, 0, 1_000]), number);
}

/// RCID 11:0 and MCID 27:16, where the IOMMU is off or bare.
fn iommu_qosid_fields(report: &mut Report) {
    let mut c = all_identifiers(report);
    let named = [
        ("no bit", 0x0000_0000, (0, 0)),
        ("RCID, lowest bit", 0x0000_0001, (1, 0)),
        ("RCID 255", 0x0000_00FF, (255, 0)),
        ("MCID, lowest bit", 0x0001_0000, (0, 1)),
        ("MCID 255", 0x00FF_0000, (0, 255)),
        ("both", 0x00A5_005A, (90, 165)),
        ("all other bits", 0xFFFF_FFFF_F000_F000, (0, 0)),
        ("all other bits, RCID 1, MCID 2", 0xFFFF_FFFF_F002_F001, (1, 2)),
        ("others in DC.ta", 0x0040_0300_0002_0001, (1, 2)),
    ];
    let refused = [
        ("RCID, highest bit", 0x0000_0800),
        ("RCID 256", 0x0000_0100),
        ("RCID 4,095", 0x0000_0FFF),
        ("MCID, highest bit", 0x0800_0000),
        ("MCID 256", 0x0100_0000),
        ("MCID 4,095", 0x0FFF_0000),
        ("every bit", 0xFFFF_FFFF_FFFF_FFFF),
    ];
    for mode in [OFF, BARE] {
        named.iter().for_each(|&(name, word, pair)| names(&mut c, name, mode, word, pair));
        refused.iter().for_each(|&(name, word)| refuses(&mut c, name, mode, word, 7));
    }
}

/// RCID 51:40 and MCID 63:52 of DC.ta, where a device directory is used.
fn device_context_fields(report: &mut Report) {
    let mut c = all_identifiers(report);
    let named = [
        ("no bit", 0x0000_0000_0000_0000, (0, 0)),
        ("RCID, lowest bit", 0x0000_0100_0000_0000, (1, 0)),
        ("RCID 255", 0x0000_FF00_0000_0000, (255, 0)),
        ("MCID, lowest bit", 0x0010_0000_0000_0000, (0, 1)),
        ("MCID 255", 0x0FF0_0000_0000_0000, (0, 255)),
        ("both", 0x0A50_5A00_0000_0000, (90, 165)),
        ("all other bits", 0x0000_00FF_FFFF_FFFF, (0, 0)),
        ("all other bits, RCID 1, MCID 2", 0x0020_01FF_FFFF_FFFF, (1, 2)),
        ("others in iommu_qosid", 0x0020_0100_0004_0003, (1, 2)),
    ];
    let refused = [
        ("RCID, highest bit", 0x0008_0000_0000_0000),
        ("RCID 256", 0x0001_0000_0000_0000),
        ("RCID 4,095", 0x000F_FF00_0000_0000),
        ("MCID, highest bit", 0x8000_0000_0000_0000),
        ("MCID 256", 0x1000_0000_0000_0000),
        ("MCID 4,095", 0xFFF0_0000_0000_0000),
        ("every bit", 0xFFFF_FFFF_FFFF_FFFF),
    ];
    for mode in [2, 3, u64::MAX] {
        named.iter().for_each(|&(name, word, pair)| names(&mut c, name, mode, word, pair));
        refused.iter().for_each(|&(name, word)| refuses(&mut c, name, mode, word, 9));
    }
}

/// Each of the 64 bits alone. The highest four of a field lead beyond 255.
fn every_bit(report: &mut Report) {
    let mut c = all_identifiers(report);
    for bit in 0..64 {
        let (name, word) = (format!("bit {bit} alone"), 1 << bit);
        for mode in [OFF, BARE] {
            match bit {
                0..=7 => names(&mut c, &name, mode, word, (1 << bit, 0)),
                16..=23 => names(&mut c, &name, mode, word, (0, 1 << (bit - 16))),
                8..=11 | 24..=27 => refuses(&mut c, &name, mode, word, 7),
                _ => names(&mut c, &name, mode, word, (0, 0)),
            }
        }
        match bit {
            40..=47 => names(&mut c, &name, 2, word, (1 << (bit - 40), 0)),
            52..=59 => names(&mut c, &name, 2, word, (0, 1 << (bit - 52))),
            48..=51 | 60..=63 => refuses(&mut c, &name, 2, word, 9),
            _ => names(&mut c, &name, 2, word, (0, 0)),
        }
    }
}

/// One word with RCID 1 and MCID 2 in iommu_qosid's fields, RCID 3 and MCID 4 in those of DC.ta.
fn modes(report: &mut Report) {
    let mut c = all_identifiers(report);
    let word = 0x0040_0300_0002_0001;
    names(&mut c, "off", OFF, word, (1, 2));
    names(&mut c, "bare", BARE, word, (1, 2));
    for mode in DIRECTORIES {
        names(&mut c, &format!("directory, mode {mode:#x}"), mode, word, (3, 4));
    }
}

/// NR is 4 and NM 3. Each word has the same identifiers by both layouts, but for the last two.
fn unknown_identifiers(report: &mut Report) {
    let mut c = BandwidthCase::after_reset(report, [100, 80, 4, 2, 3, 64, 24]);
    let words = [
        ("the last ones", 0x0020_0300_0002_0003, [0, 0]),
        ("RCID 4 of 4", 0x0020_0400_0002_0004, [7, 9]),
        ("MCID 3 of 3", 0x0030_0300_0003_0003, [7, 9]),
        ("RCID 4 of 4, MCID 3 of 3", 0x0030_0400_0003_0004, [7, 9]),
        ("RCID 4,095", 0x000F_FF00_0000_0FFF, [7, 9]),
        ("MCID 4,095", 0xFFF0_0000_0FFF_0000, [7, 9]),
        ("unknown by DC.ta alone", 0xFFFF_FF00_0002_0003, [0, 9]),
        ("unknown by iommu_qosid alone", 0x0020_0300_0FFF_0FFF, [7, 0]),
    ];
    for (name, word, [register, context]) in words {
        let bare = [(OFF, register), (BARE, register)];
        let directories = DIRECTORIES.map(|mode| (mode, context));
        for (mode, number) in bare.into_iter().chain(directories) {
            for bytes in [0, 10] {
                let call = device_request([mode, word, 0, 0, bytes]);
                match number {
                    0 => c.answers(name, &call, 0),
                    number => c.refuses(name, &call, number),
                }
            }
        }
    }
}

/// Faults are added one before another in the order of checking; with known identifiers too.
fn order(report: &mut Report) {
    let mut c = BandwidthCase::after_reset(report, SETUP);
    for (mode, number) in [(OFF, 7), (BARE, 7), (2, 9), (u64::MAX, 9)] {
        let unknown = device_request([mode, u64::MAX, 0, 0, 1]);
        c.refuses("7 or 9", &unknown, number);
        for call in [unknown, device_request([mode, 0, 0, 0, 1])] {
            one_to_three_first(&mut c, &call);
        }
    }
    lengths_first(&mut c, &[BARE, 2].map(|mode| device_request([mode, 0, 0, 0, 1])));
}

/// P9's situation: RCID 1 has 1,920 bytes for both access types, and the pool 1,280.
fn p9_by_a_device(report: &mut Report) {
    let mut c = good_state(report);
    c.mon("event 1 of MCID 2", 0x10_0201, 1);
    let words = [(OFF, 0x0002_0001), (BARE, 0x0002_0001), (2, 0x0020_0100_0000_0000)];
    for (mode, word) in words {
        c.aside(|c| {
            c.device_request("RCID 1 MCID 2 AT 1", [mode, word, 1, 0, 2_000], (1_920, 80));
            c.word("from the reservation of AT 0", USED, 2, 1_920);
            c.word("from the pool", RECORD, POOL, 80);
            c.word("counted", COUNTERS, 2, 2_000);
            c.device_request("the rest of the pool", [mode, word, 1, 0, 1_300], (0, 1_200));
            c.device_request("nothing is left", [mode, word, 0, 0, 1], (0, 0));
            c.request("nor for others of RCID 1", [1, 0, 0, 0, 1], (0, 0));
            c.word("all that was granted", COUNTERS, 2, 3_200);
        });
    }
}

/// RCID 0 has 1,920 bytes and no weight; RCID 2 has 1,280 for AT 0 alone; RCID 3 has nothing.
fn grants(report: &mut Report) {
    let mut c = good_state(report);
    let all = 0xFFFF_FFFF;
    c.device_request("weight 0, by its sharer", [BARE, 0, 1, 0, 2_000], (1_920, 0));
    c.device_request("an unset RCID", [OFF, 3, 0, 0, 10], (0, 0));
    c.device_request("an unset AT", [2, 0x0000_0200_0000_0000, 1, 0, 10], (0, 0));
    c.device_request("AT 2 of 2 counts as 0", [2, 0x0000_0200_0000_0000, 2, 0, 1_000], (1_000, 0));
    c.request("a request finds what a device left", [2, 0, 0, 0, 200], (200, 0));
    c.device_request("so does 2^32 + 1, what is left", [BARE, 2, (1 << 32) + 1, 0, 200], (80, 0));
    c.word("used by RCID 2", USED, 4, 1_280);
    c.device_request("0 bytes", [3, 0x0000_0100_0000_0000, 0, 0, 0], (0, 0));
    c.device_request("reservation and pool", [3, 0x0000_0100_0000_0000, 0, 0, all], (1_920, 1_280));
    c.word("the pool gave all", RECORD, POOL, 1_280);
    c.end_window();
    c.device_request("whole again", [OFF, 1, 1, 0, all], (1_920, 1_280));
}

/// A counter goes by a device's own AT, and by read or write, as for any request.
fn counters(report: &mut Report) {
    let mut c = BandwidthCase::after_reset(report, SETUP);
    c.mon("MCID 0: event 1, AT 1", 0x1010_0021, 1);
    c.mon("MCID 1: event 1, AT 0", 0x1010_0101, 1);
    c.mon("MCID 2: reads", 0x20_0201, 1);
    c.mon("MCID 3: writes", 0x30_0301, 1);
    c.device_request("AT 1 shares AT 0", [OFF, 0, 1, 0, 10], (10, 0));
    c.device_request("AT 0", [BARE, 0, 0, 0, 100], (100, 0));
    c.word("only AT 1", COUNTERS, 0, 10);
    c.device_request("AT 1", [BARE, 0x0001_0000, 1, 0, 20], (20, 0));
    c.device_request("AT 2 counts as 0", [BARE, 0x0001_0000, 2, 0, 200], (200, 0));
    c.word("only AT 0", COUNTERS, 1, 200);
    c.device_request("a read", [2, 0x0020_0000_0000_0000, 0, 0, 30], (30, 0));
    c.device_request("a write", [2, 0x0020_0000_0000_0000, 0, 1, 40], (40, 0));
    c.word("only reads", COUNTERS, 2, 30);
    c.device_request("a read", [OFF, 0x0003_0000, 0, 0, 50], (50, 0));
    c.device_request("any other kind is a write", [OFF, 0x0003_0000, 0, 1 << 63, 60], (60, 0));
    c.word("only writes", COUNTERS, 3, 60);
    c.store(COUNTERS, 3, 16_777_000);
    c.device_request("300 bytes written", [2, 0x0030_0000_0000_0000, 0, 2, 300], (300, 0));
    c.word("84 with OVF", COUNTERS, 3, 0x8000_0000_0000_0054);
}
