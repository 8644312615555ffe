//! Requests of devices: any mode, identifiers at and beyond their ends, and any other bits.

use super::super::Random;
use crate::model::bandwidth::device::{Layout, BARE, DC_TA, IOMMU_QOSID, OFF};
use crate::model::bandwidth::{Call, DeviceRequest, Request, Setup};

/// The highest number that an identifier's field holds.
const HIGHEST: u64 = 4_095;

/// The request itself, or made by a device.
pub fn made_by_any(random: &mut Random, setup: &Setup, request: Request) -> Call {
    if random.percent(70) {
        return Call::Request(request);
    }
    Call::DeviceRequest(made_by_device(random, setup, request))
}

fn made_by_device(random: &mut Random, setup: &Setup, request: Request) -> DeviceRequest {
    let Request { rcid, mcid, at, kind, bytes } = request;
    let (mode, word) = (any_mode(random), other_bits(random, setup));
    let device = DeviceRequest { mode, word, at, kind, bytes };
    let rcid = identifier(random, rcid, setup.nr);
    let mcid = identifier(random, mcid, setup.nm);
    DeviceRequest { word: with_identifiers(word, device.layout(), rcid, mcid), ..device }
}

/// Mostly one of the three kinds; at times a directory whose low bits are those of off or bare.
fn any_mode(random: &mut Random) -> u64 {
    match random.below(10) {
        0..=2 => OFF,
        3..=5 => BARE,
        6 | 7 => random.pick(&[2, 3, 4, 256, 257, 1 << 32, (1 << 32) + 1, 1 << 63, u64::MAX]),
        _ => random.number(),
    }
}

/// Mostly the number wanted, cut to the field; at times the last, the first that is not, or any.
fn identifier(random: &mut Random, wanted: u64, count: u64) -> u64 {
    match random.below(60) {
        0 => count,
        1 => HIGHEST,
        2 => random.below(HIGHEST + 1),
        3..=5 => count - 1,
        _ => wanted & HIGHEST,
    }
}

/// A word before its identifiers are put in: any bits, and at times identifiers by both layouts.
fn other_bits(random: &mut Random, setup: &Setup) -> u64 {
    let word = match random.below(4) {
        0 => 0,
        1 => u64::MAX,
        _ => random.next(),
    };
    if random.percent(50) {
        return word;
    }
    let [rcid, mcid] = [setup.nr, setup.nm].map(|count| {
        let known = random.below(count);
        random.pick(&[known, known, count])
    });
    with_identifiers(with_identifiers(word, IOMMU_QOSID, rcid, mcid), DC_TA, rcid, mcid)
}

/// The word with these identifiers instead of its own.
fn with_identifiers(word: u64, Layout { rcid: r, mcid: m }: Layout, rcid: u64, mcid: u64) -> u64 {
    word & !(r.mask() | m.mask()) | r.place(rcid) | m.place(mcid)
}

/// Lets a device's request name this MCID.
pub fn set_mcid(device: &mut DeviceRequest, mcid: u64) {
    let rcid = device.request().rcid;
    device.word = with_identifiers(device.word, device.layout(), rcid, mcid);
}
