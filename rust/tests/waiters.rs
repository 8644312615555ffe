//! Requests that wait, on random set-ups and settings from a fixed seed: putting one to wait changes its
//! word alone, a window end serves all by the settings that come into force, and each is done by its
//! deadline whatever else is called.

mod random;

use cbqri::registers as reg;
use cbqri::{Bandwidth, BandwidthSetup, Kind, Refusal, Setting};
use random::Random;

const Q: u64 = 64;
const NBWBLKS: u64 = 100;

/// A controller whose MCID 0 counts all bytes.
fn any_controller(random: &mut Random) -> Bandwidth {
    let (nr, na) = (1 + random.below(5), 1 + random.below(3));
    let setup = BandwidthSetup { nbwblks: NBWBLKS, mrbwb: 70, nr, na, nm: 3, q: Q, w: 40 };
    let mut bw = Bandwidth::new(setup).unwrap();
    let ctl = reg::mon_ctl(reg::CONFIG_EVENT, 0, 0, reg::EVENT_BYTES, false);
    bw.write(8, reg::MON_CTL, ctl).unwrap();
    bw.write(8, reg::BW_ALLOC, reg::holder(1, 1)).unwrap();
    bw.write(8, reg::ALLOC_CTL, reg::alloc_ctl(reg::CONFIG_LIMIT, 0, 0)).unwrap();
    bw
}

/// A holder in force.
struct Holder {
    at: u64,
    blocks: u64,
    weight: u64,
}

fn holder(bw: &Bandwidth, rcid: u64, at: u64) -> Option<Holder> {
    match bw.active(rcid, at)? {
        Setting::Sharer { shared_at } => holder(bw, rcid, shared_at.into()),
        Setting::Holder { rbwb, mweight } => {
            Some(Holder { at, blocks: rbwb.into(), weight: mweight.into() })
        }
    }
}

fn pool(bw: &Bandwidth) -> u64 {
    let BandwidthSetup { nr, na, .. } = bw.setup();
    let pairs = (0..nr).flat_map(|rcid| (0..na).map(move |at| (rcid, at)));
    let own = pairs.filter_map(|(rcid, at)| Some((at, holder(bw, rcid, at)?)));
    let blocks: u64 = own.filter(|(at, holder)| *at == holder.at).map(|(_, h)| h.blocks).sum();
    (NBWBLKS - blocks) * Q
}

/// What a waiter of the state before still needs after its holder's reservation, and that holder.
fn after_reservation(before: &Bandwidth, after: &Bandwidth, rcid: u64) -> (u64, Option<Holder>) {
    let waiter = match before.waiter(rcid) {
        Some(waiter) => waiter,
        None => return (0, None),
    };
    let holder = holder(after, rcid, waiter.at.into());
    let own = holder.as_ref().map_or(0, |holder| holder.blocks * Q).min(waiter.need.into());
    if let Some(holder) = &holder {
        assert_eq!(after.used(rcid, holder.at), Some(own));
    }
    (u64::from(waiter.need) - own, holder)
}

/// A window end, by the rule: what each RCID needs after it, and what pool and counter hold. Gives the
/// number of waiters that the pool served.
fn check_window_end(bw: &mut Bandwidth) -> usize {
    let before = bw.clone();
    bw.end_window().unwrap();
    let rests: Vec<(u64, u64)> = (0..bw.setup().nr)
        .map(|rcid| after_reservation(&before, bw, rcid))
        .map(|(rest, holder)| (rest, holder.filter(|_| rest > 0).map_or(0, |h| h.weight)))
        .collect();
    let weights: u64 = rests.iter().map(|(_, weight)| weight).sum();
    let (mut given, mut counted, mut served) = (0, 0, 0);
    for (rcid, (rest, weight)) in (0..).zip(rests) {
        let part = if weight == 0 { 0 } else { rest.min(pool(bw) * weight / weights) };
        assert_eq!(bw.need(rcid), Ok(rest - part));
        if let Some(waiter) = before.waiter(rcid).filter(|waiter| waiter.mcid == 0) {
            counted += u64::from(waiter.need) - (rest - part);
        }
        given += part;
        served += usize::from(part > 0);
    }
    let gave = u64::from_le_bytes(bw.buffers().record[88..].try_into().unwrap());
    assert_eq!(gave, given);
    assert_eq!(bw.counter(0).unwrap().value, before.counter(0).unwrap().value + counted);
    served
}

/// A wait, accepted or refused in the order of the numbers; nothing but its RCID's word changes.
fn check_wait(bw: &mut Bandwidth, random: &mut Random) -> Option<(u64, u32)> {
    let BandwidthSetup { nr, na, nm, .. } = bw.setup();
    let (rcid, mcid, at) = (random.about(nr), random.about(nm), random.about(na));
    let bytes = if random.below(8) == 0 { 0 } else { random.below(9000) as u32 };
    let before = bw.clone();
    let answer = bw.wait(rcid, mcid, at, Kind::Write, bytes);
    let expected = match () {
        _ if rcid >= nr || mcid >= nm => Err(Refusal::Identifier),
        _ if before.waiter(rcid).is_some() => Err(Refusal::AlreadyWaits),
        _ if bytes == 0 => Err(Refusal::NoBytes),
        _ => Ok(()),
    };
    assert_eq!(answer, expected);
    let mut buffers = bw.buffers().clone();
    if answer.is_ok() {
        assert_eq!(bw.need(rcid), Ok(bytes.into()));
        let word = 8 * rcid as usize;
        buffers.waiters[word..word + 8].fill(0);
    }
    assert_eq!(&buffers, before.buffers());
    answer.ok().map(|()| (rcid, bytes))
}

/// A waiter since it was put to wait: its bytes, the window ends, and the fewest blocks at one of them.
struct Since {
    bytes: u64,
    ends: u64,
    blocks: u64,
}

impl Since {
    /// Whether it must be done.
    fn is_due(&self) -> bool {
        self.blocks > 0 && self.ends >= (self.bytes + self.blocks * Q - 1) / (self.blocks * Q)
    }
}

/// A setting that may be refused, of any pair.
fn set_any(bw: &mut Bandwidth, random: &mut Random) {
    let BandwidthSetup { nr, na, .. } = bw.setup();
    let (rcid, at) = (random.below(nr), random.below(na));
    let holder = reg::holder(random.below(25) as u16, random.below(4) as u8);
    let operand = if random.below(4) == 0 { reg::sharer(random.below(na)) } else { holder };
    bw.write(8, reg::BW_ALLOC, operand).unwrap();
    bw.write(8, reg::ALLOC_CTL, reg::alloc_ctl(reg::CONFIG_LIMIT, at, rcid)).unwrap();
}

/// The deadlines after a window end; gives how many were due just then.
fn check_deadlines(bw: &Bandwidth, ats: &[u64], waiting: &mut [Option<Since>]) -> usize {
    let mut met = 0;
    for (rcid, entry) in (0..).zip(waiting) {
        let since = match entry {
            Some(since) => since,
            None => continue,
        };
        let blocks = holder(bw, rcid, ats[rcid as usize]).map_or(0, |holder| holder.blocks);
        since.ends += 1;
        since.blocks = since.blocks.min(blocks);
        let (need, due) = (bw.need(rcid).unwrap(), since.is_due());
        assert!(!due || need == 0, "RCID {rcid} still needs {need} of {}", since.bytes);
        met += usize::from(due);
        if need == 0 {
            *entry = None;
        }
    }
    met
}

#[test]
fn served_by_the_rule_and_by_the_deadline() {
    let mut random = Random(2025);
    let (mut served, mut met) = (0, 0);
    for _ in 0..400 {
        let mut bw = any_controller(&mut random);
        let nr = bw.setup().nr;
        let mut waiting: Vec<Option<Since>> = (0..nr).map(|_| None).collect();
        for _ in 0..60 {
            match random.below(6) {
                0 | 1 => set_any(&mut bw, &mut random),
                2 => {
                    let (rcid, bytes) = (random.below(nr), random.below(5000) as u32);
                    bw.request(rcid, 1, 0, Kind::Read, bytes).unwrap();
                }
                3 | 4 => {
                    if let Some((rcid, bytes)) = check_wait(&mut bw, &mut random) {
                        let since = Since { bytes: bytes.into(), ends: 0, blocks: u64::MAX };
                        waiting[rcid as usize] = Some(since);
                    }
                }
                _ => {
                    let at = |rcid| bw.waiter(rcid).map_or(0, |waiter| waiter.at.into());
                    let ats: Vec<u64> = (0..nr).map(at).collect();
                    served += check_window_end(&mut bw);
                    met += check_deadlines(&bw, &ats, &mut waiting);
                }
            }
        }
    }
    assert!(served > 500, "the pool served {served} waiters");
    assert!(met > 100, "{met} deadlines were due");
}

/// Buffers with a word of waiters that no call stores are refused.
#[test]
fn words_that_no_call_stores() {
    let setup = BandwidthSetup { nbwblks: 9, mrbwb: 8, nr: 2, na: 2, nm: 3, q: 1, w: 24 };
    let bw = Bandwidth::new(setup).unwrap();
    let words: [(u64, bool); 7] = [
        (1, false),
        (0x0902_ffff_ffff, false), // MCID 2, AT 1, a write
        (0x0800_0000_0000, true),  // no need
        (0x0003_0000_0001, true),  // MCID 3
        (0x0200_0000_0001, true),  // AT 2
        (0x1000_0000_0001, true),  // bit 44
        (1 << 63 | 1, true),
    ];
    for (word, refused) in words {
        let mut buffers = bw.buffers().clone();
        buffers.waiters[8..].copy_from_slice(&word.to_le_bytes());
        let refusal = Bandwidth::from_buffers(buffers).err();
        assert_eq!(refusal, refused.then_some(Refusal::State), "{word:#x}");
    }
}
