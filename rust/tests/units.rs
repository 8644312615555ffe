//! Units of the cache, on random set-ups and masks from a fixed seed: who owns each unit after a
//! fill, an eviction and a flush, and that a counter that counts from the reset on is the number of
//! units that its MCID owns.

mod random;

use cbqri::registers as reg;
use cbqri::{Capacity, CapacitySetup, Owner, Refusal, Status};
use random::Random;

/// A controller all of whose MCIDs count occupancy.
fn any_controller(random: &mut Random) -> Capacity {
    let (ncblks, u) = (1 + random.below(12), 1 + random.below(5));
    let (nr, na) = (1 + random.below(4), 1 + random.below(3));
    let mut cc = Capacity::new(CapacitySetup { ncblks, nr, na, nm: 3, w: 24, u }).unwrap();
    for mcid in 0..3 {
        let ctl = reg::mon_ctl(reg::CONFIG_EVENT, 0, mcid, reg::EVENT_OCCUPANCY, false);
        cc.write(8, reg::MON_CTL, ctl).unwrap();
    }
    cc
}

fn owners(cc: &Capacity) -> Vec<Option<Owner>> {
    let CapacitySetup { ncblks, u, .. } = cc.setup();
    (0..ncblks * u).map(|unit| cc.owner(unit)).collect()
}

/// CONFIG_LIMIT of any pair with any mask.
fn set_any(cc: &mut Capacity, random: &mut Random) {
    let CapacitySetup { ncblks, nr, na, .. } = cc.setup();
    let (rcid, at) = (random.below(nr), random.below(na));
    cc.write(8, reg::BLOCK_MASK, random.below(1 << ncblks)).unwrap();
    cc.write(8, reg::ALLOC_CTL, reg::alloc_ctl(reg::CONFIG_LIMIT, at, rcid)).unwrap();
}

/// A fill, allowed exactly if the pair's mask has the unit's block; gives whether it replaced an
/// owner.
fn check_fill(cc: &mut Capacity, random: &mut Random) -> bool {
    let CapacitySetup { ncblks, nr, na, nm, u, .. } = cc.setup();
    let (rcid, mcid, at) = (random.about(nr), random.about(nm), random.about(na));
    let unit = random.about(ncblks * u);
    let before = cc.clone();
    let known_at = if at < na { at } else { 0 };
    let expected = match () {
        _ if rcid >= nr || mcid >= nm => Err(Refusal::Identifier),
        _ if unit >= ncblks * u => Err(Refusal::Unit),
        _ => Ok(before.mask(rcid, known_at).unwrap() >> (unit / u) & 1 == 1),
    };
    assert_eq!(cc.fill(rcid, mcid, at, unit), expected);
    if expected != Ok(true) {
        assert_eq!(*cc, before);
        return false;
    }
    let mut after = owners(&before);
    let owner = Owner { rcid: rcid as u8, mcid: mcid as u8, at: known_at as u8 };
    let replaced = after[unit as usize].replace(owner).is_some();
    assert_eq!(owners(cc), after);
    replaced
}

/// An eviction frees its unit alone; of a free unit it changes nothing.
fn check_evict(cc: &mut Capacity, random: &mut Random) {
    let CapacitySetup { ncblks, u, .. } = cc.setup();
    let unit = random.about(ncblks * u);
    let before = cc.clone();
    let expected = if unit < ncblks * u { Ok(()) } else { Err(Refusal::Unit) };
    assert_eq!(cc.evict(unit), expected);
    if before.owner(unit).is_none() {
        assert_eq!(*cc, before);
        return;
    }
    let mut after = owners(&before);
    after[unit as usize] = None;
    assert_eq!(owners(cc), after);
}

/// A flush frees the units of its RCID alone, whatever AT it names, and leaves masks and
/// block_mask; gives how many it freed.
fn check_flush(cc: &mut Capacity, random: &mut Random) -> usize {
    let nr = cc.setup().nr;
    let (rcid, at) = (random.about(nr), random.below(8));
    let before = cc.clone();
    cc.write(8, reg::ALLOC_CTL, reg::alloc_ctl(reg::FLUSH_RCID, at, rcid)).unwrap();
    let status = Status::of_alloc(cc.read(8, reg::ALLOC_CTL).unwrap());
    assert_eq!(status, Some(if rcid < nr { Status::Ok } else { Status::BadId }));
    assert_eq!(cc.buffers().masks, before.buffers().masks);
    assert_eq!(cc.read(8, reg::BLOCK_MASK), before.read(8, reg::BLOCK_MASK));
    let all = owners(&before);
    let others = |owner: &Owner| u64::from(owner.rcid) != rcid;
    let after: Vec<Option<Owner>> = all.iter().map(|owner| owner.filter(others)).collect();
    assert_eq!(owners(cc), after);
    all.iter().zip(after).filter(|(old, new)| *old != new).count()
}

/// Each counter is valid and is the number of units that its MCID owns.
fn check_counts(cc: &Capacity) {
    let owners = owners(cc);
    for mcid in 0..3 {
        let owned = owners.iter().flatten().filter(|owner| owner.mcid == mcid).count();
        let counter = cc.counter(mcid.into()).unwrap();
        assert_eq!((counter.value, counter.invalid), (owned as u64, false), "{cc:?}");
    }
}

#[test]
fn owned_and_counted_by_the_rule() {
    let mut random = Random(2026);
    let (mut replaced, mut flushed) = (0, 0);
    for _ in 0..400 {
        let mut cc = any_controller(&mut random);
        for _ in 0..100 {
            match random.below(12) {
                0 | 1 => set_any(&mut cc, &mut random),
                2 => check_evict(&mut cc, &mut random),
                3 => flushed += check_flush(&mut cc, &mut random),
                _ => replaced += usize::from(check_fill(&mut cc, &mut random)),
            }
            check_counts(&cc);
        }
    }
    assert!(replaced > 500, "{replaced} fills replaced an owner");
    assert!(flushed > 500, "{flushed} units were flushed");
}

/// Buffers with a word of owners that no call stores are refused.
#[test]
fn words_that_no_call_stores() {
    let setup = CapacitySetup { ncblks: 2, nr: 2, na: 2, nm: 3, w: 24, u: 1 };
    let cc = Capacity::new(setup).unwrap();
    let words: [(u32, bool); 7] = [
        (0x8_0000, false),
        (0x9_0201, false), // RCID 1, MCID 2, AT 1
        (0x9_0202, true),  // RCID 2
        (0x9_0301, true),  // MCID 3
        (0xa_0201, true),  // AT 2
        (0x1_0201, true),  // not owned
        (0x18_0000, true), // bit 20
    ];
    for (word, refused) in words {
        let mut buffers = cc.buffers().clone();
        buffers.owners[4..].copy_from_slice(&word.to_le_bytes());
        let refusal = Capacity::from_buffers(buffers).err();
        assert_eq!(refusal, refused.then_some(Refusal::State), "{word:#x}");
    }
}
