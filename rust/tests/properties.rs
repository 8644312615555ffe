//! Random calls on random set-ups, from a fixed seed: a refused call changes
//! nothing, what the getters show is what a driver reads, a grant tells where its
//! bytes came from, a device's request is one with the identifiers of its word, a
//! controller restored from its saved buffers is the same one, and the holders of
//! an RCID have one weight.

use cbqri::registers as reg;
use cbqri::{Bandwidth, BandwidthSetup, Capacity, CapacitySetup, Counter, Grant, Kind};
use cbqri::{Refusal, Setting, Status};

mod random;
use random::Random;

impl Random {
    /// Size, offset and value of a write, at times a refused one.
    fn write(&mut self, nr: u64, na: u64, nm: u64, operand: u64) -> (u64, u64, u64) {
        let (op, at) = (1 + self.about(2), self.about(na));
        let event = self.below(5);
        let (offset, value) = match self.below(5) {
            0 | 1 => (32, operand),
            2 | 3 => (24, reg::alloc_ctl(op, at, self.about(nr))),
            _ => (8, reg::mon_ctl(op, at, self.about(nm), event, self.below(2) == 1)),
        };
        match self.below(30) {
            0 => (2, offset, value),
            1 => (8, offset + 4, value),
            2 => (4, offset, value | 1 << 32),
            _ => (8, offset, value),
        }
    }
}

/// The number of a counter's register word.
fn counter_word(counter: Counter, invalid: u64) -> u64 {
    let flag = |set, bit| if set { bit } else { 0 };
    counter.value | flag(counter.invalid, invalid) | flag(counter.overflowed, 1 << 63)
}

fn setting_word(setting: Option<Setting>) -> u64 {
    match setting {
        None => 0,
        Some(Setting::Holder { rbwb, mweight }) => reg::holder(rbwb, mweight),
        Some(Setting::Sharer { shared_at }) => reg::sharer(shared_at.into()),
    }
}

fn bandwidth_call(bw: &mut Bandwidth, random: &mut Random) -> Result<(), Refusal> {
    let BandwidthSetup { mrbwb, nr, na, nm, .. } = bw.setup();
    match random.below(14) {
        0 => bw.end_window(),
        1 => bw.wait(random.about(nr), random.about(nm), 0, Kind::Read, random.below(9) as u32),
        2 => bw.need(random.about(nr)).map(|_| ()),
        3..=5 => {
            let kind = if random.below(2) == 0 { Kind::Read } else { Kind::Write };
            let (rcid, mcid, at) = (random.about(nr), random.about(nm), random.about(na));
            bw.request(rcid, mcid, at, kind, random.below(5000) as u32).map(|_| ())
        }
        _ => {
            let holder = reg::holder(random.about(mrbwb) as u16, random.below(3) as u8);
            let operand = if random.below(4) == 0 { reg::sharer(random.about(na)) } else { holder };
            let (size, offset, value) = random.write(nr, na, nm, operand);
            bw.write(size, offset, value)
        }
    }
}

/// What a driver reads of a pair and of a counter is what the getters show.
fn bandwidth_reads(bw: &Bandwidth, random: &mut Random) {
    let BandwidthSetup { nr, na, nm, .. } = bw.setup();
    let (rcid, at, mcid) = (random.below(nr), random.below(na), random.below(nm));
    let mut driver = bw.clone();
    driver.write(8, reg::ALLOC_CTL, reg::alloc_ctl(reg::READ_LIMIT, at, rcid)).unwrap();
    driver.write(8, reg::MON_CTL, reg::mon_ctl(reg::READ_COUNTER, 0, mcid, 0, false)).unwrap();
    assert_eq!(driver.read(8, reg::BW_ALLOC), Ok(setting_word(bw.configured(rcid, at))));
    let counter = counter_word(bw.counter(mcid).unwrap(), reg::BANDWIDTH_INVALID);
    assert_eq!(driver.read(8, reg::MON_CTR_VAL), Ok(counter));
    driver.end_window().unwrap();
    assert_eq!(driver.active(rcid, at), bw.configured(rcid, at));
    assert_eq!((bw.active(nr, 0), bw.configured(0, na), bw.counter(nm)), (None, None, None));
}

/// Bytes that the pool gave in this window.
fn pool_gave(bw: &Bandwidth) -> u64 {
    u64::from_le_bytes(bw.buffers().record[88..].try_into().unwrap())
}

/// A request's reserved bytes are what its holder has left of what is asked, and its pool bytes come
/// from the pool, at weight 0 none. Gives the place of the grant's kind: 1 for reserved bytes and 2
/// for pool bytes, added up.
fn grants(bw: &Bandwidth, random: &mut Random) -> usize {
    let BandwidthSetup { nr, na, nm, q, .. } = bw.setup();
    let (rcid, mcid, at) = (random.below(nr), random.below(nm), random.below(na));
    let bytes = random.below(5000);
    let mut after = bw.clone();
    let grant = after.request(rcid, mcid, at, Kind::Read, bytes as u32).unwrap();
    let holder = match bw.active(rcid, at) {
        Some(Setting::Sharer { shared_at }) => shared_at.into(),
        _ => at,
    };
    let used = |bw: &Bandwidth| bw.used(rcid, holder).unwrap();
    match bw.active(rcid, holder) {
        Some(Setting::Holder { rbwb, mweight }) => {
            assert_eq!(grant.reserved, bytes.min(u64::from(rbwb) * q - used(bw)));
            assert!(mweight != 0 || grant.pool == 0);
        }
        _ => assert_eq!(grant, Grant::default()),
    }
    assert!(grant.sum() <= bytes);
    assert_eq!(used(&after), used(bw) + grant.reserved);
    assert_eq!(pool_gave(&after), pool_gave(bw) + grant.pool);
    usize::from(grant.reserved > 0) + 2 * usize::from(grant.pool > 0)
}

/// A device's request grants and leaves what a request with the identifiers of its word does,
/// whatever the other bits are.
fn device_requests(bw: &Bandwidth, random: &mut Random) {
    let BandwidthSetup { nr, na, nm, .. } = bw.setup();
    let (rcid, mcid, at) = (random.about(nr), random.about(nm), random.about(na));
    let (other, bytes) = (random.below(u64::MAX), random.below(5000) as u32);
    let qosid = reg::iommu_qosid(rcid, mcid) | other & !reg::iommu_qosid(!0, !0);
    let ta = reg::dc_ta(rcid, mcid) | other & !reg::dc_ta(!0, !0);
    let mut after = bw.clone();
    let by_register = after.request(rcid, mcid, at, Kind::Write, bytes);
    let by_context = by_register.map_err(|_| Refusal::DeviceContext);
    for (mode, word, granted) in [
        (reg::IOMMU_OFF, qosid, by_register),
        (reg::IOMMU_BARE, qosid, by_register),
        (reg::IOMMU_DIRECTORY, ta, by_context),
        (u64::MAX - other / 2, ta, by_context),
    ] {
        let mut device = bw.clone();
        assert_eq!(device.device_request(mode, word, at, Kind::Write, bytes), granted);
        assert_eq!(device, after);
    }
}

fn capacity_call(cc: &mut Capacity, random: &mut Random) -> Result<(), Refusal> {
    let CapacitySetup { ncblks, nr, na, nm, u, .. } = cc.setup();
    let (rcid, mcid, at) = (random.about(nr), random.about(nm), random.about(na));
    match random.below(6) {
        0 | 1 => cc.fill(rcid, mcid, at, random.about(ncblks * u)).map(|_| ()),
        2 => cc.evict(random.about(ncblks * u)),
        _ => {
            let operand = random.below(1 << ncblks);
            let (size, offset, value) = random.write(nr, na, nm, operand);
            cc.write(size, offset, value)
        }
    }
}

fn capacity_reads(cc: &Capacity, random: &mut Random) {
    let CapacitySetup { nr, na, nm, .. } = cc.setup();
    let (rcid, at, mcid) = (random.below(nr), random.below(na), random.below(nm));
    let mut driver = cc.clone();
    driver.write(8, reg::ALLOC_CTL, reg::alloc_ctl(reg::READ_LIMIT, at, rcid)).unwrap();
    driver.write(8, reg::MON_CTL, reg::mon_ctl(reg::READ_COUNTER, 0, mcid, 0, false)).unwrap();
    assert_eq!(driver.read(8, reg::BLOCK_MASK).ok(), cc.mask(rcid, at));
    let counter = counter_word(cc.counter(mcid).unwrap(), reg::CAPACITY_INVALID);
    assert_eq!(driver.read(8, reg::MON_CTR_VAL), Ok(counter));
    assert_eq!((cc.mask(nr, 0), cc.mask(0, na), cc.counter(nm)), (None, None, None));
}

/// A macro and not a function, since the controllers have no type in common.
macro_rules! check_call {
    ($controller:expr, $type:ident, $call:expr, $random:expr) => {{
        let before = $controller.clone();
        let refused = $call(&mut $controller, $random).is_err();
        assert!(!refused || $controller == before);
        assert_eq!($type::from_buffers($controller.buffers().clone()).as_ref(), Ok(&$controller));
        refused
    }};
}

#[test]
fn random_calls() {
    let mut random = Random(2023);
    let mut refused = 0;
    let mut kinds = [0; 4];
    for _ in 0..150 {
        let (nr, na, nm) = (1 + random.below(6), 1 + random.below(4), 1 + random.below(6));
        let setup = BandwidthSetup { nbwblks: 100, mrbwb: 90, nr, na, nm, q: 64, w: 24 };
        let mut bw = Bandwidth::new(setup).unwrap();
        assert_eq!(bw.setup(), setup);
        let (ncblks, u) = (1 + random.below(40), 1 + random.below(4));
        let setup = CapacitySetup { ncblks, nr, na, nm, w: 24, u };
        let mut cc = Capacity::new(setup).unwrap();
        assert_eq!(cc.setup(), setup);
        for _ in 0..100 {
            refused += u32::from(check_call!(bw, Bandwidth, bandwidth_call, &mut random));
            refused += u32::from(check_call!(cc, Capacity, capacity_call, &mut random));
            bandwidth_reads(&bw, &mut random);
            kinds[grants(&bw, &mut random)] += 1;
            device_requests(&bw, &mut random);
            capacity_reads(&cc, &mut random);
        }
    }
    assert!((1000..15000).contains(&refused), "{refused} of 30,000 calls were refused");
    assert!(kinds.iter().all(|count| *count >= 50), "{kinds:?} of each kind of grant");
}

/// In force and configured, all holders of an RCID have one weight.
fn one_weight(bw: &Bandwidth) {
    type Getter = fn(&Bandwidth, u64, u64) -> Option<Setting>;
    let BandwidthSetup { nr, na, .. } = bw.setup();
    for get in [Bandwidth::active as Getter, Bandwidth::configured] {
        for rcid in 0..nr {
            let mut weights = (0..na).filter_map(|at| match get(bw, rcid, at)? {
                Setting::Holder { mweight, .. } => Some(mweight),
                Setting::Sharer { .. } => None,
            });
            let first = weights.next();
            assert!(weights.all(|weight| Some(weight) == first), "RCID {rcid} of {bw:?}");
        }
    }
}

/// CONFIG_LIMIT of a pair; whether it is accepted.
fn set(bw: &mut Bandwidth, rcid: u64, at: u64, setting: Setting) -> bool {
    bw.write(8, reg::BW_ALLOC, setting_word(Some(setting))).unwrap();
    bw.write(8, reg::ALLOC_CTL, reg::alloc_ctl(reg::CONFIG_LIMIT, at, rcid)).unwrap();
    Status::of_alloc(bw.read(8, reg::ALLOC_CTL).unwrap()) == Some(Status::Ok)
}

/// What is configured for another pair of the RCID after an accepted setting.
fn beside(setting: Setting, other: Option<Setting>) -> Option<Setting> {
    match (setting, other) {
        (Setting::Holder { mweight, .. }, Some(Setting::Holder { rbwb, .. })) => {
            Some(Setting::Holder { rbwb, mweight })
        }
        _ => other,
    }
}

/// An accepted setting changes its pair and the weight of the RCID's other holders, in the
/// configured table alone; the number of those whose weight is another one then.
fn check_setting(bw: &mut Bandwidth, random: &mut Random) -> usize {
    let BandwidthSetup { nr, na, .. } = bw.setup();
    let (rcid, at) = (random.below(nr), random.below(na));
    let setting = match random.below(4) {
        0 => Setting::Sharer { shared_at: random.below(na) as u8 },
        _ => Setting::Holder { rbwb: random.below(9) as u16, mweight: random.below(256) as u8 },
    };
    let before = bw.clone();
    let accepted = set(bw, rcid, at, setting);
    assert_eq!(bw.buffers().active, before.buffers().active);
    let mut carried = 0;
    for pair in (0..nr).flat_map(|rcid| (0..na).map(move |at| (rcid, at))) {
        let old = before.configured(pair.0, pair.1);
        let new = match pair {
            _ if !accepted => old,
            _ if pair == (rcid, at) => Some(setting),
            _ if pair.0 == rcid => beside(setting, old),
            _ => old,
        };
        assert_eq!(bw.configured(pair.0, pair.1), new);
        carried += usize::from(pair != (rcid, at) && new != old);
    }
    carried
}

#[test]
fn one_weight_of_an_rcid() {
    let mut random = Random(2024);
    let mut carried = 0;
    for _ in 0..100 {
        let (nr, na) = (1 + random.below(4), 1 + random.below(8));
        let setup = BandwidthSetup { nbwblks: 200, mrbwb: 150, nr, na, nm: 1, q: 64, w: 24 };
        let mut bw = Bandwidth::new(setup).unwrap();
        assert!(set(&mut bw, 0, 0, Setting::Holder { rbwb: 1, mweight: 3 }));
        for _ in 0..50 {
            carried += check_setting(&mut bw, &mut random);
            one_weight(&bw);
            if random.below(5) == 0 {
                bw.end_window().unwrap();
            }
        }
    }
    assert!(carried > 1000, "{carried} weights were carried");
}

/// Buffers with two weights under an RCID, in force or configured, are refused.
#[test]
fn two_weights_of_an_rcid() {
    let setup = BandwidthSetup { nbwblks: 9, mrbwb: 8, nr: 2, na: 2, nm: 1, q: 1, w: 24 };
    let mut bw = Bandwidth::new(setup).unwrap();
    for (rcid, at) in [(0, 0), (0, 1), (1, 0)] {
        assert!(set(&mut bw, rcid, at, Setting::Holder { rbwb: 2, mweight: 3 }));
    }
    bw.end_window().unwrap();
    for (pair, refused) in [(0, true), (1, true), (2, false)] {
        let (mut active, mut configured) = (bw.buffers().clone(), bw.buffers().clone());
        active.active[4 * pair + 2] ^= 0x10; // the weight's lowest bit
        configured.configured[4 * pair + 2] ^= 0x10;
        for buffers in [active, configured] {
            let refusal = Bandwidth::from_buffers(buffers).err();
            assert_eq!(refusal, refused.then_some(Refusal::State));
        }
    }
}

/// Several threads read one controller.
#[test]
fn reads_at_the_same_time() {
    let setup = BandwidthSetup { nbwblks: 90, mrbwb: 80, nr: 16, na: 4, nm: 16, q: 64, w: 24 };
    let bw = &Bandwidth::new(setup).unwrap();
    let capabilities = bw.read(8, reg::CAPABILITIES);
    std::thread::scope(|scope| {
        for _ in 0..4 {
            scope.spawn(|| {
                for _ in 0..1000 {
                    assert_eq!(bw.read(8, reg::CAPABILITIES), capabilities);
                    assert_eq!(bw.read(8, 4), Err(Refusal::Offset));
                }
            });
        }
    });
}

/// `Debug` of the largest set-up is short, and shows what is set.
#[test]
fn debug_is_short() {
    let setup = BandwidthSetup { nbwblks: 9, mrbwb: 9, nr: 256, na: 8, nm: 256, q: 1, w: 24 };
    let shown = format!("{:?}", Bandwidth::new(setup).unwrap());
    assert!(shown.len() < 2000, "{} bytes", shown.len());
    let setup = CapacitySetup { ncblks: 64, nr: 256, na: 8, nm: 256, w: 24, u: 64 };
    assert!(format!("{:?}", Capacity::new(setup).unwrap()).len() < 2000);
}
