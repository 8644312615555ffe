//! Pieces of calls that both controllers share.

use super::{Change, Kind, Random, Step};
use crate::controller::Controller;
use crate::model::access::{ALLOC_CTL, MON_CTL, MON_CTR_VAL};
use crate::model::registers::{AT, ATV, CONFIG_EVENT, EVT_ID, MCID, OP, RCID, READ_COUNTER};
use crate::model::{Checked, CommonCall, Sizes};

/// A list begins with any bytes in the record and tables, perhaps a call on these, and a reset.
pub fn opening<C: Controller>(random: &mut Random) -> Vec<Step<C::Call>> {
    let setup = C::setup_in_range(random);
    let mut steps = vec![lend::<C>(random, &setup)];
    if random.percent(30) {
        steps.push(Step::Call(C::any_call(random, &setup)));
    }
    steps.push(reset::<C>(setup));
    steps
}

fn reset<C: Controller>(setup: C::Setup) -> Step<C::Call> {
    Step::Call(C::Call::reset(setup))
}

/// New memory of a set-up's size with any bytes.
fn lend<C: Controller>(random: &mut Random, setup: &C::Setup) -> Step<C::Call> {
    let contents = any_bytes(random, &C::State::lengths(setup));
    Step::Lend { contents, skew: random.below(8) as usize }
}

/// A call on what cannot be used, then a reset that makes all good again.
pub fn recovery<C: Controller>(random: &mut Random) -> Vec<Step<C::Call>> {
    let setup = C::setup_in_range(random);
    let mut steps = vec![Step::Call(C::any_call(random, &setup))];
    if random.percent(60) {
        steps.push(lend::<C>(random, &setup));
        steps.push(reset::<C>(setup));
    }
    steps
}

/// A reset: of the same size, of another one with or without new memory, or out of range.
pub fn another_reset<C: Controller>(random: &mut Random, setup: &C::Setup) -> Vec<Step<C::Call>> {
    let other = C::setup_in_range(random);
    match random.below(4) {
        0 => vec![reset::<C>(*setup)],
        1 => vec![reset::<C>(other)],
        2 => vec![reset::<C>(C::setup_outside(random))],
        _ => {
            let call = Step::Call(C::any_call(random, &other));
            vec![lend::<C>(random, &other), call, reset::<C>(other)]
        }
    }
}

/// The MCID of a request or fill; where the RCID does not exist, at times none that exists either.
pub fn any_mcid(random: &mut Random, sizes: &impl Sizes, rcid: u64) -> u64 {
    let both_unknown = rcid >= sizes.nr() && random.percent(25);
    if both_unknown {
        sizes.nm()
    } else {
        random.index(sizes.nm())
    }
}

/// RCID and AT of a request or fill. Few RCIDs are set up, so low numbers come more often.
pub fn any_pair(random: &mut Random, sizes: &impl Sizes) -> (u64, u64) {
    let nr = sizes.nr();
    let rcid = if random.percent(40) { random.below(nr.min(3)) } else { random.index(nr) };
    let at = if random.percent(90) { random.below(sizes.na()) } else { random.number() };
    (rcid, at)
}

/// Sets a counter's event, makes calls that it may count, most of them for its MCID, and reads it.
pub fn monitoring<C: CommonCall>(
    random: &mut Random,
    sizes: &impl Sizes,
    last_event: u64,
    calls: impl FnOnce(&mut Random) -> Vec<Step<C>>,
    set_mcid: impl Fn(&mut C, u64),
) -> Vec<Step<C>> {
    let (na, nm) = (sizes.na(), sizes.nm());
    if random.percent(30) {
        let value = any_mon_ctl(random, na, nm, last_event);
        return vec![Step::write(value), Step::read(8, MON_CTR_VAL)];
    }
    let mcid = random.below(nm);
    let fields = event_fields(random, na, last_event);
    let mut steps = vec![Step::write(mon_ctl(random, CONFIG_EVENT, mcid, fields))];
    for mut step in calls(random) {
        if let Step::Call(call) = &mut step {
            if random.percent(80) {
                set_mcid(call, mcid);
            }
        }
        steps.push(step);
    }
    let fields = event_fields(random, na, last_event);
    steps.push(Step::write(mon_ctl(random, READ_COUNTER, mcid, fields)));
    steps.push(Step::read(8, MON_CTR_VAL));
    steps
}

/// The arguments of a write: size, offset and value.
pub type Write = (u64, u64, u64);

/// Size and offset of an access: often a good one, at times of a wrong size,
/// unaligned, ending beyond byte 40 or beyond 2^64.
pub fn access(random: &mut Random) -> (u64, u64) {
    let size = random.pick(&[4, 8]);
    match random.below(20) {
        0 => (random.pick(&[0, 1, 2, 3, 5, 6, 7, 9, 12, 16]), random.below(50)),
        1 => (size | 1 << random.below(64), 8 * random.below(5)),
        2 | 3 => (size, random.below(50)),
        4 => (size, (8 * random.below(5)) | (1 << random.below(64))),
        5 => (size, u64::MAX - random.below(17)),
        6..=12 => (4, 4 * random.below(10)),
        _ => (8, 8 * random.below(5)),
    }
}

/// Any write, with a value that often fits.
pub fn any_write(random: &mut Random) -> Write {
    let (size, offset) = access(random);
    let value = if random.percent(50) { random.number() } else { random.next() };
    if size != 4 {
        return (size, offset, value);
    }
    let excess = if random.percent(15) { 1 << random.between(32, 63) } else { 0 };
    (size, offset, value & 0xFFFF_FFFF | excess)
}

/// A write of a control register that performs an operation: whole, or the low half.
pub fn control_write(random: &mut Random, offset: u64, fields: u64) -> Write {
    if random.percent(30) {
        return (4, offset, fields);
    }
    let junk = if random.percent(30) { random.next() << 32 } else { 0 };
    (8, offset, fields | junk)
}

/// alloc_ctl with this operation and pair, and at times with bits outside the fields.
pub fn alloc_ctl(random: &mut Random, op: u64, rcid: u64, at: u64) -> Write {
    let junk = if random.percent(20) { random.below(1 << 12) << 20 } else { 0 };
    let fields = OP.place(op) | AT.place(at) | RCID.place(rcid) | junk;
    control_write(random, ALLOC_CTL, fields)
}

/// alloc_ctl with any operation and mostly an existing pair.
pub fn any_alloc_ctl(random: &mut Random, nr: u64, na: u64) -> Write {
    let op = operation(random);
    let rcid = random.field_index(nr, 12);
    let at = random.field_index(na, 3);
    alloc_ctl(random, op, rcid, at)
}

/// Mostly operation 1 or 2.
fn operation(random: &mut Random) -> u64 {
    match random.below(10) {
        0 => random.below(32),
        1 => random.pick(&[0, 3, 31]),
        2..=6 => 1,
        _ => 2,
    }
}

/// The fields of mon_ctl but MCID and OP.
#[derive(Clone, Copy)]
pub struct EventFields {
    pub event: u64,
    pub at: u64,
    pub atv: u64,
}

/// Mostly a known event, and an access type that is often filtered by.
pub fn event_fields(random: &mut Random, na: u64, last_event: u64) -> EventFields {
    let event = match random.below(12) {
        0 => 0,
        1 => last_event + 1,
        2 => random.pick(&[127, 128, 255]),
        _ => random.between(1, last_event),
    };
    let atv = random.below(2);
    EventFields { event, at: random.field_index(na, 3), atv }
}

pub fn mon_ctl(random: &mut Random, op: u64, mcid: u64, fields: EventFields) -> Write {
    let junk = if random.percent(20) { random.below(8) << 29 } else { 0 };
    let value = OP.place(op)
        | AT.place(fields.at)
        | MCID.place(mcid)
        | EVT_ID.place(fields.event)
        | ATV.place(fields.atv)
        | junk;
    control_write(random, MON_CTL, value)
}

/// mon_ctl with any operation and mostly an existing counter.
pub fn any_mon_ctl(random: &mut Random, na: u64, nm: u64, last_event: u64) -> Write {
    let op = operation(random);
    let mcid = random.field_index(nm, 12);
    let fields = event_fields(random, na, last_event);
    mon_ctl(random, op, mcid, fields)
}

/// Slices of these lengths with any bytes.
pub fn any_bytes(random: &mut Random, lengths: &[usize]) -> Vec<Vec<u8>> {
    let zero = random.percent(20);
    let mut byte = || if zero { 0 } else { random.next() as u8 };
    lengths.iter().map(|&length| (0..length).map(|_| byte()).collect()).collect()
}

/// The call with one slice cut or made longer.
pub fn wrong_length<C>(random: &mut Random, lengths: &[usize], call: C) -> Step<C> {
    let region = random.below(lengths.len() as u64) as usize;
    let right = lengths[region];
    let length = match random.below(6) {
        0 => 0,
        1 => right + 1,
        2 => right.saturating_sub(1),
        3 => right + 8,
        4 => right.saturating_sub(8),
        _ => right * 2,
    };
    Step::WrongLength { region, length, call }
}

/// One call on damaged memory; where it is refused the damage is undone.
pub fn damaged_call<C>(
    random: &mut Random,
    damage: impl Fn(&mut Random) -> Change,
    call: impl Fn(&mut Random) -> C,
) -> Vec<Step<C>> {
    let changes = vec![damage(random)];
    vec![Step::Damaged { changes, call: call(random) }]
}

/// Damage that stays, and calls on it; the next scenario finds what is left.
pub fn kept_damage<C>(
    random: &mut Random,
    damage: impl Fn(&mut Random) -> Change,
    call: impl Fn(&mut Random) -> C,
) -> Vec<Step<C>> {
    let count = random.between(1, 2);
    let changes = (0..count).map(|_| damage(random)).collect();
    let mut steps = vec![Step::Change(changes)];
    for _ in 0..random.between(1, 4) {
        steps.push(Step::Call(call(random)));
    }
    steps
}

/// A set-up's number in the record becomes one of these, at an end of its range or beyond, or any.
pub fn damaged_setup(random: &mut Random, index: usize, values: &[u64]) -> Change {
    let value = if random.percent(20) { random.number() } else { random.pick(values) };
    Change::word(0, 8, index, value)
}

/// A counter at or about 2^W, or with this bit, and with flags.
pub fn damaged_counter(
    random: &mut Random,
    region: usize,
    sizes: &impl Sizes,
    bit: u64,
    flags: u64,
) -> Change {
    let limit = 1u64 << sizes.w();
    let value = random.pick(&[0, limit - 1, limit, limit + 1, 1 << bit]);
    let flags = random.next() & flags;
    Change::word(region, 8, random.place(sizes.nm()), value | flags)
}

/// A counter setting: events up to one too many, any AT, ATV, or a bit beyond these.
pub fn damaged_event(
    random: &mut Random,
    region: usize,
    sizes: &impl Sizes,
    last_event: u64,
) -> Change {
    let value = match random.below(4) {
        0 => 1 << random.below(16),
        1 => random.next() & 0xFFFF,
        _ => {
            let at = random.below(sizes.na() + 1);
            random.below(last_event + 2) | at << 8 | random.below(2) << 11
        }
    };
    Change::word(region, 2, random.place(sizes.nm()), value)
}

/// One bit anywhere in the record or a table.
pub fn flipped_bit(random: &mut Random, lengths: &[usize]) -> Change {
    let region = random.below(lengths.len() as u64) as usize;
    let at = random.below(lengths[region].max(1) as u64) as usize;
    Change { region, at, kind: Kind::FlipBit(random.below(8) as u32) }
}
