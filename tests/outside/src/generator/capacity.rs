//! Lists of calls of the capacity controller.

mod damage;
mod states;
mod units;

use super::common;
use super::{setups, Change, Random, Step};
use crate::controller::Capacity;
use crate::model::access::{ALLOC_CTL, MON_CTR_VAL, OPERAND};
use crate::model::capacity::owners::owner_of;
use crate::model::capacity::slices::{COUNTERS, EVENTS, OWNERS};
use crate::model::capacity::{all_blocks, Call, Fill, Setup, State, LAST_EVENT};
use crate::model::registers::{CONFIG_LIMIT, FLUSH_RCID, READ_COUNTER, READ_LIMIT};
use crate::model::{Checked, CommonCall, Sizes};
use units::{any_fill, any_flush, any_unit, units};

type Steps = Vec<Step<Call>>;

/// Some steps for the state as it is. In a quiet list nobody but the calls changes the memory.
pub fn scenario(random: &mut Random, state: &State, lengths: &[usize], quiet: bool) -> Steps {
    let setup = state.record.setup;
    if state.refusal(lengths, &Call::read(8, 0)) != 0 {
        return common::recovery::<Capacity>(random);
    }
    let damage = |random: &mut Random| damage::damage(random, state, lengths);
    let call = |random: &mut Random| any_call(random, &setup);
    // large tables may be read in parts: more of what only refusal 3 can show
    let large = setup.pairs() > 32 || setup.units() > 512;
    if !quiet && large && random.percent(40) {
        return common::damaged_call(random, damage, call);
    }
    match random.below(if quiet { 87 } else { 100 }) {
        0..=19 => configuration(random, &setup),
        20..=44 => units(random, state),
        45..=62 => monitoring(random, state),
        63..=82 => vec![Step::Call(call(random))],
        83..=86 => {
            let call = call(random);
            vec![common::wrong_length(random, lengths, call)]
        }
        87..=93 => common::damaged_call(random, damage, call),
        94 => common::kept_damage(random, damage, call),
        95 | 96 => edge_of_counter(random, &setup),
        97 | 98 => states::any_loaded(random, &setup),
        _ => common::another_reset::<Capacity>(random, &setup),
    }
}

/// Any call, with arguments of every kind.
pub fn any_call(random: &mut Random, setup: &Setup) -> Call {
    let (size, offset, value) = match random.below(8) {
        0 => {
            let (size, offset) = common::access(random);
            return Call::Read { size, offset };
        }
        1 => return Call::Fill(any_fill(random, setup)),
        2 => return Call::Evict { unit: any_unit(random, setup) },
        3 if random.percent(20) => return Call::Reset(setups::capacity::outside(random)),
        3 | 4 => common::any_write(random),
        5 => common::any_alloc_ctl(random, setup.nr, setup.na),
        6 => any_flush(random, setup),
        _ => common::any_mon_ctl(random, setup.na, setup.nm, LAST_EVENT),
    };
    Call::Write { size, offset, value }
}

/// Writes a mask, whole or by halves, asks for it to be configured, and often reads it back.
fn configuration(random: &mut Random, setup: &Setup) -> Steps {
    let rcid = random.below(setup.nr);
    let at = random.below(setup.na);
    let mask = any_mask(random, setup);
    let mut steps = match random.below(4) {
        0 => vec![Step::write((4, OPERAND, mask & 0xFFFF_FFFF))],
        1 => vec![Step::write((4, OPERAND + 4, mask >> 32))],
        _ => vec![Step::write((8, OPERAND, mask))],
    };
    steps.push(Step::write(common::alloc_ctl(random, CONFIG_LIMIT, rcid, at)));
    if random.percent(30) {
        steps.push(Step::read(8, ALLOC_CTL));
    }
    if random.percent(40) {
        let other = random.below(setup.nr);
        let rcid = random.pick(&[rcid, rcid, other]);
        steps.push(Step::write(common::alloc_ctl(random, READ_LIMIT, rcid, at)));
        let half = random.pick(&[(8, OPERAND), (4, OPERAND), (4, OPERAND + 4)]);
        steps.push(Step::read(half.0, half.1));
    }
    steps
}

/// A mask that often has bits at or above NCBLKS too.
fn any_mask(random: &mut Random, setup: &Setup) -> u64 {
    match random.below(8) {
        0 => 0,
        1 => all_blocks(setup),
        2 => !all_blocks(setup),
        3 => 1 << random.below(setup.ncblks),
        4 => random.number(),
        _ => random.next(),
    }
}

/// Sets a counter's event, makes fills, evictions and flushes that it may count, and reads it.
fn monitoring(random: &mut Random, state: &State) -> Steps {
    let setup = &state.record.setup;
    let calls = |random: &mut Random| units(random, state);
    common::monitoring(random, setup, LAST_EVENT, calls, |call, mcid| {
        if let Call::Fill(fill) = call {
            fill.mcid = mcid;
        }
    })
}

/// Puts a counter at or near one of its ends and a unit of its MCID into the lent tables, as a caller
/// may.
fn edge_of_counter(random: &mut Random, setup: &Setup) -> Steps {
    let mcid = random.below(setup.nm);
    let top = (1u64 << setup.w) - 1;
    let value = random.pick(&[0, 1, top - 1, top]) | random.below(2) << 63;
    let unit = random.below(setup.units());
    let owned = Fill { rcid: 0, mcid, at: random.below(setup.na), unit };
    let counter = Change::word(COUNTERS, 8, mcid as usize, value);
    let event = Change::word(EVENTS, 2, mcid as usize, 1);
    let owner = Change::word(OWNERS, 4, unit as usize, owner_of(&owned, setup.na) as u64);
    let mut steps = vec![Step::Change(vec![counter, event, owner])];
    for _ in 0..random.between(1, 4) {
        let fill = Fill { rcid: 0, mcid, ..any_fill(random, setup) };
        let evict = Call::Evict { unit: random.pick(&[unit, fill.unit]) };
        steps.push(Step::Call(random.pick(&[Call::Fill(fill), evict])));
    }
    if random.percent(30) {
        steps.push(Step::write(common::alloc_ctl(random, FLUSH_RCID, 0, 0)));
    }
    steps.push(Step::write((8, 8, READ_COUNTER | mcid << 8)));
    steps.push(Step::read(8, MON_CTR_VAL));
    if random.percent(70) {
        steps.push(Step::Call(Call::Reset(*setup)));
    }
    steps
}
