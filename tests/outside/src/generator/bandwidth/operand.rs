//! Operands of CONFIG_LIMIT that fit, that just fit and that just do not.

use super::super::Random;
use crate::model::bandwidth::settings::{
    all_reserved, is_holder, reserved, MWEIGHT, RBWB, SHARED_AT, USE_SHARED,
};
use crate::model::bandwidth::State;
use crate::model::Sizes;

/// A pair and a value of bw_alloc for it.
pub fn any_operand(random: &mut Random, state: &State) -> (u64, u64, u64) {
    let setup = &state.record.setup;
    if random.percent(if free_blocks(state) == 0 { 50 } else { 5 }) {
        return release(random, state);
    }
    let rcids = if random.percent(70) { setup.nr.min(4) } else { setup.nr };
    let rcid = random.below(rcids);
    let holders = holders_of(state, rcid);
    let shares = if holders.is_empty() { random.percent(5) } else { random.percent(40) };
    if setup.na > 1 && shares {
        return sharer(random, state, rcid, &holders);
    }
    let at = random.below(setup.na);
    (rcid, at, holder(random, state, rcid, at))
}

/// Mostly a pair of this RCID and a value for it that leaves blocks for others: a holder with the
/// blocks that it has or fewer, or with some that are free, or a sharer.
pub fn modest_operand(random: &mut Random, state: &State, rcid: u64) -> (u64, u64, u64) {
    let setup = &state.record.setup;
    let (holders, free) = (holders_of(state, rcid), free_blocks(state));
    if free == 0 && random.percent(50) {
        return release(random, state);
    }
    if holders.len() > 1 && random.percent(25) {
        return sharer(random, state, rcid, &holders);
    }
    let at = random.below(setup.na);
    let own = reserved(state.configured[setup.place(rcid, at)]);
    let most = if own > 0 { own } else { free / 2 };
    let rbwb = if random.percent(30) { most.max(1) } else { random.between(1, most.max(1)) };
    (rcid, at, RBWB.place(rbwb) | MWEIGHT.place(any_weight(random)))
}

fn free_blocks(state: &State) -> u64 {
    state.record.setup.mrbwb - all_reserved(&state.configured)
}

pub fn holders_of(state: &State, rcid: u64) -> Vec<u64> {
    let setup = &state.record.setup;
    let holds = |at: &u64| is_holder(state.configured[setup.place(rcid, *at)]);
    (0..setup.na).filter(holds).collect()
}

/// The pair with the most blocks gets fewer, so that others find some.
fn release(random: &mut Random, state: &State) -> (u64, u64, u64) {
    let setup = &state.record.setup;
    let blocks = |place: &usize| reserved(state.configured[*place]);
    let place = (0..setup.pairs()).max_by_key(blocks).unwrap_or(0);
    let fewer = random.between(1, blocks(&place).max(2) / 2);
    let operand = RBWB.place(fewer) | MWEIGHT.place(any_weight(random));
    (place as u64 / setup.na, place as u64 % setup.na, operand)
}

pub fn any_weight(random: &mut Random) -> u64 {
    match random.below(4) {
        0 => 0,
        1 => random.pick(&[1, 255]),
        _ => random.below(256),
    }
}

/// useShared 0; sharedAT may hold anything, since a holder's is stored as 0.
fn holder(random: &mut Random, state: &State, rcid: u64, at: u64) -> u64 {
    let setup = &state.record.setup;
    let own = reserved(state.configured[setup.place(rcid, at)]);
    let free = free_blocks(state) + own;
    let rbwb = match random.below(12) {
        0 => 0,
        1 => free + 1,
        2 => free,
        3 => setup.mrbwb,
        4 => random.next() & 0xFFFF,
        5 => 1,
        _ if free > 0 => random.between(1, free),
        _ => own,
    };
    let junk = if random.percent(20) { random.below(8) } else { 0 };
    RBWB.place(rbwb & 0xFFFF) | MWEIGHT.place(any_weight(random)) | SHARED_AT.place(junk)
}

/// useShared 1, mostly with a holder of the same RCID; the pair may be one that others share.
fn sharer(random: &mut Random, state: &State, rcid: u64, holders: &[u64]) -> (u64, u64, u64) {
    let na = state.record.setup.na;
    let target = if holders.is_empty() || random.percent(10) {
        random.below(8)
    } else {
        random.pick(holders)
    };
    let any = random.below(na);
    let other = if any == target && random.percent(80) { (any + 1) % na } else { any };
    let at = if holders.len() > 1 && random.percent(40) { random.pick(holders) } else { other };
    let junk = if random.percent(40) { random.next() & 0x0FF0_FFFF } else { 0 };
    (rcid, at, USE_SHARED.place(1) | SHARED_AT.place(target) | junk)
}
