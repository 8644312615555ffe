//! Lists of calls of the bandwidth controller.

mod damage;
mod devices;
mod operand;
mod states;
mod waiters;
mod weights;

use super::common;
use super::{setups, Random, Step};
use crate::controller::Bandwidth;
use crate::model::access::{ALLOC_CTL, MON_CTR_VAL, OPERAND};
use crate::model::bandwidth::settings::{reserved, weight};
use crate::model::bandwidth::{holder_of, pool_size, Call, Request, Setup, State, LAST_EVENT};
use crate::model::registers::{CONFIG_LIMIT, READ_COUNTER, READ_LIMIT};
use crate::model::{Checked, CommonCall, Sizes};
use devices::{made_by_any, set_mcid};
use operand::any_operand;

type Steps = Vec<Step<Call>>;

/// Some steps for the state as it is. In a quiet list nobody but the calls changes the memory.
pub fn scenario(random: &mut Random, state: &State, lengths: &[usize], quiet: bool) -> Steps {
    let setup = state.record.setup;
    if state.refusal(lengths, &Call::read(8, 0)) != 0 {
        return common::recovery::<Bandwidth>(random);
    }
    let damage = |random: &mut Random| damage::damage(random, state, lengths);
    let call = |random: &mut Random| any_call(random, &setup);
    // large tables may be read in parts: more of what only refusal 3 can show
    if !quiet && setup.pairs() > 32 && random.percent(40) {
        return common::damaged_call(random, damage, call);
    }
    match random.below(if quiet { 90 } else { 100 }) {
        0..=22 => {
            let operand = any_operand(random, state);
            configuration(random, operand)
        }
        23..=29 => weights::weights(random, state),
        30..=41 => waiters::waiters(random, state),
        42..=51 => requests(random, state),
        52..=60 => vec![Step::Call(Call::EndWindow)],
        61..=71 => monitoring(random, state),
        72..=86 => vec![Step::Call(call(random))],
        87..=89 => {
            let call = call(random);
            vec![common::wrong_length(random, lengths, call)]
        }
        90..=94 => common::damaged_call(random, damage, call),
        95 => common::kept_damage(random, damage, call),
        96 => edge_of_counter(random, state),
        97 | 98 => states::any_loaded(random, &setup),
        _ => common::another_reset::<Bandwidth>(random, &setup),
    }
}

/// Any call, with arguments of every kind.
pub fn any_call(random: &mut Random, setup: &Setup) -> Call {
    let (size, offset, value) = match random.below(15) {
        0 | 1 => {
            let (size, offset) = common::access(random);
            return Call::Read { size, offset };
        }
        2..=4 => {
            let bytes = random.number() as u32;
            let request = any_request(random, setup, bytes);
            return made_by_any(random, setup, request);
        }
        5 => return Call::EndWindow,
        6 if random.percent(40) => return Call::Reset(setups::bandwidth::outside(random)),
        6..=8 => common::any_write(random),
        9 | 10 => common::any_alloc_ctl(random, setup.nr, setup.na),
        11 => return waiters::any_wait(random, setup),
        12 => return Call::Need { rcid: random.index(setup.nr) },
        _ => common::any_mon_ctl(random, setup.na, setup.nm, LAST_EVENT),
    };
    Call::Write { size, offset, value }
}

/// Writes a pair's operand, asks for it to be configured, and often reads it back.
fn configuration(random: &mut Random, (rcid, at, operand): (u64, u64, u64)) -> Steps {
    let junk = if random.percent(30) { random.next() << 32 | 0xF_0000 } else { 0 };
    let operand =
        if random.percent(30) { (4, OPERAND, operand) } else { (8, OPERAND, operand | junk) };
    let mut steps =
        vec![Step::write(operand), Step::write(common::alloc_ctl(random, CONFIG_LIMIT, rcid, at))];
    if random.percent(30) {
        steps.push(Step::read(8, ALLOC_CTL));
    }
    if random.percent(40) {
        steps.push(Step::read(random.pick(&[4, 8]), OPERAND));
        steps.extend(reading_back(random, rcid, at));
    }
    steps
}

/// READ_LIMIT of a pair, and a read of what it gives.
fn reading_back(random: &mut Random, rcid: u64, at: u64) -> Steps {
    let read_limit = common::alloc_ctl(random, READ_LIMIT, rcid, at);
    vec![Step::write(read_limit), Step::read(random.pick(&[4, 8]), OPERAND)]
}

fn requests(random: &mut Random, state: &State) -> Steps {
    let setup = &state.record.setup;
    let count = random.between(1, 5);
    (0..count)
        .map(|_| {
            let mut request = any_request(random, setup, 0);
            if random.percent(60) {
                (request.rcid, request.at) = active_pair(random, state);
            }
            likely_request(random, state, request)
        })
        .collect()
}

/// The request with bytes that matter to its holder, by anyone.
fn likely_request(random: &mut Random, state: &State, request: Request) -> Step<Call> {
    let bytes = likely_bytes(random, state, &request);
    Step::Call(made_by_any(random, &state.record.setup, Request { bytes, ..request }))
}

/// A pair that is a holder or a sharer in force, if a few tries find one.
fn active_pair(random: &mut Random, state: &State) -> (u64, u64) {
    let setup = &state.record.setup;
    let mut pair = (0, 0);
    for _ in 0..4 {
        pair = (random.below(setup.nr), random.below(setup.na));
        if state.active[setup.place(pair.0, pair.1)] != 0 {
            break;
        }
    }
    pair
}

fn any_request(random: &mut Random, setup: &Setup, bytes: u32) -> Request {
    let kind = match random.below(8) {
        0 => random.number(),
        other => other % 2,
    };
    let (rcid, at) = common::any_pair(random, setup);
    let mcid = common::any_mcid(random, setup, rcid);
    Request { rcid, mcid, at, kind, bytes }
}

/// Bytes near what the holder has left and what the pool has left.
fn likely_bytes(random: &mut Random, state: &State, request: &Request) -> u32 {
    let setup = &state.record.setup;
    let at = if request.at < setup.na { request.at } else { 0 };
    let rcid = request.rcid.min(setup.nr - 1);
    let left = match holder_of(setup, &state.active, rcid, at) {
        Some(place) => reserved(state.active[place]) * setup.q - state.used[place] as u64,
        None => setup.q,
    };
    let pool_left = pool_size(setup, &state.active) - state.record.pool_given;
    let bytes = match random.below(10) {
        0 => left,
        1 => left + 1,
        2 => left + pool_left,
        3 => left + pool_left + 1,
        4 => left + pool_left / 2,
        5 => random.number(),
        6 => u32::MAX as u64,
        7 => left / 2,
        _ => random.below(3 * setup.q + 1),
    };
    bytes.min(u32::MAX as u64) as u32
}

/// Sets a counter's event, makes requests that it may count, and reads it.
fn monitoring(random: &mut Random, state: &State) -> Steps {
    let setup = &state.record.setup;
    let calls = |random: &mut Random| requests(random, state);
    common::monitoring(random, setup, LAST_EVENT, calls, |call, mcid| match call {
        Call::Request(request) => request.mcid = mcid,
        Call::DeviceRequest(device) => set_mcid(device, mcid),
        _ => unreachable!("requests alone"),
    })
}

/// Puts a counter near 2^W into the lent table, as a caller may, and lets grants reach it.
fn edge_of_counter(random: &mut Random, state: &State) -> Steps {
    let setup = &state.record.setup;
    let mcid = random.below(setup.nm);
    let near = (1u64 << setup.w) - 1 - random.below(3 * setup.q);
    let flags = random.below(4) << 62;
    let counter = super::Change::word(4, 8, mcid as usize, near | flags);
    let event = super::Change::word(5, 2, mcid as usize, random.between(1, 3));
    let mut steps = vec![Step::Change(vec![counter, event]), Step::Call(Call::EndWindow)];
    let likely = (0..state.active.len()).find(|&place| weight(state.configured[place]) != 0);
    let rcid = likely.map_or(0, |place| place as u64 / setup.na);
    for _ in 0..3 {
        let bytes = random.below(6 * setup.q) as u32;
        let request = any_request(random, setup, bytes);
        let request = Request { rcid, mcid, ..request };
        steps.push(Step::Call(made_by_any(random, setup, request)));
    }
    steps.push(Step::write((8, 8, READ_COUNTER | mcid << 8)));
    steps.push(Step::read(8, MON_CTR_VAL));
    steps.extend(common::another_reset::<Bandwidth>(random, setup));
    steps
}
