//! Requests that wait: put to wait with bytes that matter to the next window ends, and between these
//! needs, requests and other settings.

use super::operand::{holders_of, modest_operand};
use super::{any_request, configuration, likely_request, Steps};
use crate::generator::{planned, Random, Step};
use crate::model::bandwidth::settings::{reserved, weight};
use crate::model::bandwidth::waiters::{word_of, NEED};
use crate::model::bandwidth::{holder_of, pool_size, Call, Request, Setup, State};
use crate::model::{access_type, Sizes};

/// Any request put to wait.
pub fn any_wait(random: &mut Random, setup: &Setup) -> Call {
    let any = random.number() as u32;
    let bytes = random.pick(&[0, 1, u32::MAX, any, setup.q as u32]);
    Call::Wait(any_request(random, setup, bytes))
}

/// The waiters of a state made directly: none, some or all.
pub fn any_waiters(random: &mut Random, setup: &Setup, configured: &[u32]) -> Vec<u64> {
    let chance = random.pick(&[0, 10, 50, 100]);
    let word = |rcid: u64| {
        let at = random.below(setup.na);
        let (mcid, kind) = (random.below(setup.nm), random.below(2));
        let bytes = likely_need(random, setup, configured, rcid, at);
        let request = Request { rcid, mcid, at, kind, bytes: bytes.max(1) };
        if random.percent(chance) {
            word_of(&request, setup.na)
        } else {
            0
        }
    };
    (0..setup.nr).map(word).collect()
}

pub fn waiters(random: &mut Random, state: &State) -> Steps {
    planned(random, state, next)
}

fn next(random: &mut Random, state: &State) -> Steps {
    let setup = &state.record.setup;
    let rcid = some_rcid(random, state);
    match random.below(13) {
        0..=3 => vec![wait(random, state, rcid)],
        4 => many_waits(random, state),
        5 | 6 => vec![need(rcid), Step::Call(Call::EndWindow), need(rcid)],
        7 => (0..random.between(1, 4)).map(|_| Step::Call(Call::EndWindow)).collect(),
        8 => {
            let operand = modest_operand(random, state, rcid);
            [configuration(random, operand), vec![Step::Call(Call::EndWindow)]].concat()
        }
        9 => {
            let request = Request { rcid, ..any_request(random, setup, 0) };
            vec![likely_request(random, state, request)]
        }
        10 => vec![need(random.index(setup.nr))],
        11 => other_blocks(random, state, rcid),
        _ => vec![Step::Call(any_wait(random, setup))],
    }
}

fn need(rcid: u64) -> Step<Call> {
    Step::Call(Call::Need { rcid })
}

/// Mostly one of the first, of which some wait, or one with a holder, or one that waits and has one.
fn some_rcid(random: &mut Random, state: &State) -> u64 {
    let setup = &state.record.setup;
    let held =
        |rcid: &u64| state.configured[setup.row(*rcid)].iter().any(|&word| weight(word) != 0);
    let waits = |rcid: &u64| state.waiters[*rcid as usize] != 0;
    let holder = (0..setup.nr).find(held).unwrap_or(0);
    let waiter = (0..setup.nr).find(|rcid| waits(rcid) && held(rcid)).unwrap_or(holder);
    let (first, any) = (random.below(setup.nr.min(4)), random.place(setup.nr) as u64);
    random.pick(&[first, holder, waiter, any])
}

fn wait(random: &mut Random, state: &State, rcid: u64) -> Step<Call> {
    let setup = &state.record.setup;
    let request = any_request(random, setup, 0);
    let at = access_type(request.at, setup.na);
    let bytes = likely_need(random, setup, &state.configured, rcid, at);
    let mcid = if random.percent(50) { random.below(setup.nm.min(3)) } else { request.mcid };
    Step::Call(Call::Wait(Request { rcid, mcid, bytes, ..request }))
}

/// Waits of the first RCIDs, or of all if these are few, so that many split the pool.
fn many_waits(random: &mut Random, state: &State) -> Steps {
    let count = state.record.setup.nr.min(12);
    let mut steps: Steps = (0..count).map(|rcid| wait(random, state, rcid)).collect();
    steps.push(Step::Call(Call::EndWindow));
    steps
}

/// A waiter of an RCID without weight whose holder has fewer blocks at each window end.
fn other_blocks(random: &mut Random, state: &State, rcid: u64) -> Steps {
    let setup = &state.record.setup;
    let at = holders_of(state, rcid).first().copied().unwrap_or(0);
    let mut blocks = reserved(state.configured[setup.place(rcid, at)]).max(1);
    let bytes = (blocks * setup.q * random.between(1, 3) + random.below(2)).min(NEED.highest());
    let mcid = random.below(setup.nm);
    let request = Request { rcid, mcid, at, kind: 0, bytes: bytes as u32 };
    let mut steps = vec![Step::Call(Call::Wait(request))];
    for _ in 0..random.between(2, 6) {
        steps.extend(configuration(random, (rcid, at, blocks)));
        steps.push(Step::Call(Call::EndWindow));
        blocks = random.between((blocks + 1) / 2, blocks);
    }
    steps.push(need(rcid));
    steps
}

/// Bytes at and about what the pair's holder reserves, with its share of the pool and without.
fn likely_need(random: &mut Random, setup: &Setup, words: &[u32], rcid: u64, at: u64) -> u32 {
    let holder = holder_of(setup, words, rcid, at).map_or(0, |place| words[place]);
    let own = reserved(holder) * setup.q;
    let pool = pool_size(setup, words);
    let bytes = match random.below(16) {
        0 => random.below(2),
        1 => setup.q,
        2 | 3 => own,
        4 => own + 1,
        5 => own.saturating_sub(1),
        6 => own + pool,
        7 => own + pool + 1,
        8 => own + random.below(pool + 1),
        9 => own + pool / 2,
        10 => 2 * own + random.below(2),
        11 => 3 * own + random.below(pool + 1),
        12 => NEED.highest(),
        13 => random.number(),
        _ => own + random.below(3 * setup.q),
    };
    bytes.min(NEED.highest()) as u32
}
