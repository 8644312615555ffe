//! What a run shows of window ends that serve requests which wait.

use super::super::{shown_of, Labels};
use crate::model::bandwidth::settings::{is_sharer, reserved, weight};
use crate::model::bandwidth::waiters::{AT, MCID, NEED};
use crate::model::bandwidth::{holder_of, pool_size, State, OVF};
use crate::model::Sizes;

/// A waiter at a window end, by what it left.
struct Turn {
    need: u64,
    holder: Option<usize>,
    reservation: u64,
    own: u64,
    weight: u64,
    part: u64,
    counter: [u64; 2],
    shares: bool,
    other_setting: bool,
}

fn turn(before: &State, after: &State, rcid: u64) -> Option<Turn> {
    let (setup, word) = (&before.record.setup, before.waiters[rcid as usize]);
    if word == 0 {
        return None;
    }
    let holder = holder_of(setup, &after.active, rcid, AT.get(word));
    let setting = holder.map_or(0, |place| after.active[place]);
    let need = NEED.get(word);
    let reservation = reserved(setting) * setup.q;
    let own = need.min(reservation);
    let mcid = MCID.get(word) as usize;
    Some(Turn {
        need,
        holder,
        reservation,
        own,
        weight: weight(setting),
        part: need - own - NEED.get(after.waiters[rcid as usize]),
        counter: [before.counters[mcid], after.counters[mcid]],
        shares: is_sharer(after.active[setup.place(rcid, AT.get(word))]),
        other_setting: holder.map_or(false, |place| before.active[place] != setting),
    })
}

impl Turn {
    fn in_need(&self) -> bool {
        self.own < self.need && self.weight != 0
    }

    /// How it came out.
    fn outcome(&self) -> &'static str {
        match self.need - self.own {
            _ if self.holder.is_none() => "waiter without a holder",
            0 if self.weight != 0 => "waiter done by the reservation",
            0 => "waiter done by the reservation, weight 0",
            _ if self.weight == 0 => "waiter left in need, weight 0",
            rest if self.part == rest => "waiter done by the pool",
            _ if self.part == 0 => "waiter left in need, no share",
            _ => "waiter left in need by its share",
        }
    }
}

const OUTCOMES: [&str; 7] = [
    "waiter without a holder",
    "waiter done by the reservation",
    "waiter done by the reservation, weight 0",
    "waiter left in need, weight 0",
    "waiter done by the pool",
    "waiter left in need, no share",
    "waiter left in need by its share",
];

const WHOLE_RESERVATION: &str = "waiter done by its whole reservation";
const ONE_MORE: &str = "waiter that needs one byte more than its reservation";
const WHOLE_SHARE: &str = "waiter done by its whole share";
const SHARES: &str = "waiter served by the pair that it shares";
const OTHER_SETTING: &str = "waiter served by a setting that just came into force";
const COUNTED: &str = "waiter counted";
const NOT_COUNTED: &str = "waiter served and not counted";
const WRAPPED: &str = "waiter's counter wrapped";

fn of_turn(turn: &Turn, share: u64) -> Labels {
    let [old, new] = turn.counter;
    let served = turn.own + turn.part;
    let mut labels = shown_of(&[
        (WHOLE_RESERVATION, turn.need == turn.reservation),
        (ONE_MORE, turn.reservation > 0 && turn.need == turn.reservation + 1),
        (WHOLE_SHARE, turn.in_need() && turn.part == share && turn.own + share == turn.need),
        (SHARES, turn.shares),
        (OTHER_SETTING, turn.other_setting),
        (COUNTED, old != new),
        (NOT_COUNTED, served > 0 && old == new),
        (WRAPPED, OVF.get(new) == 1 && OVF.get(old) == 0),
    ]);
    labels.push(turn.outcome().into());
    labels
}

const NONE_WAITS: &str = "window end: none waits";
const ALL_WAIT: &str = "window end: a waiter under every one of several RCIDs";
const ONE_SHARE: &str = "window end: one waiter has the whole pool as its share";
const SPLIT: &str = "window end: several waiters split the pool";
const WEIGHTS: &str = "window end: waiters of different weights split the pool";
const ROUNDED: &str = "window end: a share is rounded down";
const LEFT_BY_ROUNDING: &str = "window end: rounding leaves bytes in the pool";
const DONE_BESIDE: &str = "window end: a waiter with weight is done while others split the pool";
const NO_POOL: &str = "window end: waiters in need and no pool";

pub fn window_end(before: &State, after: &State) -> Labels {
    let setup = &before.record.setup;
    let turns: Vec<Turn> = (0..setup.nr).filter_map(|rcid| turn(before, after, rcid)).collect();
    let in_need: Vec<&Turn> = turns.iter().filter(|turn| turn.in_need()).collect();
    let pool = pool_size(setup, &after.active);
    let weights: u64 = in_need.iter().map(|turn| turn.weight).sum();
    let rounded = |turn: &&Turn| pool * turn.weight % weights != 0;
    let all_left = in_need.iter().all(|turn| turn.part < turn.need - turn.own);
    let done = |turn: &Turn| turn.own == turn.need && turn.weight != 0;
    let several = in_need.len() > 1;
    let mut labels = shown_of(&[
        (NONE_WAITS, turns.is_empty()),
        (ALL_WAIT, setup.nr > 1 && turns.len() as u64 == setup.nr),
        (ONE_SHARE, in_need.len() == 1 && pool > 0),
        (SPLIT, several && pool > 0),
        (WEIGHTS, several && in_need.iter().any(|turn| turn.weight != in_need[0].weight)),
        (ROUNDED, in_need.iter().copied().any(|turn| rounded(&turn))),
        (LEFT_BY_ROUNDING, several && all_left && after.record.pool_given < pool),
        (DONE_BESIDE, several && turns.iter().any(done)),
        (NO_POOL, !in_need.is_empty() && pool == 0),
    ]);
    for turn in &turns {
        let share = if turn.in_need() { pool * turn.weight / weights } else { 0 };
        labels.extend(of_turn(turn, share));
    }
    labels
}

const LABELS: [&str; 17] = [
    WHOLE_RESERVATION,
    ONE_MORE,
    WHOLE_SHARE,
    SHARES,
    OTHER_SETTING,
    COUNTED,
    NOT_COUNTED,
    WRAPPED,
    NONE_WAITS,
    ALL_WAIT,
    ONE_SHARE,
    SPLIT,
    WEIGHTS,
    ROUNDED,
    LEFT_BY_ROUNDING,
    DONE_BESIDE,
    NO_POOL,
];

pub fn required() -> Labels {
    LABELS.iter().chain(&OUTCOMES).map(|label| label.to_string()).collect()
}
