//! What a run shows of the capacity controller.

mod setups;
mod units;

use super::{common_required, operation, shown_of, unknown, Labels, Rows};
use crate::ledger::capacity::required as ledger_required;
use crate::model::access::{ALLOC_CTL, MON_CTL};
use crate::model::capacity::{owners, Call, State, CTR, INVALID};
use crate::model::registers::{CONFIG_EVENT, DONE, EVT_ID, FLUSH_RCID, MCID, OP, STATUS};
use crate::model::{Answer, Checked};

const ROWS: Rows = Rows {
    alloc: &[(0, 0), (1, 1), (2, 2), (3, 3), (4, 23), (24, 31)],
    events: &[(0, 0), (1, 1), (2, 127), (128, 255)],
};

pub fn call_name(call: &Call) -> &'static str {
    match call {
        Call::Reset(_) => "reset",
        Call::Read { .. } => "read",
        Call::Write { .. } => "write",
        Call::Fill(_) => "fill",
        Call::Evict { .. } => "evict",
    }
}

pub fn accepted(before: &State, call: &Call, answer: Answer, after: &State) -> Labels {
    match call {
        Call::Write { offset, .. } => written(before, *offset, after),
        Call::Fill(fill) => {
            let labels = units::fill(before, fill, answer.value == 1);
            [labels, counter_changes("fill", before, after)].concat()
        }
        Call::Evict { unit } => {
            [units::evict(before, *unit), counter_changes("eviction", before, after)].concat()
        }
        Call::Reset(setup) => setups::reset(before, setup),
        Call::Read { .. } => Labels::new(),
    }
}

fn written(before: &State, offset: u64, after: &State) -> Labels {
    let (alloc_ctl, mon_ctl) = (after.record.alloc_ctl, after.record.mon_ctl);
    let mut labels = operation(offset, alloc_ctl, mon_ctl, &ROWS);
    if offset == ALLOC_CTL && OP.get(alloc_ctl) == FLUSH_RCID {
        labels.extend(units::flush(before, after));
        labels.extend(counter_changes("flush", before, after));
    }
    labels.extend(shown_of(&[(MASK_CHANGED, before.masks != after.masks)]));
    if offset == MON_CTL && is_set(mon_ctl) {
        let mcid = MCID.get(mon_ctl);
        labels.extend(shown_of(&[
            (SET_AGAIN, INVALID.get(before.counters[mcid as usize]) == 1),
            (SET_AS_OWNER, owns(before, mcid)),
        ]));
    }
    labels
}

const MASK_CHANGED: &str = "mask changed";
const SET_AGAIN: &str = "INVALID counter set to an event again";
const SET_AS_OWNER: &str = "counter set to an event while its MCID owns units";

/// Whether mon_ctl's operation set a counter to an event.
fn is_set(mon_ctl: u64) -> bool {
    OP.get(mon_ctl) == CONFIG_EVENT && STATUS.get(mon_ctl) == DONE && EVT_ID.get(mon_ctl) != 0
}

fn owns(state: &State, mcid: u64) -> bool {
    state.owners.iter().any(|&word| word != 0 && owners::MCID.get(word as u64) == mcid)
}

/// What a state showed, beside its fault, that was refused by 3.
pub fn fault(state: &State) -> Labels {
    match state.fault() {
        Some("an owner") => units::fault(state),
        _ => Labels::new(),
    }
}

pub fn refused(before: &State, call: &Call, number: u64) -> Labels {
    let setup = &before.record.setup;
    match call {
        Call::Fill(fill) => {
            let mut labels = setups::no_unit("fill", setup, fill.unit, number);
            labels.extend(unknown("fill", setup, fill.rcid, fill.mcid));
            labels
        }
        Call::Evict { unit } => setups::no_unit("evict", setup, *unit, number),
        Call::Reset(setup) => setups::refused_reset(setup, number),
        _ => Labels::new(),
    }
}

/// Each counter that a call changed.
fn counter_changes(call: &str, before: &State, after: &State) -> Labels {
    let words = before.counters.iter().zip(&after.counters);
    let changed = words.filter(|(old, new)| old != new);
    changed.map(|(&old, &new)| format!("{call} {}", counter_change(old, new))).collect()
}

const UP: &str = "counted up";
const DOWN: &str = "counted down";
const BELOW_0: &str = "made a counter INVALID at 0";
const ABOVE_TOP: &str = "made a counter INVALID at 2^W - 1";
const BY_INVALID: &str = "counted by an INVALID counter";

fn counter_change(old: u64, new: u64) -> &'static str {
    match (INVALID.get(old), INVALID.get(new)) {
        (1, _) => BY_INVALID,
        (_, 1) if CTR.get(old) == CTR.get(new) && CTR.get(old) != 0 => ABOVE_TOP,
        (_, 1) => BELOW_0,
        _ if new > old => UP,
        _ => DOWN,
    }
}

const COUNTED: [(&str, &[&str]); 3] = [
    ("fill", &[UP, DOWN, BELOW_0, ABOVE_TOP, BY_INVALID]),
    ("eviction", &[DOWN, BELOW_0, BY_INVALID]),
    ("flush", &[DOWN, BELOW_0, BY_INVALID]),
];

const OTHERS: [&str; 8] = [
    "refused 3 for a register",
    "refused 3 for a mask",
    "refused 3 for an owner",
    "refused 3 for a counter",
    "refused 3 for a counter setting",
    MASK_CHANGED,
    SET_AGAIN,
    SET_AS_OWNER,
];

pub fn required() -> Labels {
    let mut labels = common_required(
        &[
            ("reset", &[1, 2]),
            ("read", &[1, 2, 3, 4, 5]),
            ("write", &[1, 2, 3, 4, 5, 6]),
            ("fill", &[1, 2, 3, 7, 8]),
            ("evict", &[1, 2, 3, 8]),
        ],
        &ROWS,
    );
    labels.extend(OTHERS.map(String::from));
    for (call, changes) in COUNTED {
        labels.extend(changes.iter().map(|change| format!("{call} {change}")));
    }
    labels.extend(setups::required());
    labels.extend(units::required());
    labels.extend(ledger_required());
    labels
}
