//! What a run shows of weights: carried by settings, in force, and two of them in one RCID.

use super::super::Labels;
use crate::model::bandwidth::settings::{
    holders, is_holder, one_weight_each, weight, MWEIGHT, USE_SHARED,
};
use crate::model::bandwidth::{State, TWO_CONFIGURED_WEIGHTS, TWO_WEIGHTS_IN_FORCE};
use crate::model::registers::{AT, CONFIG_LIMIT, DONE, OP, RCID, STATUS};
use crate::model::{Checked, Sizes};

const NO_OTHER: &str = "weight of an RCID's only holder set";
const SAME: &str = "weight set that the RCID's other holders have";
const TO_ONE: &str = "weight carried to one other holder";
const TO_SEVERAL: &str = "weight carried to several other holders";
const BY_SHARER: &str = "sharer set with a weight that its RCID's holders do not have";
const BY_SHARER_0: &str = "sharer set with weight 0 that its RCID's holders do not have";
const BAD: &str = "bad operand with a weight that the RCID's other holders do not have";

/// What a CONFIG_LIMIT showed that ended in STATUS 1 or 5.
pub fn operation(before: &State, after: &State) -> Option<&'static str> {
    let (setup, alloc_ctl) = (&after.record.setup, after.record.alloc_ctl);
    let (rcid, at, status) = (RCID.get(alloc_ctl), AT.get(alloc_ctl), STATUS.get(alloc_ctl));
    if OP.get(alloc_ctl) != CONFIG_LIMIT || ![DONE, 5].contains(&status) {
        return None;
    }
    let set = MWEIGHT.get(before.record.bw_alloc);
    let shares = USE_SHARED.get(before.record.bw_alloc) == 1;
    let mut others = before.configured[setup.row(rcid)].to_vec();
    others.remove(at as usize);
    let weights: Vec<u64> = holders(&others).map(weight).collect();
    let differ = weights.iter().any(|&other| other != set);
    match (status == DONE, shares, differ) {
        (true, false, _) if weights.is_empty() => Some(NO_OTHER),
        (true, false, false) => Some(SAME),
        (true, false, true) => Some(if weights.len() == 1 { TO_ONE } else { TO_SEVERAL }),
        (true, true, true) => Some(if set == 0 { BY_SHARER_0 } else { BY_SHARER }),
        (false, _, true) => Some(BAD),
        _ => None,
    }
}

const OTHER_RCID: &str = "window ended with different weights of two RCIDs";
const OTHER_TABLE: &str = "window ended with other weights of several holders configured";

/// What the state showed in which a window ended.
pub fn window_end(state: &State) -> Labels {
    let setup = &state.record.setup;
    let of = |words: &[u32], rcid: u64| holders(&words[setup.row(rcid)]).map(weight).next();
    let configured = |rcid: u64| of(&state.configured, rcid);
    let mut labels = Labels::new();
    let mut weights = (0..setup.nr).filter_map(configured);
    let first = weights.next();
    if weights.any(|weight| Some(weight) != first) {
        labels.push(OTHER_RCID.into());
    }
    let changes = |rcid: u64| {
        let active = of(&state.active, rcid);
        let several = holders(&state.configured[setup.row(rcid)]).count() > 1;
        several && active.is_some() && active != configured(rcid)
    };
    if (0..setup.nr).any(changes) {
        labels.push(OTHER_TABLE.into());
    }
    labels
}

const FIRST_RCID: &str = "the first RCID";
const LAST_RCID: &str = "the last RCID";
const ENDS: &str = "the first and the last AT";
const THIS_TABLE_ALONE: &str = "this table alone";

/// What a state showed that was refused for two weights of an RCID: how they differ, and where.
pub fn fault(state: &State) -> Labels {
    let setup = &state.record.setup;
    let (fault, words, other_table) = match state.fault() {
        Some(TWO_CONFIGURED_WEIGHTS) => (TWO_CONFIGURED_WEIGHTS, &state.configured, &state.active),
        Some(TWO_WEIGHTS_IN_FORCE) => (TWO_WEIGHTS_IN_FORCE, &state.active, &state.configured),
        _ => return Labels::new(),
    };
    let mut rows = (0..setup.nr).map(|rcid| (rcid, row_fault(&words[setup.row(rcid)])));
    let (rcid, mut outcomes) = rows.find(|row| !row.1.is_empty()).unwrap_or_default();
    if rcid == 0 {
        outcomes.push(FIRST_RCID.into());
    } else if rcid + 1 == setup.nr {
        outcomes.push(LAST_RCID.into());
    }
    if one_weight_each(setup, other_table) {
        outcomes.push(THIS_TABLE_ALONE.into());
    }
    outcomes.into_iter().map(|outcome| label(fault, &outcome)).collect()
}

/// How the first holder of an RCID and the next one with another weight differ, if there is one.
fn row_fault(row: &[u32]) -> Labels {
    let held: Vec<usize> = (0..row.len()).filter(|&at| is_holder(row[at])).collect();
    let differs = |at: &&usize| weight(row[**at]) != weight(row[held[0]]);
    let mut outcomes = Labels::new();
    if let Some(&at) = held.iter().find(differs) {
        let difference = weight(row[at]) ^ weight(row[held[0]]);
        outcomes.push(match difference.is_power_of_two() {
            true => bit(difference.trailing_zeros()),
            false => "several bits".into(),
        });
        if row.len() > 2 && held[0] == 0 && at == row.len() - 1 {
            outcomes.push(ENDS.into());
        }
    }
    outcomes
}

fn bit(number: u32) -> String {
    format!("bit {number} alone")
}

fn label(fault: &str, outcome: &str) -> String {
    format!("refused 3 for {fault}: {outcome}")
}

pub fn required() -> Labels {
    let mut labels: Labels =
        [NO_OTHER, SAME, TO_ONE, TO_SEVERAL, BY_SHARER, BY_SHARER_0, BAD, OTHER_RCID, OTHER_TABLE]
            .map(String::from)
            .to_vec();
    for fault in [TWO_CONFIGURED_WEIGHTS, TWO_WEIGHTS_IN_FORCE] {
        labels.push(format!("refused 3 for {fault}"));
        labels.extend((0..8).map(|number| label(fault, &bit(number))));
        labels.extend([FIRST_RCID, LAST_RCID, ENDS, THIS_TABLE_ALONE].map(|o| label(fault, o)));
    }
    labels
}
