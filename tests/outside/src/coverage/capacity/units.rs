//! What a run shows of units: filled, refilled, evicted, flushed, badly formed.

use super::super::{lone_fault, lone_required, shown_of, Labels};
use crate::model::capacity::owners::{AT, MCID, OWNED, RCID};
use crate::model::capacity::{counted, Fill, State};
use crate::model::registers::{self, DONE, FLUSH_RCID, OP, STATUS};
use crate::model::{access_type, Sizes};

const FREE: &str = "fill of a free unit";
const OTHER_MCID: &str = "fill over a unit of another MCID";
const SAME_MCID: &str = "fill over a unit of the same MCID";
const SAME_MCID_OTHER_AT: &str = "fill over a unit of the same MCID and another AT";
const OTHER_RCID: &str = "fill over a unit of another RCID";
const UNKNOWN_AT: &str = "fill with an AT at or above NA";
const LAST_UNIT: &str = "fill of the last of several units";
const END_OF_BLOCK: &str = "fill of a block's last unit, the next block not allowed";
const AFTER_FLUSH: &str = "fill by an RCID just flushed";
const NOT_ALLOWED_FREE: &str = "fill not allowed of a free unit";
const NOT_ALLOWED_OWNED: &str = "fill not allowed of an owned unit";
const NOT_ALLOWED_END: &str = "fill not allowed of a block's last unit, the next block allowed";

/// An accepted fill, by what the unit was.
pub fn fill(before: &State, fill: &Fill, allowed: bool) -> Labels {
    let setup = &before.record.setup;
    let owner = before.owners[fill.unit as usize] as u64;
    let at = access_type(fill.at, setup.na);
    let mask = before.masks[setup.place(fill.rcid, at)];
    let next = setup.block_of(fill.unit) + 1;
    let next_allowed = next < setup.ncblks && mask >> next & 1 == 1;
    let at_end = setup.u > 1 && (fill.unit + 1) % setup.u == 0 && next < setup.ncblks;
    let (is_free, same_mcid) = (owner == 0, MCID.get(owner) == fill.mcid);
    if !allowed {
        return shown_of(&[
            (NOT_ALLOWED_FREE, is_free),
            (NOT_ALLOWED_OWNED, !is_free),
            (NOT_ALLOWED_END, at_end && next_allowed),
        ]);
    }
    shown_of(&[
        (FREE, is_free),
        (OTHER_MCID, !is_free && !same_mcid),
        (SAME_MCID, !is_free && same_mcid),
        (SAME_MCID_OTHER_AT, !is_free && same_mcid && AT.get(owner) != at),
        (OTHER_RCID, !is_free && RCID.get(owner) != fill.rcid),
        (UNKNOWN_AT, fill.at >= setup.na),
        (LAST_UNIT, setup.units() > 1 && fill.unit + 1 == setup.units()),
        (END_OF_BLOCK, at_end && !next_allowed),
        (AFTER_FLUSH, flushed(before) == Some(fill.rcid)),
    ])
}

/// The RCID of alloc_ctl's operation, if that was a flush that was carried out.
fn flushed(state: &State) -> Option<u64> {
    let word = state.record.alloc_ctl;
    let is_flush = OP.get(word) == FLUSH_RCID && STATUS.get(word) == DONE;
    is_flush.then(|| registers::RCID.get(word))
}

const EVICTED: &str = "eviction of an owned unit";
const EVICTED_FREE: &str = "eviction of a free unit";
const EVICTED_LAST: &str = "eviction of the last of several units";
const EVICTED_UNCOUNTED: &str = "eviction of a unit that is not counted";

pub fn evict(before: &State, unit: u64) -> Labels {
    let units = before.record.setup.units();
    let owner = before.owners[unit as usize];
    shown_of(&[
        (EVICTED, owner != 0),
        (EVICTED_FREE, owner == 0),
        (EVICTED_LAST, owner != 0 && units > 1 && unit + 1 == units),
        (EVICTED_UNCOUNTED, owner != 0 && !is_counted(before, owner)),
    ])
}

/// Whether the counter of a unit's owner counts it.
fn is_counted(state: &State, owner: u32) -> bool {
    let owner = owner as u64;
    counted(state.events[MCID.get(owner) as usize], AT.get(owner))
}

const UNKNOWN_RCID: &str = "flush with STATUS 3";
const UNKNOWN_RCID_OWNER: &str = "flush with STATUS 3, its RCID modulo 256 an owner";
const NONE: &str = "flush of no unit";
const ONE: &str = "flush of one unit";
const SEVERAL: &str = "flush of several units";
const MANY: &str = "flush of more than 256 units";
const EVERY: &str = "flush of every unit of several";
const OTHERS_LEFT: &str = "flush beside units of other RCIDs";
const FLUSHED_UNKNOWN_AT: &str = "flush with an AT at or above NA";
const EMPTY_MASK: &str = "flush with a block_mask of 0";
const SEVERAL_ATS: &str = "flush of units of several ATs";
const SEVERAL_MCIDS: &str = "flush counted by several counters";
const COUNTED: &str = "flush of units that are counted";
const UNCOUNTED: &str = "flush of units that are not counted";
const BOTH: &str = "flush of units that are counted and others that are not";

/// A flush, by its STATUS and the units that it emptied.
pub fn flush(before: &State, after: &State) -> Labels {
    let word = after.record.alloc_ctl;
    let rcid = registers::RCID.get(word);
    let owned: Vec<u32> = before.owners.iter().copied().filter(|&owner| owner != 0).collect();
    if STATUS.get(word) != DONE {
        let is_owner = owned.iter().any(|&owner| RCID.get(owner as u64) == rcid % 256);
        return shown_of(&[(UNKNOWN_RCID, true), (UNKNOWN_RCID_OWNER, is_owner)]);
    }
    let (emptied, left): (Vec<u32>, Vec<u32>) =
        owned.into_iter().partition(|&owner| RCID.get(owner as u64) == rcid);
    let is_counted: Vec<bool> = emptied.iter().map(|&owner| is_counted(before, owner)).collect();
    let (any, all) = (is_counted.contains(&true), !is_counted.contains(&false));
    let changed = before.counters.iter().zip(&after.counters).filter(|(old, new)| old != new);
    let ats = |at| emptied.iter().any(|&owner| AT.get(owner as u64) == at);
    shown_of(&[
        (NONE, emptied.is_empty()),
        (ONE, emptied.len() == 1),
        (SEVERAL, emptied.len() > 1),
        (MANY, emptied.len() > 256),
        (EVERY, emptied.len() > 1 && emptied.len() == before.owners.len()),
        (OTHERS_LEFT, !emptied.is_empty() && !left.is_empty()),
        (FLUSHED_UNKNOWN_AT, registers::AT.get(word) >= after.record.setup.na),
        (EMPTY_MASK, before.record.block_mask == 0),
        (SEVERAL_ATS, (0..8).filter(|&at| ats(at)).count() > 1),
        (SEVERAL_MCIDS, changed.count() > 1),
        (COUNTED, any),
        (UNCOUNTED, !emptied.is_empty() && !any),
        (BOTH, any && !all),
    ])
}

const LABELS: [&str; 31] = [
    FREE,
    OTHER_MCID,
    SAME_MCID,
    SAME_MCID_OTHER_AT,
    OTHER_RCID,
    UNKNOWN_AT,
    LAST_UNIT,
    END_OF_BLOCK,
    AFTER_FLUSH,
    NOT_ALLOWED_FREE,
    NOT_ALLOWED_OWNED,
    NOT_ALLOWED_END,
    EVICTED,
    EVICTED_FREE,
    EVICTED_LAST,
    EVICTED_UNCOUNTED,
    UNKNOWN_RCID,
    UNKNOWN_RCID_OWNER,
    NONE,
    ONE,
    SEVERAL,
    MANY,
    EVERY,
    OTHERS_LEFT,
    FLUSHED_UNKNOWN_AT,
    EMPTY_MASK,
    SEVERAL_ATS,
    SEVERAL_MCIDS,
    COUNTED,
    UNCOUNTED,
    BOTH,
];

/// What is wrong with a word of owners.
const FAULTS: [&str; 5] =
    ["not owned", "an unknown RCID", "an unknown MCID", "an unknown AT", "a bit above 19"];

pub fn fault(state: &State) -> Labels {
    let setup = &state.record.setup;
    let wrong = |&word: &u32| {
        let word = word as u64;
        [
            word != 0 && OWNED.get(word) == 0,
            RCID.get(word) >= setup.nr,
            MCID.get(word) >= setup.nm,
            AT.get(word) >= setup.na,
            word >> 20 != 0,
        ]
    };
    let words: Vec<[bool; 5]> = state.owners.iter().map(wrong).collect();
    lone_fault("an owner", FAULTS, &words)
}

pub fn required() -> Labels {
    let labels = LABELS.iter().map(|label| label.to_string());
    labels.chain(lone_required("an owner", &FAULTS)).collect()
}
