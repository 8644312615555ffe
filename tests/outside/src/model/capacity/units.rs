//! Cache fills, evictions and flushes: the table of owners, and the occupancy counters.

use super::owners::{owner_of, AT, MCID, RCID};
use super::{Fill, State};
use crate::model::field::Field;
use crate::model::monitor::{counts_access_type, event_of};
use crate::model::{access_type, Sizes};

pub const CTR: Field = Field::new(62, 0);
pub const INVALID: Field = Field::new(63, 63);

/// Answers 1 where the pair's mask has the unit's block; otherwise 0, and nothing changes.
pub fn fill(state: &mut State, fill: &Fill) -> u64 {
    let setup = state.record.setup;
    let mask = state.masks[setup.place(fill.rcid, access_type(fill.at, setup.na))];
    if mask >> setup.block_of(fill.unit) & 1 == 0 {
        return 0;
    }
    evict(state, fill.unit);
    let owner = owner_of(fill, setup.na);
    state.owners[fill.unit as usize] = owner;
    count(state, owner, |word| one_more(word, setup.w));
    1
}

/// Empties a unit and counts it for its owner; a free one stays as it is.
pub fn evict(state: &mut State, unit: u64) {
    let owner = std::mem::take(&mut state.owners[unit as usize]);
    if owner != 0 {
        count(state, owner, one_less);
    }
}

/// Empties every unit of an RCID.
pub fn flush(state: &mut State, rcid: u64) {
    for unit in 0..state.record.setup.units() {
        let owner = state.owners[unit as usize];
        if owner != 0 && RCID.get(owner as u64) == rcid {
            evict(state, unit);
        }
    }
}

/// Counts a unit by the counter of its owner, if that counts the owner's access type.
fn count(state: &mut State, owner: u32, next: impl Fn(u64) -> u64) {
    let (mcid, at) = (MCID.get(owner as u64) as usize, AT.get(owner as u64));
    if counted(state.events[mcid], at) {
        state.counters[mcid] = next(state.counters[mcid]);
    }
}

/// Whether a counter setting counts units of this access type.
pub fn counted(setting: u16, at: u64) -> bool {
    event_of(setting) == 1 && counts_access_type(setting, at)
}

/// At 2^W - 1 a counter stays and becomes INVALID. The flag stays with the word.
fn one_more(word: u64, width: u64) -> u64 {
    if CTR.get(word) == (1 << width) - 1 {
        word | INVALID.mask()
    } else {
        word + 1
    }
}

/// At 0 a counter stays and becomes INVALID.
fn one_less(word: u64) -> u64 {
    if CTR.get(word) == 0 {
        word | INVALID.mask()
    } else {
        word - 1
    }
}

#[cfg(test)]
mod tests {
    use super::*;

    #[test]
    fn the_ends_stay_and_become_invalid() {
        assert_eq!(one_more(0xFF_FFFF, 24), 0x8000_0000_00FF_FFFF);
        assert_eq!(one_more(0x8000_0000_00FF_FFFF, 24), 0x8000_0000_00FF_FFFF);
        assert_eq!(one_more(0xFF_FFFE, 24), 0xFF_FFFF);
        assert_eq!(one_less(0), 0x8000_0000_0000_0000);
        assert_eq!(one_less(1), 0);
    }

    #[test]
    fn an_invalid_counter_goes_on_counting() {
        assert_eq!(one_more(0x8000_0000_0000_0000, 24), 0x8000_0000_0000_0001);
        assert_eq!(one_less(0x8000_0000_0000_0001), 0x8000_0000_0000_0000);
    }
}
