//! Requests that wait: their words, one for each RCID, and how a window end serves them.

use super::request::{count, holder_of, pool_size};
use super::settings::{reserved, weight};
use super::{Request, Setup, State};
use crate::model::access_type;
use crate::model::field::Field;

pub const NEED: Field = Field::new(31, 0);
pub const MCID: Field = Field::new(39, 32);
pub const AT: Field = Field::new(42, 40);
pub const WRITE: Field = Field::new(43, 43);

/// The word of a request that is put to wait.
pub fn word_of(request: &Request, na: u64) -> u64 {
    NEED.place(request.bytes as u64)
        | MCID.place(request.mcid)
        | AT.place(access_type(request.at, na))
        | WRITE.place((request.kind != 0) as u64)
}

/// Whether some request, put to wait, has this word; 0 is the word where none waits.
pub fn waiter_well_formed(setup: &Setup, word: u64) -> bool {
    let named = NEED.mask() | MCID.mask() | AT.mask() | WRITE.mask();
    let is_stored = word & !named == 0
        && NEED.get(word) != 0
        && MCID.get(word) < setup.nm
        && AT.get(word) < setup.na;
    word == 0 || is_stored
}

/// A waiter while a window opens.
#[derive(Clone, Copy)]
struct Turn {
    rcid: usize,
    word: u64,
    /// The place of its holder in force, whose weight stands beside.
    holder: Option<usize>,
    weight: u64,
    /// Bytes of the holder's reservation.
    own: u64,
}

impl Turn {
    /// What it needs after the reservation.
    fn rest(&self) -> u64 {
        NEED.get(self.word) - self.own
    }

    /// The weight by which it has a share of the pool: 0 once it is done.
    fn share_weight(&self) -> u64 {
        if self.rest() == 0 {
            0
        } else {
            self.weight
        }
    }
}

/// Serves all waiters by the settings in force, reservations and pool being whole.
pub fn serve(state: &mut State) {
    let turns: Vec<Turn> = (0..state.waiters.len()).filter_map(|rcid| turn(state, rcid)).collect();
    let pool = pool_size(&state.record.setup, &state.active) as u128;
    let weights: u128 = turns.iter().map(|turn| turn.share_weight() as u128).sum();
    for turn in turns {
        let share = match turn.share_weight() {
            0 => 0,
            weight => pool * weight as u128 / weights,
        };
        give(state, &turn, turn.rest().min(share as u64));
    }
}

fn turn(state: &State, rcid: usize) -> Option<Turn> {
    let (setup, word) = (&state.record.setup, state.waiters[rcid]);
    if word == 0 {
        return None;
    }
    let holder = holder_of(setup, &state.active, rcid as u64, AT.get(word));
    let setting = holder.map_or(0, |place| state.active[place]);
    let own = NEED.get(word).min(reserved(setting) * setup.q);
    Some(Turn { rcid, word, holder, weight: weight(setting), own })
}

/// Hands a waiter its bytes of the reservation and of the pool.
fn give(state: &mut State, turn: &Turn, part: u64) {
    if let Some(place) = turn.holder {
        state.used[place] += turn.own as u32;
    }
    state.record.pool_given += part;
    let (mcid, at, kind) = (MCID.get(turn.word), AT.get(turn.word), WRITE.get(turn.word));
    count(state, mcid as usize, at, kind, turn.own + part);
    let left = turn.rest() - part;
    let others = turn.word & !NEED.mask();
    state.waiters[turn.rcid] = if left == 0 { 0 } else { others | left };
}

#[cfg(test)]
mod tests {
    use super::*;

    const SETUP: Setup = Setup { nbwblks: 9, mrbwb: 6, nr: 2, na: 3, nm: 200, q: 4, w: 24 };

    #[test]
    fn words() {
        let request = Request { rcid: 1, mcid: 0xAB, at: 2, kind: 0, bytes: 0x1234_5678 };
        assert_eq!(word_of(&request, 3), 0x02AB_1234_5678);
        assert_eq!(word_of(&Request { kind: 1, ..request }, 3), 0x0AAB_1234_5678);
        assert_eq!(word_of(&Request { kind: 1 << 63, ..request }, 3), 0x0AAB_1234_5678);
        assert_eq!(word_of(&request, 2), 0x00AB_1234_5678, "AT 2 of 2");
        assert_eq!(word_of(&Request { at: 1 << 32 | 1, ..request }, 3), 0x00AB_1234_5678);
    }

    #[test]
    fn forms() {
        let forms = [
            (0, true),
            (1, true),
            (0x0AC7_FFFF_FFFF, true),
            (0x00C8_0000_0001, false),
            (0x0300_0000_0001, false),
            (0x0800_0000_0000, false),
            (0x00C7_0000_0000, false),
            (0x1000_0000_0001, false),
            (0x8000_0000_0000_0001, false),
        ];
        for (word, expected) in forms {
            assert_eq!(waiter_well_formed(&SETUP, word), expected, "{word:#x}");
        }
    }

    /// RCID 0 holds 2 blocks of 4 bytes with weight 1, RCID 1 holds 1 with weight 2; the pool has 24.
    fn in_use(needs: [u64; 2]) -> State {
        let mut state = State {
            active: vec![0x0010_0002, 0, 0, 0x0020_0001, 0, 0],
            used: vec![0; 6],
            counters: vec![0; 200],
            events: vec![0; 200],
            waiters: needs.to_vec(),
            ..State::default()
        };
        state.record.setup = SETUP;
        state
    }

    #[test]
    fn shares_of_the_pool() {
        let mut state = in_use([100, 100]);
        serve(&mut state);
        assert_eq!(state.waiters, [100 - 8 - 8, 100 - 4 - 16]);
        assert_eq!((state.used[0], state.used[3], state.record.pool_given), (8, 4, 24));
    }

    #[test]
    fn a_waiter_that_is_done_has_no_share() {
        let mut state = in_use([8, 100]);
        serve(&mut state);
        assert_eq!(state.waiters, [0, 100 - 4 - 24]);
        assert_eq!((state.used[0], state.used[3], state.record.pool_given), (8, 4, 24));
    }

    #[test]
    fn a_share_is_rounded_down_and_never_more_than_the_need() {
        let mut state = in_use([9, 100]);
        state.active[0] = 0x0010_0001;
        serve(&mut state);
        // the pool has 28: a third is 9, and RCID 0 needs 5
        assert_eq!(state.waiters, [0, 100 - 4 - 18]);
        assert_eq!(state.record.pool_given, 5 + 18);
    }
}
