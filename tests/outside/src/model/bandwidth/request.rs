//! Requests: what is granted, from where, and what is counted.

use super::settings::{all_reserved, is_holder, is_sharer, reserved, shared_at, weight};
use super::{Request, Setup, State};
use crate::model::field::Field;
use crate::model::monitor::{counts_access_type, event_of};
use crate::model::{access_type, Answer, Sizes};

pub const CTR: Field = Field::new(61, 0);
pub const OVF: Field = Field::new(63, 63);

/// Grants a request as far as its holder and the pool reach.
pub fn answer(state: &mut State, request: &Request) -> Answer {
    let setup = state.record.setup;
    let at = access_type(request.at, setup.na);
    let place = match holder_of(&setup, &state.active, request.rcid, at) {
        Some(place) => place,
        None => return Answer::granted(0, 0),
    };
    let asked = request.bytes as u64;
    let word = state.active[place];
    let left = reserved(word) * setup.q - state.used[place] as u64;
    let own = asked.min(left);
    let pool_left = pool_size(&setup, &state.active) - state.record.pool_given;
    let extra = if weight(word) == 0 { 0 } else { (asked - own).min(pool_left) };

    state.used[place] += own as u32;
    state.record.pool_given += extra;
    count(state, request.mcid as usize, at, request.kind, own + extra);
    Answer::granted(own, extra)
}

/// Adds granted bytes to the counter of an MCID, if it counts this access type and kind.
pub fn count(state: &mut State, mcid: usize, at: u64, kind: u64, bytes: u64) {
    if counted(state.events[mcid], at, kind) {
        state.counters[mcid] = add_to_counter(state.counters[mcid], bytes, state.record.setup.w);
    }
}

/// The place of the holder that a pair's requests are led to by the words in force, if any.
pub fn holder_of(setup: &Setup, active: &[u32], rcid: u64, at: u64) -> Option<usize> {
    let place = setup.place(rcid, at);
    let word = active[place];
    if is_sharer(word) {
        Some(setup.place(rcid, shared_at(word)))
    } else if is_holder(word) {
        Some(place)
    } else {
        None
    }
}

/// The bytes of a window that nobody reserved.
pub fn pool_size(setup: &Setup, active: &[u32]) -> u64 {
    (setup.nbwblks - all_reserved(active)) * setup.q
}

/// Whether a counter setting counts a request of this access type and kind.
pub fn counted(setting: u16, at: u64, kind: u64) -> bool {
    let event_matches = match event_of(setting) {
        1 => true,
        2 => kind == 0,
        3 => kind != 0,
        _ => false,
    };
    event_matches && counts_access_type(setting, at)
}

/// A counter's word after a grant: the sum modulo 2^W, OVF set if it reached 2^W, INVALID kept.
fn add_to_counter(word: u64, bytes: u64, width: u64) -> u64 {
    let sum = CTR.get(word) as u128 + bytes as u128;
    let limit = 1u128 << width;
    let flags = word & !CTR.mask();
    let overflow = if sum >= limit { OVF.mask() } else { 0 };
    flags | overflow | (sum % limit) as u64
}

#[cfg(test)]
mod tests {
    use super::*;

    #[test]
    fn a_counter_wraps_once() {
        assert_eq!(add_to_counter(16_777_000, 300, 24), 84 | OVF.mask());
        assert_eq!(add_to_counter(16_777_000, 215, 24), 16_777_215);
        assert_eq!(add_to_counter(16_777_000, 216, 24), OVF.mask());
    }

    #[test]
    fn a_counter_wraps_255_times() {
        let sum = 65_535 * 65_536;
        assert_eq!(add_to_counter(0, sum, 24), 16_711_680 | OVF.mask());
    }

    #[test]
    fn flags_stay() {
        let invalid = 1 << 62;
        assert_eq!(add_to_counter(invalid | 5, 1, 24), invalid | 6);
        assert_eq!(add_to_counter(OVF.mask() | 5, 1, 24), OVF.mask() | 6);
    }

    #[test]
    fn the_widest_counter() {
        let top = (1 << 62) - 1;
        assert_eq!(add_to_counter(top, 0, 62), top);
        assert_eq!(add_to_counter(top, 4_294_967_295, 62), 4_294_967_294 | OVF.mask());
    }

    #[test]
    fn kinds() {
        assert!(counted(1, 0, 0) && counted(1, 0, 7));
        assert!(counted(2, 0, 0) && !counted(2, 0, 1));
        assert!(counted(3, 0, u64::MAX) && !counted(3, 0, 0));
        assert!(!counted(0, 0, 0));
        assert!(counted(0x0901, 1, 0) && !counted(0x0901, 0, 0));
    }
}
