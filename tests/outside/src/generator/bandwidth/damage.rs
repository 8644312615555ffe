//! Damaged records and tables of the bandwidth controller.

use super::super::common::{damaged_counter, damaged_event, damaged_setup, flipped_bit};
use super::super::{Change, Random};
use crate::model::bandwidth::settings::{all_reserved, is_holder, reserved, MWEIGHT};
use crate::model::bandwidth::slices::*;
use crate::model::bandwidth::waiters::{AT, MCID, NEED, WRITE};
use crate::model::bandwidth::{pool_size, Setup, State, LAST_EVENT};
use crate::model::Sizes;

/// A flipped bit, or a word overwritten with a value at the end of what is allowed there.
pub fn damage(random: &mut Random, state: &State, lengths: &[usize]) -> Change {
    match random.below(10) {
        0 | 1 => flipped_bit(random, lengths),
        2 => setup_word(random, &state.record.setup),
        3 => register_word(random, state),
        4 => setting(random, state),
        5 => used(random, state),
        6 => weight(random, state),
        7 => damaged_counter(random, COUNTERS, &state.record.setup, 61, 3 << 62),
        8 => damaged_event(random, EVENTS, &state.record.setup, LAST_EVENT),
        _ => waiter(random, state),
    }
}

/// A number of the set-up in the record, at an end of its range or beyond.
fn setup_word(random: &mut Random, setup: &Setup) -> Change {
    let index = random.below(7) as usize;
    let values = match index {
        0 => vec![0, setup.mrbwb, setup.mrbwb - 1, 65_535, 65_536],
        1 => vec![0, 1, setup.nbwblks, setup.nbwblks + 1],
        2 => vec![0, 1, setup.na, 256, 257],
        3 => vec![0, 1, setup.nr, 8, 9],
        4 => vec![0, 1, 256, 257],
        5 => vec![0, 1, 65_536, 65_537],
        _ => vec![23, 24, 62, 63, 64],
    };
    damaged_setup(random, index, &values)
}

/// A register or the pool's bytes in the record.
fn register_word(random: &mut Random, state: &State) -> Change {
    let index = random.between(7, 11) as usize;
    let pool = pool_size(&state.record.setup, &state.active);
    let value = match (index, random.below(3)) {
        (11, 0) => pool,
        (11, 1) => pool + 1,
        (_, 0) => 1 << random.below(64),
        (_, 1) => random.next() & 0x7F_1FFF_FFFF,
        _ => random.number(),
    };
    Change::word(RECORD, 8, index, value)
}

/// A word of the active or the configured table.
fn setting(random: &mut Random, state: &State) -> Change {
    let setup = &state.record.setup;
    let table = random.between(1, 2) as usize;
    let words = if table == 1 { &state.active } else { &state.configured };
    let place = random.place(setup.pairs() as u64);
    let free = setup.mrbwb - (all_reserved(words) - reserved(words[place]));
    let value = match random.below(9) {
        0 => 0,
        1 => free,
        2 => free + 1,
        3 => 1 << 20,
        4 => 0x8000_0000 | random.below(8) << 28,
        5 => 0x8000_0000 | random.below(8) << 28 | random.pick(&[1, 1 << 20]),
        6 => 1 | random.below(8) << 28,
        7 => words[place] as u64 ^ 1 << random.below(32),
        _ => random.next(),
    };
    Change::word(table, 4, place, value & 0xFFFF_FFFF)
}

/// A bit of one holder's weight in either table, if a few tries find an RCID with several.
pub fn weight(random: &mut Random, state: &State) -> Change {
    let setup = &state.record.setup;
    let (table, words) = random.pick(&[(ACTIVE, &state.active), (CONFIGURED, &state.configured)]);
    let mut held = vec![];
    for _ in 0..8 {
        let rcid = random.place(setup.nr) as u64;
        held = setup.row(rcid).filter(|&place| is_holder(words[place])).collect();
        if held.len() > 1 {
            break;
        }
    }
    if held.is_empty() {
        return setting(random, state);
    }
    let place = held[random.place(held.len() as u64)];
    let bit = MWEIGHT.place(1 << random.below(8));
    Change::word(table, 4, place, words[place] as u64 ^ bit)
}

/// A word of the used table: all of a reservation, one more, or one byte where nothing is reserved.
fn used(random: &mut Random, state: &State) -> Change {
    let setup = &state.record.setup;
    let place = random.place(setup.pairs() as u64);
    let limit = reserved(state.active[place]) * setup.q;
    let value = random.pick(&[0, 1, limit, limit + 1, limit + setup.q, 0xFFFF_FFFF]);
    Change::word(USED, 4, place, value & 0xFFFF_FFFF)
}

/// A word of waiters: at the ends of what a call stores, or just beyond in one field.
fn waiter(random: &mut Random, state: &State) -> Change {
    let setup = &state.record.setup;
    let place = random.place(setup.nr);
    let [mcid, at] = [setup.nm, setup.na].map(|count| random.below(count));
    let good = NEED.place(random.between(1, u32::MAX as u64)) | MCID.place(mcid) | AT.place(at);
    let value = match random.below(9) {
        0 => 0,
        1 => good | WRITE.mask(),
        2 => good & !NEED.mask(),
        3 => WRITE.mask(),
        4 => good & !MCID.mask() | MCID.place(setup.nm & 0xFF),
        5 => good & !AT.mask() | AT.place(setup.na & 7),
        6 => {
            let any = random.between(44, 63);
            good | 1 << random.pick(&[44, 63, any])
        }
        7 => state.waiters[place] ^ 1 << random.below(64),
        _ => random.next(),
    };
    Change::word(WAITERS, 8, place, value)
}
