//! Damaged records and tables of the capacity controller.

use super::super::common::{damaged_counter, damaged_event, damaged_setup, flipped_bit};
use super::super::{Change, Random};
use crate::model::capacity::owners::{AT, MCID, OWNED, RCID};
use crate::model::capacity::slices::*;
use crate::model::capacity::{all_blocks, Setup, State, LAST_EVENT};
use crate::model::Sizes;

/// A flipped bit, or a word overwritten with a value at the end of what is allowed there.
pub fn damage(random: &mut Random, state: &State, lengths: &[usize]) -> Change {
    let setup = &state.record.setup;
    match random.below(9) {
        0 | 1 => flipped_bit(random, lengths),
        2 => setup_word(random, setup),
        3 => register_word(random, setup),
        4 => mask(random, setup),
        5 => damaged_counter(random, COUNTERS, setup, 62, 1 << 63),
        6 => damaged_event(random, EVENTS, setup, LAST_EVENT),
        _ => owner(random, state),
    }
}

/// A number of the set-up in the record, at an end of its range or beyond.
fn setup_word(random: &mut Random, setup: &Setup) -> Change {
    let index = random.below(6) as usize;
    let values = match index {
        0 => vec![0, 1, setup.ncblks - 1, setup.ncblks + 1, 64, 65],
        1 => vec![0, 1, setup.na, 256, 257],
        2 => vec![0, 1, setup.nr, 8, 9],
        3 => vec![0, 1, 256, 257],
        4 => vec![23, 24, 62, 63, 64],
        _ => vec![0, 1, setup.u - 1, setup.u + 1, setup.ncblks, 64, 65],
    };
    damaged_setup(random, index, &values)
}

fn register_word(random: &mut Random, setup: &Setup) -> Change {
    let index = random.between(6, 9) as usize;
    let value = match (index, random.below(3)) {
        (9, 0) => all_blocks(setup),
        (9, 1) => all_blocks(setup).wrapping_add(1),
        (_, 0) => 1 << random.below(64),
        (_, 1) => random.next() & 0x7F_1FFF_FFFF,
        _ => random.number(),
    };
    Change::word(RECORD, 8, index, value)
}

fn mask(random: &mut Random, setup: &Setup) -> Change {
    let blocks = all_blocks(setup);
    let value = match random.below(5) {
        0 => 0,
        1 => blocks,
        2 => blocks.wrapping_add(1),
        3 => random.next() & blocks,
        _ => 1 << random.below(64),
    };
    Change::word(MASKS, 8, random.place(setup.pairs() as u64), value)
}

/// A word of owners: at the ends of what a fill stores, or just beyond in one field.
pub fn owner(random: &mut Random, state: &State) -> Change {
    let setup = &state.record.setup;
    let place = random.place(setup.units());
    let [rcid, mcid, at] = [setup.nr, setup.nm, setup.na].map(|count| random.below(count));
    let good = RCID.place(rcid) | MCID.place(mcid) | AT.place(at) | OWNED.place(1);
    let value = match random.below(9) {
        0 => 0,
        1 => good,
        2 => good & !OWNED.mask(),
        3 => good & !RCID.mask() | RCID.place(setup.nr & 0xFF),
        4 => good & !MCID.mask() | MCID.place(setup.nm & 0xFF),
        5 => good & !AT.mask() | AT.place(setup.na & 7),
        6 => {
            let any = random.between(20, 31);
            good | 1 << random.pick(&[20, 31, any])
        }
        7 => state.owners[place] as u64 ^ 1 << random.below(32),
        _ => random.next() & 0xFFFF_FFFF,
    };
    Change::word(OWNERS, 4, place, value)
}
