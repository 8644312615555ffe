//! Fills, evictions and flushes, each chosen for the units that those before it leave.

use super::super::common::{self, Write};
use super::super::{planned, Random, Step};
use super::Steps;
use crate::model::capacity::{owners, Call, Fill, Setup, State};
use crate::model::registers::FLUSH_RCID;
use crate::model::Sizes;

/// One of the first units, any one, or at times one that does not exist.
pub fn any_unit(random: &mut Random, setup: &Setup) -> u64 {
    let units = setup.units();
    match random.below(20) {
        0 => random.pick(&[units - 1, units, units + setup.u, u64::MAX]),
        1..=8 => random.below(units.min(6)),
        _ => random.index(units),
    }
}

pub fn any_fill(random: &mut Random, setup: &Setup) -> Fill {
    let (rcid, at) = common::any_pair(random, setup);
    let mcid = common::any_mcid(random, setup, rcid);
    Fill { rcid, mcid, at, unit: any_unit(random, setup) }
}

/// FLUSH_RCID with any AT.
pub fn any_flush(random: &mut Random, setup: &Setup) -> Write {
    let (rcid, at) = (random.field_index(setup.nr, 12), random.below(8));
    common::alloc_ctl(random, FLUSH_RCID, rcid, at)
}

/// Fills and evictions, and at times a flush.
pub fn units(random: &mut Random, state: &State) -> Steps {
    planned(random, state, next)
}

fn next(random: &mut Random, state: &State) -> Steps {
    let setup = &state.record.setup;
    match random.below(12) {
        0..=4 => vec![Step::Call(Call::Fill(likely_fill(random, state)))],
        5 => vec![Step::Call(Call::Fill(any_fill(random, setup)))],
        6 | 7 => vec![Step::Call(Call::Evict { unit: some_owned_unit(random, state) })],
        8 => vec![Step::Call(Call::Evict { unit: any_unit(random, setup) })],
        9 => many_fills(random, state),
        10 => vec![Step::write(likely_flush(random, state))],
        _ => flush_and_refill(random, state),
    }
}

/// A unit that is owned, if there is one.
fn some_owned_unit(random: &mut Random, state: &State) -> u64 {
    let units = 0..state.owners.len();
    let owned: Vec<usize> = units.filter(|&unit| state.owners[unit] != 0).collect();
    match owned.len() {
        0 => any_unit(random, &state.record.setup),
        count => owned[random.place(count as u64)] as u64,
    }
}

/// The owner's RCID of some unit.
fn some_owner(random: &mut Random, state: &State) -> u64 {
    let unit = some_owned_unit(random, state).min(state.record.setup.units() - 1);
    owners::RCID.get(state.owners[unit as usize] as u64)
}

/// A pair with some blocks, if a few tries find one, and a unit that is owned, or stands at an end of
/// a block.
fn likely_fill(random: &mut Random, state: &State) -> Fill {
    let setup = &state.record.setup;
    let (mut rcid, mut at) = (0, 0);
    for _ in 0..4 {
        (rcid, at) = (random.below(setup.nr), random.below(setup.na));
        if state.masks[setup.place(rcid, at)] != 0 {
            break;
        }
    }
    let first = random.below(setup.ncblks) * setup.u;
    let ends = random.pick(&[first, first + setup.u - 1]);
    let (owned, any) = (some_owned_unit(random, state), any_unit(random, setup));
    let unit = random.pick(&[owned, owned, ends, any]);
    let mcids = random.pick(&[setup.nm.min(2), setup.nm]);
    let mcid = random.below(mcids);
    Fill { rcid, mcid, at, unit }
}

/// Fills of neighbouring units by RCIDs that may fill them or not.
fn many_fills(random: &mut Random, state: &State) -> Steps {
    let setup = &state.record.setup;
    let first = any_unit(random, setup).min(setup.units() - 1);
    let last = (first + random.between(2, 8)).min(setup.units());
    let fill = |unit| Step::Call(Call::Fill(Fill { unit, ..likely_fill(random, state) }));
    (first..last).map(fill).collect()
}

/// A flush of an RCID that owns units, or of one with the same low bits that does not exist.
pub fn likely_flush(random: &mut Random, state: &State) -> Write {
    let (owner, at) = (some_owner(random, state), random.below(8));
    let rcid = if random.percent(10) { owner + 256 * random.between(1, 15) } else { owner };
    common::alloc_ctl(random, FLUSH_RCID, rcid, at)
}

/// A flush of an RCID, and fills that it makes after it.
fn flush_and_refill(random: &mut Random, state: &State) -> Steps {
    let (rcid, at) = (some_owner(random, state), random.below(8));
    let mut steps = vec![Step::write(common::alloc_ctl(random, FLUSH_RCID, rcid, at))];
    for _ in 0..random.between(1, 3) {
        let fill = Fill { rcid, ..likely_fill(random, state) };
        steps.push(Step::Call(Call::Fill(fill)));
    }
    steps
}
