//! Well-formed states made directly, with any number of units owned and counters up to their ends.

use super::super::states::{any_alloc_ctl, any_counters, any_events, any_mon_ctl, loaded};
use super::super::{Random, Step};
use super::units::likely_flush;
use super::{any_mask, damage, Steps};
use crate::controller::Capacity;
use crate::model::capacity::owners::owner_of;
use crate::model::capacity::{all_blocks, Fill, Record, Setup, State, LAST_EVENT};
use crate::model::{Checked, Sizes};

/// Lends such a state, makes calls on it, often a flush first, and at times damages it by one word, an
/// owner most of all.
pub fn any_loaded(random: &mut Random, setup: &Setup) -> Steps {
    let state = any_state(random, setup);
    let lengths = State::lengths(setup);
    let mut steps = loaded::<Capacity>(random, &state, |random| match random.below(10) {
        0 => Some(damage::damage(random, &state, &lengths)),
        1..=3 => Some(damage::owner(random, &state)),
        _ => None,
    });
    if random.percent(70) {
        steps.insert(1, Step::write(likely_flush(random, &state)));
    }
    steps
}

fn any_state(random: &mut Random, setup: &Setup) -> State {
    let blocks = all_blocks(setup);
    let record = Record {
        setup: *setup,
        mon_ctl: any_mon_ctl(random, setup.na),
        mon_ctr_val: random.number(),
        alloc_ctl: any_alloc_ctl(random, setup.na),
        block_mask: any_mask(random, setup) & blocks,
    };
    let masks = (0..setup.pairs()).map(|_| any_mask(random, setup) & blocks).collect();
    let counters = any_counters(random, setup, 1 << 63);
    let events = any_events(random, setup, LAST_EVENT);
    State { record, masks, counters, events, owners: any_owners(random, setup) }
}

/// Owners of no unit, of some or of all; they are one pair of RCID and MCID, a few or any.
fn any_owners(random: &mut Random, setup: &Setup) -> Vec<u32> {
    let chance = random.pick(&[0, 10, 50, 100, 100]);
    let (rcids, mcids) = random.pick(&[(1, 1), (1, 3), (3, 2), (256, 256)]);
    let owner = |unit| {
        let rcid = random.below(setup.nr.min(rcids));
        let (mcid, at) = (random.below(setup.nm.min(mcids)), random.below(setup.na));
        if random.percent(chance) {
            owner_of(&Fill { rcid, mcid, at, unit }, setup.na)
        } else {
            0
        }
    };
    (0..setup.units()).map(owner).collect()
}
