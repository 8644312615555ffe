//! Well-formed states made directly, with many pairs set and amounts used up to their ends.

use super::super::states::{any_alloc_ctl, any_counters, any_events, any_mon_ctl, loaded, up_to};
use super::super::Random;
use super::operand::any_weight;
use super::waiters::any_waiters;
use super::{damage, Steps};
use crate::controller::Bandwidth;
use crate::model::bandwidth::settings::{reserved, MWEIGHT, RBWB, SHARED_AT, USE_SHARED};
use crate::model::bandwidth::{pool_size, Record, Setup, State, LAST_EVENT};
use crate::model::{Checked, Sizes};

/// Lends such a state, makes calls on it, and often damages it by one word, a weight most of all.
pub fn any_loaded(random: &mut Random, setup: &Setup) -> Steps {
    let state = any_state(random, setup);
    let lengths = State::lengths(setup);
    loaded::<Bandwidth>(random, &state, |random| match random.below(10) {
        0..=2 => Some(damage::damage(random, &state, &lengths)),
        3..=6 => Some(damage::weight(random, &state)),
        _ => None,
    })
}

fn any_state(random: &mut Random, setup: &Setup) -> State {
    let active = any_settings(random, setup);
    let pool = pool_size(setup, &active);
    let record = Record {
        setup: *setup,
        mon_ctl: any_mon_ctl(random, setup.na),
        mon_ctr_val: random.number(),
        alloc_ctl: any_alloc_ctl(random, setup.na),
        bw_alloc: random.next() & 0xFFF0_FFFF,
        pool_given: up_to(random, pool),
    };
    let used = active.iter().map(|&word| up_to(random, reserved(word) * setup.q) as u32).collect();
    let configured = any_settings(random, setup);
    let counters = any_counters(random, setup, 3 << 62);
    let events = any_events(random, setup, LAST_EVENT);
    let waiters = any_waiters(random, setup, &configured);
    State { record, active, configured, used, counters, events, waiters }
}

/// Holders with blocks that together may reach MRBWB, those of an RCID with one weight, and sharers.
fn any_settings(random: &mut Random, setup: &Setup) -> Vec<u32> {
    let mut words = vec![0; setup.pairs()];
    let mut free = setup.mrbwb;
    let share = random.pick(&[1, 2, 1 + setup.pairs() as u64]);
    // the RCID that comes first finds the most blocks
    let first = random.place(setup.nr) as u64;
    for rcid in (first..setup.nr).chain(0..first) {
        let main = random.below(setup.na);
        let weight = any_weight(random);
        let holding = random.pick(&[10, 30, 90]);
        for at in 0..setup.na {
            let blocks = random.between(0, (free / share).max(1).min(free));
            let is_main = at == main;
            if blocks > 0 && (is_main || random.percent(holding)) {
                free -= blocks;
                words[setup.place(rcid, at)] = (RBWB.place(blocks) | MWEIGHT.place(weight)) as u32;
            }
        }
        if words[setup.place(rcid, main)] != 0 {
            add_sharers(random, setup, rcid, main, &mut words);
        }
    }
    words
}

fn add_sharers(random: &mut Random, setup: &Setup, rcid: u64, main: u64, words: &mut [u32]) {
    for at in 0..setup.na {
        let word = &mut words[setup.place(rcid, at)];
        if *word == 0 && random.percent(60) {
            *word = (USE_SHARED.place(1) | SHARED_AT.place(main)) as u32;
        }
    }
}
