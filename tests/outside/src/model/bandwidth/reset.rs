//! The state after a reset.

use super::settings::{MWEIGHT, RBWB, USE_SHARED};
use super::{Record, Setup, State};
use crate::model::Sizes;

/// RCID 0 holds MRBWB blocks with weight 1 at AT 0, its other ATs share AT 0, and all else is 0:
/// nobody waits.
pub fn after_reset(setup: &Setup) -> State {
    let words = first_settings(setup);
    State {
        record: Record { setup: *setup, ..Record::default() },
        active: words.clone(),
        configured: words,
        used: vec![0; setup.pairs()],
        counters: vec![0; setup.nm as usize],
        events: vec![0; setup.nm as usize],
        waiters: vec![0; setup.nr as usize],
    }
}

pub fn first_settings(setup: &Setup) -> Vec<u32> {
    let mut words = vec![0; setup.pairs()];
    words[0] = (RBWB.place(setup.mrbwb) | MWEIGHT.place(1)) as u32;
    for at in 1..setup.na {
        words[setup.place(0, at)] = USE_SHARED.place(1) as u32;
    }
    words
}
