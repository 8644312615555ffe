//! Parts of well-formed states made directly, and lists of calls on these.

use super::{Change, Random, Step};
use crate::controller::Controller;
use crate::image::Image;
use crate::model::registers::held_at;
use crate::model::{Checked, CommonCall, Sizes};

/// Lends a state and makes calls on it, some of them on damaged memory; `damage` may choose none.
pub fn loaded<C: Controller>(
    random: &mut Random,
    state: &C::State,
    damage: impl Fn(&mut Random) -> Option<Change>,
) -> Vec<Step<C::Call>> {
    let setup = state.setup();
    let mut steps = vec![Step::Lend { contents: state.bytes(), skew: random.below(8) as usize }];
    for _ in 0..random.between(2, 8) {
        let call = C::any_call(random, setup);
        steps.push(match damage(random) {
            Some(change) => Step::Damaged { changes: vec![change], call },
            None => Step::Call(call),
        });
    }
    if random.percent(70) {
        steps.push(Step::Call(C::Call::reset(*setup)));
    }
    steps
}

/// 0, the limit, or any number between.
pub fn up_to(random: &mut Random, limit: u64) -> u64 {
    match random.below(3) {
        0 => 0,
        1 => limit,
        _ => random.between(0, limit),
    }
}

pub fn any_alloc_ctl(random: &mut Random, na: u64) -> u64 {
    let at = held_at(random.below(8), na) << 5;
    random.next() & 0x7F_000F_FF1F | at
}

pub fn any_mon_ctl(random: &mut Random, na: u64) -> u64 {
    let at = held_at(random.below(8), na) << 5;
    let atv = held_at(random.below(2), na) << 28;
    random.next() & 0x7F_0FFF_FF1F | at | atv
}

/// Counters up to the ends of their range, with these flags or without.
pub fn any_counters(random: &mut Random, sizes: &impl Sizes, flags: u64) -> Vec<u64> {
    let top = (1 << sizes.w()) - 1;
    (0..sizes.nm()).map(|_| up_to(random, top) | random.next() & flags).collect()
}

pub fn any_events(random: &mut Random, sizes: &impl Sizes, last_event: u64) -> Vec<u16> {
    (0..sizes.nm()).map(|_| any_event(random, sizes.na(), last_event)).collect()
}

fn any_event(random: &mut Random, na: u64, last_event: u64) -> u16 {
    let event = random.below(last_event + 1);
    if event == 0 || na == 1 || random.percent(50) {
        return event as u16;
    }
    (event | random.below(na) << 8 | 1 << 11) as u16
}
