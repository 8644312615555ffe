//! The refusals of the bandwidth controller, in checking order.

use super::request::{pool_size, CTR};
use super::settings::{
    all_reserved, bad_share, is_sharer, named_bits, one_weight_each, reserved, shared_at,
    stored_form,
};
use super::waiters::waiter_well_formed;
use super::{Call, Record, Request, Setup, State, LAST_EVENT};
use crate::model::check::Checked;
use crate::model::monitor::monitor_fault;
use crate::model::registers::{alloc_ctl_well_formed, mon_ctl_well_formed};
use crate::model::Sizes;

pub const TWO_CONFIGURED_WEIGHTS: &str = "two configured weights of an RCID";
pub const TWO_WEIGHTS_IN_FORCE: &str = "two weights of an RCID in force";

impl Checked for State {
    type Call = Call;

    /// 12 words.
    const RECORD_LENGTH: usize = 96;

    fn setup(&self) -> &Setup {
        &self.record.setup
    }

    fn in_range(setup: &Setup) -> bool {
        setup.sizes_in_range()
            && (1..=65_535).contains(&setup.nbwblks)
            && (1..=setup.nbwblks).contains(&setup.mrbwb)
            && (1..=65_536).contains(&setup.q)
    }

    /// The lengths of active, configured, used, counters, events and waiters in bytes.
    fn table_lengths(setup: &Setup) -> Vec<usize> {
        let words = 4 * setup.pairs();
        let [nm, nr] = [setup.nm, setup.nr].map(|count| count as usize);
        vec![words, words, words, 8 * nm, 2 * nm, 8 * nr]
    }

    fn fault(&self) -> Option<&'static str> {
        let setup = &self.record.setup;
        if !registers_well_formed(&self.record) {
            Some("a register")
        } else if !settings_well_formed(setup, &self.configured) {
            Some("a configured setting")
        } else if !settings_well_formed(setup, &self.active) {
            Some("a setting in force")
        } else if !one_weight_each(setup, &self.configured) {
            Some(TWO_CONFIGURED_WEIGHTS)
        } else if !one_weight_each(setup, &self.active) {
            Some(TWO_WEIGHTS_IN_FORCE)
        } else if !used_well_formed(self) {
            Some("used bytes")
        } else if self.record.pool_given > pool_size(setup, &self.active) {
            Some("the pool's bytes")
        } else if !self.waiters.iter().all(|&word| waiter_well_formed(setup, word)) {
            Some("a waiter")
        } else {
            monitor_fault(setup, LAST_EVENT, CTR, &self.counters, &self.events)
        }
    }

    fn own_refusal(&self, call: &Call) -> u64 {
        let setup = &self.record.setup;
        match call {
            Call::Request(request) if names_unknown(setup, request) => 7,
            Call::DeviceRequest(device) if names_unknown(setup, &device.request()) => {
                if device.has_directory() {
                    9
                } else {
                    7
                }
            }
            Call::Wait(request) => self.wait_refusal(request),
            Call::Need { rcid } if *rcid >= setup.nr => 7,
            _ => 0,
        }
    }
}

impl State {
    fn wait_refusal(&self, request: &Request) -> u64 {
        if names_unknown(&self.record.setup, request) {
            7
        } else if self.waiters[request.rcid as usize] != 0 {
            10
        } else if request.bytes == 0 {
            11
        } else {
            0
        }
    }
}

/// Whether a request names an RCID or an MCID that does not exist.
fn names_unknown(setup: &Setup, request: &Request) -> bool {
    request.rcid >= setup.nr || request.mcid >= setup.nm
}

/// Every bit of mon_ctr_val is in one of its fields, so any word is well formed there.
fn registers_well_formed(record: &Record) -> bool {
    let na = record.setup.na;
    alloc_ctl_well_formed(record.alloc_ctl, na)
        && mon_ctl_well_formed(record.mon_ctl, na)
        && record.bw_alloc == named_bits(record.bw_alloc)
}

/// Whether a settings table meets the operand rules for every pair at once.
pub fn settings_well_formed(setup: &Setup, words: &[u32]) -> bool {
    let pairs = (0..setup.nr).flat_map(|rcid| (0..setup.na).map(move |at| (rcid, at)));
    let each_pair = |(rcid, at): (u64, u64)| {
        let word = words[setup.place(rcid, at)];
        let operand_is_good = if is_sharer(word) {
            !bad_share(setup, words, rcid, at, shared_at(word))
        } else {
            word == 0 || reserved(word) != 0
        };
        operand_is_good && word == stored_form(word as u64)
    };
    pairs.into_iter().all(each_pair) && all_reserved(words) <= setup.mrbwb
}

/// A holder in force used no more than it reserved, and nothing is used elsewhere.
fn used_well_formed(state: &State) -> bool {
    let limit = |word: u32| reserved(word) * state.record.setup.q;
    state.active.iter().zip(&state.used).all(|(&word, &used)| used as u64 <= limit(word))
}

#[cfg(test)]
mod tests {
    use super::super::limits::bad_operand;
    use super::super::reset::after_reset;
    use super::super::DeviceRequest;
    use super::*;
    use crate::generator::Random;

    const SETUP: Setup = Setup { nbwblks: 9, mrbwb: 6, nr: 2, na: 3, nm: 1, q: 4, w: 24 };

    /// The paper's own words: the operand rules for every pair at once, unset pairs excepted,
    /// with fields in their stored form.
    fn every_pair_by_the_operand_rules(words: &[u32]) -> bool {
        (0..SETUP.nr).all(|rcid| {
            (0..SETUP.na).all(|at| {
                let word = words[SETUP.place(rcid, at)] as u64;
                let stored = stored_form(word) as u64 == word;
                word == 0 || (stored && !bad_operand(&SETUP, words, rcid, at, word))
            })
        })
    }

    #[test]
    fn one_sum_for_all_is_the_rule_for_each() {
        let mut random = Random::new(7);
        let mut good = 0;
        for _ in 0..200_000 {
            let words: Vec<u32> = (0..SETUP.pairs()).map(|_| any_word(&mut random)).collect();
            let expected = every_pair_by_the_operand_rules(&words);
            assert_eq!(settings_well_formed(&SETUP, &words), expected, "{words:x?}");
            good += expected as u32;
        }
        assert!(good > 1_000, "{good} good tables");
    }

    fn any_word(random: &mut Random) -> u32 {
        match random.below(20) {
            0 => random.next() as u32,
            1 => 0x0010_0000,
            2 => 0x8000_0001,
            3 => 0x1000_0001,
            4..=8 => 0x8000_0000 | (random.below(4) as u32) << 28,
            9..=13 => random.below(4) as u32,
            _ => 0,
        }
    }

    /// NR is 2 and NM 1.
    #[test]
    fn identifiers_of_devices() {
        let refusal = |mode: u64, word: u64| {
            let device = DeviceRequest { mode, word, at: 0, kind: 0, bytes: 0 };
            after_reset(&SETUP).own_refusal(&Call::DeviceRequest(device))
        };
        let [register, context] = [0x0000_0000_0000_0001, 0x0000_0100_0000_0000];
        assert_eq!([0, 1, 2, 3].map(|mode| refusal(mode, register | context)), [0; 4]);
        assert_eq!([0, 1, 2, 3].map(|mode| refusal(mode, 2 * register)), [7, 7, 0, 0]);
        assert_eq!([0, 1, 2, 3].map(|mode| refusal(mode, 2 * context)), [0, 0, 9, 9]);
        assert_eq!([0, 1, 2, 3].map(|mode| refusal(mode, 1 << 16)), [7, 7, 0, 0]);
        assert_eq!([0, 1, 2, 3].map(|mode| refusal(mode, 1 << 52)), [0, 0, 9, 9]);
    }

    /// NR is 2 and NM 1; under RCID 1 a request waits.
    #[test]
    fn order_of_a_waits_refusals() {
        let mut state = after_reset(&SETUP);
        state.waiters[1] = 1;
        let refusal = |rcid: u64, mcid: u64, bytes: u32| {
            state.own_refusal(&Call::Wait(Request { rcid, mcid, at: 0, kind: 0, bytes }))
        };
        assert_eq!([refusal(0, 0, 1), refusal(0, 0, 0)], [0, 11]);
        assert_eq!([refusal(1, 0, 1), refusal(1, 0, 0)], [10, 10]);
        assert_eq!([refusal(2, 0, 0), refusal(1, 1, 0), refusal(0, 1, 1)], [7, 7, 7]);
    }

    #[test]
    fn a_word_with_only_a_weight() {
        assert!(!settings_well_formed(&SETUP, &[0x0010_0000, 0, 0, 0, 0, 0]));
    }

    #[test]
    fn all_of_mrbwb_and_one_more() {
        assert!(settings_well_formed(&SETUP, &[1, 2, 0, 3, 0, 0]));
        assert!(!settings_well_formed(&SETUP, &[1, 2, 0, 4, 0, 0]));
    }
}
