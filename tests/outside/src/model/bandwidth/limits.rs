//! The operations of alloc_ctl: CONFIG_LIMIT and READ_LIMIT.

use super::settings::{all_reserved, bad_share, reserved, store, RBWB, SHARED_AT, USE_SHARED};
use super::{Setup, State};
use crate::model::registers::{alloc_ctl_fields, AT, CONFIG_LIMIT, DONE, OP, RCID, STATUS};
use crate::model::{limits, Sizes};

pub fn write_alloc_ctl(state: &mut State, value: u64) {
    let setup = state.record.setup;
    let fields = alloc_ctl_fields(value, setup.na);
    let status = alloc_status(&setup, &state.configured, state.record.bw_alloc, fields);
    if status == DONE {
        let (rcid, at) = (RCID.get(fields), AT.get(fields));
        let State { record, configured, .. } = state;
        match OP.get(fields) {
            CONFIG_LIMIT => store(&setup, configured, rcid, at, record.bw_alloc),
            _ => record.bw_alloc = configured[setup.place(rcid, at)] as u64,
        }
    }
    state.record.alloc_ctl = fields | STATUS.place(status);
}

/// STATUS of the operation that alloc_ctl's fields ask for, over the configured words.
pub fn alloc_status(setup: &Setup, configured: &[u32], bw_alloc: u64, fields: u64) -> u64 {
    limits::alloc_status(setup, fields, |rcid, at| {
        bad_operand(setup, configured, rcid, at, bw_alloc)
    })
}

/// Whether bw_alloc is a bad operand for a pair, given the other configured settings.
pub fn bad_operand(setup: &Setup, configured: &[u32], rcid: u64, at: u64, operand: u64) -> bool {
    if USE_SHARED.get(operand) == 1 {
        return bad_share(setup, configured, rcid, at, SHARED_AT.get(operand));
    }
    let replaced = reserved(configured[setup.place(rcid, at)]);
    let others = all_reserved(configured) - replaced;
    let rbwb = RBWB.get(operand);
    rbwb == 0 || rbwb + others > setup.mrbwb
}

#[cfg(test)]
mod tests {
    use super::*;

    const SETUP: Setup = Setup { nbwblks: 100, mrbwb: 80, nr: 2, na: 3, nm: 1, q: 64, w: 24 };

    #[test]
    fn the_replaced_setting_is_not_counted() {
        let words = [60, 0, 0, 20, 0, 0];
        assert!(!bad_operand(&SETUP, &words, 0, 0, 60));
        assert!(bad_operand(&SETUP, &words, 0, 0, 61));
        assert!(bad_operand(&SETUP, &words, 0, 1, 1));
        assert!(!bad_operand(&SETUP, &words, 1, 0, 20));
    }

    #[test]
    fn a_pair_that_others_share_cannot_share() {
        // RCID 0: AT 0 and AT 2 hold, AT 1 shares AT 0
        let words = [10, 0x8000_0000, 5, 0, 0, 0];
        assert!(bad_operand(&SETUP, &words, 0, 0, 0xA000_0000));
        assert!(!bad_operand(&SETUP, &words, 0, 1, 0xA000_0000));
        assert!(!bad_operand(&SETUP, &words, 0, 2, 0x8000_0000));
    }

    #[test]
    fn wrong_targets() {
        let words = [10, 0x8000_0000, 0, 0, 0, 0];
        assert!(bad_operand(&SETUP, &words, 0, 2, 0x9000_0000), "a sharer");
        assert!(bad_operand(&SETUP, &words, 0, 2, 0xA000_0000), "itself");
        assert!(bad_operand(&SETUP, &words, 0, 2, 0xB000_0000), "AT 3 of 3");
        assert!(bad_operand(&SETUP, &words, 1, 2, 0x8000_0000), "an unset pair");
        assert!(!bad_operand(&SETUP, &words, 0, 2, 0x8000_0000));
    }
}
