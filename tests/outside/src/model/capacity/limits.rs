//! Block masks and the operations of alloc_ctl: CONFIG_LIMIT, READ_LIMIT and FLUSH_RCID.

use super::units::flush;
use super::{Setup, State};
use crate::model::registers::{
    alloc_ctl_fields, AT, CONFIG_LIMIT, DONE, FLUSH_RCID, OP, RCID, READ_LIMIT, STATUS,
};
use crate::model::{limits, Sizes};

/// The mask with every block that the controller has.
pub fn all_blocks(setup: &Setup) -> u64 {
    ((1u128 << setup.ncblks) - 1) as u64
}

/// The masks after a reset.
pub fn first_masks(setup: &Setup) -> Vec<u64> {
    let mut masks = vec![0; setup.pairs()];
    masks[..setup.na as usize].fill(all_blocks(setup));
    masks
}

pub fn write_alloc_ctl(state: &mut State, value: u64) {
    let setup = state.record.setup;
    let fields = alloc_ctl_fields(value, setup.na);
    let status = alloc_status(&setup, state.record.block_mask, fields);
    if status == DONE {
        let (rcid, at) = (RCID.get(fields), AT.get(fields));
        match OP.get(fields) {
            CONFIG_LIMIT => state.masks[setup.place(rcid, at)] = state.record.block_mask,
            READ_LIMIT => state.record.block_mask = state.masks[setup.place(rcid, at)],
            _ => flush(state, rcid),
        }
    }
    state.record.alloc_ctl = fields | STATUS.place(status);
}

/// STATUS of the operation that alloc_ctl's fields ask for. FLUSH_RCID judges the RCID alone.
pub fn alloc_status(setup: &Setup, block_mask: u64, fields: u64) -> u64 {
    if OP.get(fields) == FLUSH_RCID {
        return if RCID.get(fields) < setup.nr { DONE } else { 3 };
    }
    limits::alloc_status(setup, fields, |_, _| block_mask == 0)
}

#[cfg(test)]
mod tests {
    use super::*;

    #[test]
    fn masks_of_1_63_and_64_blocks() {
        let blocks = |ncblks| all_blocks(&Setup { ncblks, nr: 1, na: 1, nm: 1, w: 24, u: 1 });
        assert_eq!(blocks(1), 1);
        assert_eq!(blocks(63), u64::MAX >> 1);
        assert_eq!(blocks(64), u64::MAX);
    }

    #[test]
    fn a_mask_of_0_is_judged_last() {
        let setup = Setup { ncblks: 8, nr: 2, na: 2, nm: 1, w: 24, u: 1 };
        assert_eq!(alloc_status(&setup, 0, 0x101), 5);
        assert_eq!(alloc_status(&setup, 0, 0x102), 1);
        assert_eq!(alloc_status(&setup, 0, 0x141), 4);
        assert_eq!(alloc_status(&setup, 0, 0x241), 3);
        assert_eq!(alloc_status(&setup, 0, 0x244), 2);
    }

    #[test]
    fn a_flush_judges_the_rcid_alone() {
        let setup = Setup { ncblks: 8, nr: 2, na: 2, nm: 1, w: 24, u: 1 };
        assert_eq!(alloc_status(&setup, 0, 0x103), 1);
        assert_eq!(alloc_status(&setup, 0, 0x1E3), 1);
        assert_eq!(alloc_status(&setup, 0xFF, 0x203), 3);
        assert_eq!(alloc_status(&setup, 0xFF, 0x2E3), 3);
    }
}
