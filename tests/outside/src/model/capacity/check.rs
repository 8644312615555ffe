//! The refusals of the capacity controller, in checking order.

use super::limits::all_blocks;
use super::owners::owner_well_formed;
use super::units::CTR;
use super::{Call, Fill, Record, Setup, State, LAST_EVENT};
use crate::model::check::Checked;
use crate::model::monitor::monitor_fault;
use crate::model::registers::{alloc_ctl_well_formed, mon_ctl_well_formed};
use crate::model::Sizes;

impl Checked for State {
    type Call = Call;

    /// 10 words.
    const RECORD_LENGTH: usize = 80;

    fn setup(&self) -> &Setup {
        &self.record.setup
    }

    fn in_range(setup: &Setup) -> bool {
        setup.sizes_in_range() && (1..=64).contains(&setup.ncblks) && (1..=64).contains(&setup.u)
    }

    /// The lengths of masks, counters, events and owners in bytes.
    fn table_lengths(setup: &Setup) -> Vec<usize> {
        let nm = setup.nm as usize;
        vec![8 * setup.pairs(), 8 * nm, 2 * nm, 4 * setup.units() as usize]
    }

    /// A mask of 0 is a pair that was never set.
    fn fault(&self) -> Option<&'static str> {
        let setup = &self.record.setup;
        let blocks = all_blocks(setup);
        if !registers_well_formed(&self.record) {
            Some("a register")
        } else if self.masks.iter().any(|&mask| mask & !blocks != 0) {
            Some("a mask")
        } else if !self.owners.iter().all(|&word| owner_well_formed(setup, word)) {
            Some("an owner")
        } else {
            monitor_fault(setup, LAST_EVENT, CTR, &self.counters, &self.events)
        }
    }

    fn own_refusal(&self, call: &Call) -> u64 {
        let setup = &self.record.setup;
        match call {
            Call::Fill(fill) if fill.rcid >= setup.nr || fill.mcid >= setup.nm => 7,
            Call::Fill(Fill { unit, .. }) | Call::Evict { unit } if *unit >= setup.units() => 8,
            _ => 0,
        }
    }
}

/// Every bit of mon_ctr_val is in one of its fields, so any word is well formed there.
fn registers_well_formed(record: &Record) -> bool {
    let na = record.setup.na;
    alloc_ctl_well_formed(record.alloc_ctl, na)
        && mon_ctl_well_formed(record.mon_ctl, na)
        && record.block_mask & !all_blocks(&record.setup) == 0
}
