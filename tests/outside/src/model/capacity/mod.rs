//! The capacity controller: set-up, state, calls, and one call's effect.

mod check;
mod limits;
pub mod owners;
mod units;

pub use limits::{all_blocks, alloc_status, first_masks};
pub use units::{counted, CTR, INVALID};

use super::access::{write_part, Part};
use super::monitor::Monitor;
use super::registers::VERSION;
use super::{Answer, Performs};

/// Capacity events: 0 none, 1 occupancy.
pub const LAST_EVENT: u64 = 1;

/// The lent slices by number, in the order of the C interface.
pub mod slices {
    pub const RECORD: usize = 0;
    pub const MASKS: usize = 1;
    pub const COUNTERS: usize = 2;
    pub const EVENTS: usize = 3;
    pub const OWNERS: usize = 4;
}

/// The numbers that a reset is given.
#[derive(Clone, Copy, Debug, PartialEq, Eq, Default)]
pub struct Setup {
    pub ncblks: u64,
    pub nr: u64,
    pub na: u64,
    pub nm: u64,
    /// The width of a counter in bits.
    pub w: u64,
    /// The units of a block.
    pub u: u64,
}

super::sizes::common!(Setup, Call);

impl Setup {
    /// The number of units.
    pub fn units(&self) -> u64 {
        self.ncblks * self.u
    }

    pub fn block_of(&self, unit: u64) -> u64 {
        unit / self.u
    }
}

/// The controller's record.
#[derive(Clone, Copy, Debug, PartialEq, Eq, Default)]
pub struct Record {
    pub setup: Setup,
    pub mon_ctl: u64,
    pub mon_ctr_val: u64,
    pub alloc_ctl: u64,
    pub block_mask: u64,
}

/// The record and the lent tables.
#[derive(Clone, Debug, PartialEq, Eq, Default)]
pub struct State {
    pub record: Record,
    pub masks: Vec<u64>,
    pub counters: Vec<u64>,
    pub events: Vec<u16>,
    /// The owner of each unit.
    pub owners: Vec<u32>,
}

/// One call with its arguments. Evict is the paper's emptying (rule E3).
#[derive(Clone, Debug, PartialEq, Eq)]
pub enum Call {
    Reset(Setup),
    Read { size: u64, offset: u64 },
    Write { size: u64, offset: u64, value: u64 },
    Fill(Fill),
    Evict { unit: u64 },
}

#[derive(Clone, Copy, Debug, PartialEq, Eq)]
pub struct Fill {
    pub rcid: u64,
    pub mcid: u64,
    pub at: u64,
    pub unit: u64,
}

impl Performs for State {
    /// RCID 0 has every block for each AT; all else is 0, and every unit free.
    fn after_reset(setup: &Setup) -> State {
        State {
            record: Record { setup: *setup, ..Record::default() },
            masks: first_masks(setup),
            counters: vec![0; setup.nm as usize],
            events: vec![0; setup.nm as usize],
            owners: vec![0; setup.units() as usize],
        }
    }

    fn registers(&self) -> [u64; 5] {
        let Record { setup, mon_ctl, mon_ctr_val, alloc_ctl, block_mask } = self.record;
        [capabilities(&setup), mon_ctl, mon_ctr_val, alloc_ctl, block_mask]
    }

    fn monitor(&mut self) -> Monitor<'_> {
        let State { record: Record { setup, mon_ctl, mon_ctr_val, .. }, counters, events, .. } =
            self;
        let (na, nm, last_event) = (setup.na, setup.nm, LAST_EVENT);
        Monitor { na, nm, last_event, counters, events, mon_ctl, mon_ctr_val }
    }

    fn write_alloc_ctl(&mut self, value: u64) {
        limits::write_alloc_ctl(self, value);
    }

    /// Either half may be written alone.
    fn write_operand(&mut self, part: Part, value: u64) {
        let word = write_part(self.record.block_mask, part, value);
        self.record.block_mask = word & all_blocks(&self.record.setup);
    }

    fn own(&mut self, call: &Call) -> Answer {
        match call {
            Call::Fill(fill) => return Answer::value(units::fill(self, fill)),
            Call::Evict { unit } => units::evict(self, *unit),
            _ => {}
        }
        Answer::default()
    }
}

/// VER 7:0, NCBLKS 23:8; FRCID, bit 24, is 1.
fn capabilities(setup: &Setup) -> u64 {
    VERSION | setup.ncblks << 8 | 1 << 24
}
