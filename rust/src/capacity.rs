mod units;

use crate::common::{buffers, controller};
use crate::parts::{number, pair, word, ByMcid, ByPair, Flags, Hex};
use crate::{ffi, registers, table_len, Counter, Refusal};

pub use units::Owner;

use std::fmt;
use units::Units;

/// Set-up of a capacity controller.
#[derive(Clone, Copy, Debug, PartialEq, Eq)]
pub struct CapacitySetup {
    /// Capacity blocks, 1 to 64.
    pub ncblks: u64,
    /// RCIDs, 1 to 256.
    pub nr: u64,
    /// Access types, 1 to 8.
    pub na: u64,
    /// MCIDs, 1 to 256.
    pub nm: u64,
    /// Width of a counter in bits, 24 to 62.
    pub w: u64,
    /// Units of a block, 1 to 64.
    pub u: u64,
}

buffers! {
    /// Record and tables of a capacity controller as little-endian bytes, in the
    /// layout of `cbqri.h`. `Debug` shows their lengths; see [`Capacity`] for what
    /// they say.
    CapacityBuffers {
        /// Set-up and registers.
        record,
        /// Block masks, 8 bytes for each pair of RCID and AT.
        masks,
        /// Counter words, 8 bytes for each MCID.
        counters,
        /// Counter settings, 2 bytes for each MCID.
        events,
        /// Owners, 4 bytes for each unit.
        owners,
    }
}

impl CapacityBuffers {
    fn new(setup: &CapacitySetup) -> CapacityBuffers {
        CapacityBuffers {
            record: vec![0; 80],
            masks: vec![0; table_len(8, setup.nr, setup.na)],
            counters: vec![0; table_len(8, setup.nm, 1)],
            events: vec![0; table_len(2, setup.nm, 1)],
            owners: vec![0; table_len(4, setup.ncblks, setup.u)],
        }
    }
}

/// A capacity controller. `Debug` shows set-up, registers, the masks that are
/// not 0, the counters that were used and the units that have an owner.
///
/// ```
/// use cbqri::{registers as reg, Capacity, CapacitySetup};
///
/// let setup = CapacitySetup { ncblks: 40, nr: 4, na: 2, nm: 4, w: 24, u: 4 };
/// let cc = Capacity::new(setup).unwrap();
/// assert_eq!(cc.read(8, reg::CAPABILITIES), Ok(0x0100_2801));
/// assert_eq!(cc.read(4, reg::CAPABILITIES + 4), Ok(0));
/// ```
#[derive(Clone, PartialEq, Eq)]
pub struct Capacity {
    buffers: CapacityBuffers,
}

controller!(
    Capacity,
    CapacitySetup,
    CapacityBuffers,
    cbqri_capacity_read,
    cbqri_capacity_write,
    Flags { invalid: registers::CAPACITY_INVALID, overflowed: 0 }
);

impl fmt::Debug for Capacity {
    fn fmt(&self, f: &mut fmt::Formatter<'_>) -> fmt::Result {
        let CapacitySetup { nr, na, nm, .. } = self.setup();
        let record = &self.buffers.record;
        let set = |rcid, at| self.mask(rcid, at).filter(|mask| *mask != 0).map(Hex);
        f.debug_struct("Capacity")
            .field("setup", &self.setup())
            .field("mon_ctl", &Hex(number(record, 6)))
            .field("mon_ctr_val", &Hex(number(record, 7)))
            .field("alloc_ctl", &Hex(number(record, 8)))
            .field("block_mask", &Hex(number(record, 9)))
            .field("masks", &ByPair { nr, na, get: &set })
            .field("counters", &ByMcid { nm, get: &|mcid| self.counter(mcid) })
            .field("owners", &Units(self))
            .finish()
    }
}

impl Capacity {
    /// A controller after a reset with this set-up: RCID 0 has every block for each
    /// AT, nothing else is set, and all units are free.
    ///
    /// # Errors
    ///
    /// [`Refusal::Setup`].
    pub fn new(setup: CapacitySetup) -> Result<Capacity, Refusal> {
        let mut buffers = CapacityBuffers::new(&setup);
        let CapacitySetup { ncblks, nr, na, nm, w, u } = setup;
        ffi::cbqri_capacity_reset(&mut buffers, ncblks, nr, na, nm, w, u)?;
        Ok(Capacity { buffers })
    }

    /// The set-up of the last reset.
    #[must_use]
    pub fn setup(&self) -> CapacitySetup {
        let at = |index| number(&self.buffers.record, index);
        CapacitySetup { ncblks: at(0), nr: at(1), na: at(2), nm: at(3), w: at(4), u: at(5) }
    }

    /// The block mask of a pair, in force at once; 0 if it was never set, and
    /// `None` if there is no such pair.
    ///
    /// ```
    /// use cbqri::{Capacity, CapacitySetup};
    ///
    /// let setup = CapacitySetup { ncblks: 4, nr: 2, na: 1, nm: 1, w: 24, u: 1 };
    /// let cc = Capacity::new(setup).unwrap();
    /// assert_eq!((cc.mask(0, 0), cc.mask(1, 0), cc.mask(2, 0)), (Some(0xf), Some(0), None));
    /// assert!(format!("{cc:?}").contains("masks: {(0, 0): 0x000000000000000f}"));
    /// ```
    #[must_use]
    pub fn mask(&self, rcid: u64, at: u64) -> Option<u64> {
        self.word_of_pair(&self.buffers.masks, 8, rcid, at)
    }
}
