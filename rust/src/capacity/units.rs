//! Units of the cache, and who owns them.

use super::{Capacity, CapacitySetup};
use crate::parts::word;
use crate::{ffi, Refusal};

use std::fmt;

/// Who owns a unit: what its last fill named.
#[derive(Clone, Copy, Debug, PartialEq, Eq, Hash)]
pub struct Owner {
    /// The RCID that [`FLUSH_RCID`](crate::registers::FLUSH_RCID) goes by.
    pub rcid: u8,
    /// The MCID whose counter counts the unit.
    pub mcid: u8,
    /// Its AT, below NA.
    pub at: u8,
}

impl Owner {
    /// The owner of a table's word; `None` for 0, a free unit.
    fn of(word: u64) -> Option<Owner> {
        let (rcid, mcid, at) = (word as u8, (word >> 8) as u8, (word >> 16 & 7) as u8);
        (word != 0).then_some(Owner { rcid, mcid, at })
    }
}

impl Capacity {
    /// The cache wants to fill a unit, of the block `unit / U`; the result is whether
    /// the mask of RCID and AT has that block. If so, the unit, if it has an owner, is
    /// first evicted; then it is owned by RCID, MCID and AT, and a matching occupancy
    /// counter goes up by 1. An AT at or above NA counts as 0.
    ///
    /// # Errors
    ///
    /// [`Refusal::Identifier`], [`Refusal::Unit`].
    ///
    /// ```
    /// use cbqri::{registers as reg, Capacity, CapacitySetup, Owner};
    ///
    /// # fn main() -> Result<(), cbqri::Refusal> {
    /// let setup = CapacitySetup { ncblks: 40, nr: 4, na: 2, nm: 4, w: 24, u: 4 };
    /// let mut cc = Capacity::new(setup)?;
    /// cc.write(8, reg::BLOCK_MASK, 0x0f)?;
    /// cc.write(8, reg::ALLOC_CTL, reg::alloc_ctl(reg::CONFIG_LIMIT, 0, 1))?;
    /// let ctl = reg::mon_ctl(reg::CONFIG_EVENT, 0, 3, reg::EVENT_OCCUPANCY, false);
    /// cc.write(8, reg::MON_CTL, ctl)?;
    /// // Blocks 0 to 3 have units 0 to 15.
    /// assert_eq!(cc.fill(1, 3, 0, 15), Ok(true));
    /// assert_eq!(cc.fill(1, 3, 0, 16), Ok(false));
    /// assert_eq!(cc.fill(1, 3, 1, 15), Ok(false));
    /// assert_eq!(cc.owner(15), Some(Owner { rcid: 1, mcid: 3, at: 0 }));
    ///
    /// cc.write(8, reg::MON_CTL, reg::mon_ctl(reg::READ_COUNTER, 0, 3, 0, false))?;
    /// assert_eq!(cc.read(8, reg::MON_CTR_VAL), Ok(1));
    /// # Ok(())
    /// # }
    /// ```
    ///
    /// Before an RCID is given to another job, its units are flushed:
    ///
    /// ```
    /// use cbqri::{registers as reg, Capacity, CapacitySetup, Status};
    ///
    /// # fn main() -> Result<(), cbqri::Refusal> {
    /// # let setup = CapacitySetup { ncblks: 4, nr: 2, na: 1, nm: 2, w: 24, u: 2 };
    /// # let mut cc = Capacity::new(setup)?;
    /// # cc.write(8, reg::BLOCK_MASK, 0x3)?;
    /// # cc.write(8, reg::ALLOC_CTL, reg::alloc_ctl(reg::CONFIG_LIMIT, 0, 1))?;
    /// let ctl = reg::mon_ctl(reg::CONFIG_EVENT, 0, 1, reg::EVENT_OCCUPANCY, false);
    /// cc.write(8, reg::MON_CTL, ctl)?;
    /// cc.fill(1, 1, 0, 2)?;
    /// cc.fill(1, 1, 0, 3)?;
    /// cc.fill(0, 0, 0, 4)?;
    /// assert_eq!(cc.counter(1).unwrap().value, 2);
    ///
    /// cc.write(8, reg::ALLOC_CTL, reg::alloc_ctl(reg::FLUSH_RCID, 0, 1))?;
    /// assert_eq!(Status::of_alloc(cc.read(8, reg::ALLOC_CTL)?), Some(Status::Ok));
    /// assert_eq!((cc.owner(2), cc.owner(3), cc.owner(4).is_some()), (None, None, true));
    /// assert_eq!((cc.counter(1).unwrap().value, cc.mask(1, 0)), (0, Some(0x3)));
    /// # Ok(())
    /// # }
    /// ```
    pub fn fill(&mut self, rcid: u64, mcid: u64, at: u64, unit: u64) -> Result<bool, Refusal> {
        let mut allowed = 0;
        ffi::cbqri_capacity_fill(&mut self.buffers, rcid, mcid, at, unit, &mut allowed)?;
        Ok(allowed != 0)
    }

    /// The cache evicts what is in a unit: it is free, and a matching occupancy counter
    /// of its owner goes down by 1. At 0 it stays and becomes INVALID. If the unit was
    /// free, nothing changes.
    ///
    /// # Errors
    ///
    /// [`Refusal::Unit`].
    ///
    /// ```
    /// use cbqri::{registers as reg, Capacity, CapacitySetup, Refusal};
    ///
    /// # fn main() -> Result<(), Refusal> {
    /// let mut cc = Capacity::new(CapacitySetup { ncblks: 8, nr: 1, na: 1, nm: 1, w: 24, u: 2 })?;
    /// cc.fill(0, 0, 0, 7)?;
    /// // The counter starts while its MCID already owns a unit.
    /// cc.write(8, reg::MON_CTL, reg::mon_ctl(reg::CONFIG_EVENT, 0, 0, 1, false))?;
    /// cc.evict(15)?;
    /// assert!(!cc.counter(0).unwrap().invalid);
    /// cc.evict(7)?;
    /// assert!(cc.counter(0).unwrap().invalid);
    /// assert_eq!(cc.evict(16), Err(Refusal::Unit));
    /// # Ok(())
    /// # }
    /// ```
    pub fn evict(&mut self, unit: u64) -> Result<(), Refusal> {
        ffi::cbqri_capacity_evict(&mut self.buffers, unit)
    }

    /// The owner of a unit; `None` if it is free, or if there is no such unit.
    ///
    /// ```
    /// use cbqri::{Capacity, CapacitySetup, Owner};
    ///
    /// let setup = CapacitySetup { ncblks: 2, nr: 2, na: 2, nm: 4, w: 24, u: 2 };
    /// let mut cc = Capacity::new(setup).unwrap();
    /// cc.fill(0, 3, 1, 2).unwrap();
    /// let owner = Owner { rcid: 0, mcid: 3, at: 1 };
    /// assert_eq!((cc.owner(1), cc.owner(2), cc.owner(4)), (None, Some(owner), None));
    /// ```
    #[must_use]
    pub fn owner(&self, unit: u64) -> Option<Owner> {
        let index = usize::try_from(unit).ok()?;
        Owner::of(word(&self.buffers.owners, index, 4)?)
    }
}

/// The units that have an owner, for `Debug`: a map from unit.
pub(super) struct Units<'a>(pub &'a Capacity);

impl fmt::Debug for Units<'_> {
    fn fmt(&self, f: &mut fmt::Formatter<'_>) -> fmt::Result {
        let CapacitySetup { ncblks, u, .. } = self.0.setup();
        let owned = |unit| Some((unit, self.0.owner(unit)?));
        f.debug_map().entries((0..ncblks * u).filter_map(owned)).finish()
    }
}
