mod waiters;

use crate::common::{buffers, controller};
use crate::parts::{number, pair, word, ByMcid, ByPair, Flags, Hex};
use crate::{ffi, registers, table_len, Counter, Refusal, Setting};

pub use waiters::Waiter;

use std::fmt;
use waiters::Waiters;

/// Set-up of a bandwidth controller.
#[derive(Clone, Copy, Debug, PartialEq, Eq)]
pub struct BandwidthSetup {
    /// Bandwidth blocks, 1 to 65,535.
    pub nbwblks: u64,
    /// Blocks that can be reserved, 1 to NBWBLKS.
    pub mrbwb: u64,
    /// RCIDs, 1 to 256.
    pub nr: u64,
    /// Access types, 1 to 8.
    pub na: u64,
    /// MCIDs, 1 to 256.
    pub nm: u64,
    /// Bytes that a block is worth in a window, 1 to 65,536.
    pub q: u64,
    /// Width of a counter in bits, 24 to 62.
    pub w: u64,
}

/// Whether a request reads or writes.
#[derive(Clone, Copy, Debug, PartialEq, Eq, Hash)]
pub enum Kind {
    /// Kind 0 of the C interface.
    Read,
    /// Kind 1; the C interface takes any other number too.
    Write,
}

impl Kind {
    fn number(self) -> u64 {
        u64::from(self == Kind::Write)
    }
}

/// What a request is granted, by where the bytes came from. A job has the
/// reserved bytes in every window in which its setting is in force, whatever
/// others ask. The pool bytes are luck: spare bandwidth, which may be gone in the
/// next window. A job whose pool bytes are regularly above 0 needs a larger
/// reservation to be sure of them.
///
/// ```
/// use cbqri::{Bandwidth, BandwidthSetup, Grant, Kind};
///
/// // 80 blocks of 64 bytes are reserved for RCID 0, and 20 are the pool.
/// let setup = BandwidthSetup { nbwblks: 100, mrbwb: 80, nr: 4, na: 2, nm: 4, q: 64, w: 24 };
/// let mut bw = Bandwidth::new(setup).unwrap();
/// let grant = bw.request(0, 0, 0, Kind::Read, 6000).unwrap();
/// assert_eq!(grant, Grant { reserved: 5120, pool: 880 });
/// assert_eq!(grant.sum(), 6000);
/// // To be sure of these bytes RCID 0 would need 14 blocks more.
/// assert_eq!((grant.pool + setup.q - 1) / setup.q, 14);
/// ```
#[derive(Clone, Copy, Debug, Default, PartialEq, Eq, Hash)]
pub struct Grant {
    /// Bytes of the holder's reservation.
    pub reserved: u64,
    /// Bytes of the pool.
    pub pool: u64,
}

impl Grant {
    /// What a call hands back through its last two pointers.
    fn of(call: impl FnOnce(&mut u64, &mut u64) -> Result<(), Refusal>) -> Result<Grant, Refusal> {
        let mut grant = Grant::default();
        call(&mut grant.reserved, &mut grant.pool)?;
        Ok(grant)
    }

    /// All bytes that are granted, as a counter counts them.
    #[must_use]
    pub const fn sum(self) -> u64 {
        self.reserved + self.pool
    }
}

buffers! {
    /// Record and tables of a bandwidth controller as little-endian bytes, in the
    /// layout of `cbqri.h`. `Debug` shows their lengths; see [`Bandwidth`] for what
    /// they say.
    BandwidthBuffers {
        /// Set-up, registers and the bytes that the pool gave.
        record,
        /// Settings in force, 4 bytes for each pair of RCID and AT.
        active,
        /// Settings configured, likewise.
        configured,
        /// Bytes used of the reservations, likewise.
        used,
        /// Counter words, 8 bytes for each MCID.
        counters,
        /// Counter settings, 2 bytes for each MCID.
        events,
        /// Requests that wait, 8 bytes for each RCID.
        waiters,
    }
}

impl BandwidthBuffers {
    fn new(setup: &BandwidthSetup) -> BandwidthBuffers {
        let pairs = table_len(4, setup.nr, setup.na);
        BandwidthBuffers {
            record: vec![0; 96],
            active: vec![0; pairs],
            configured: vec![0; pairs],
            used: vec![0; pairs],
            counters: vec![0; table_len(8, setup.nm, 1)],
            events: vec![0; table_len(2, setup.nm, 1)],
            waiters: vec![0; table_len(8, setup.nr, 1)],
        }
    }
}

/// A bandwidth controller. `Debug` shows set-up, registers, the settings that
/// are set, the counters that were used and the requests that wait.
///
/// ```
/// use cbqri::{Bandwidth, BandwidthSetup};
///
/// let setup = BandwidthSetup { nbwblks: 9, mrbwb: 8, nr: 2, na: 2, nm: 1, q: 1, w: 24 };
/// let shown = format!("{:?}", Bandwidth::new(setup).unwrap());
/// assert!(shown.contains("mrbwb: 8"));
/// assert!(shown.contains("active: {(0, 0): Holder { rbwb: 8, mweight: 1 }, (0, 1): Sharer"));
/// ```
///
/// A driver's accesses:
///
/// ```
/// use cbqri::{registers as reg, Bandwidth, BandwidthSetup, Kind, Status};
///
/// # fn main() -> Result<(), cbqri::Refusal> {
/// let setup = BandwidthSetup { nbwblks: 100, mrbwb: 80, nr: 4, na: 2, nm: 4, q: 64, w: 24 };
/// let mut bw = Bandwidth::new(setup)?;
/// // MCID 2 counts all bytes.
/// let ctl = reg::mon_ctl(reg::CONFIG_EVENT, 0, 2, reg::EVENT_BYTES, false);
/// bw.write(4, reg::MON_CTL, ctl)?;
/// assert_eq!(Status::of_mon(bw.read(8, reg::MON_CTL)?), Some(Status::Ok));
/// bw.request(0, 2, 0, Kind::Write, 300)?;
/// bw.write(4, reg::MON_CTL, reg::mon_ctl(reg::READ_COUNTER, 0, 2, 0, false))?;
/// assert_eq!(bw.read(8, reg::MON_CTR_VAL)?, 300);
/// # Ok(())
/// # }
/// ```
///
/// Saved buffers:
///
/// ```
/// use cbqri::{Bandwidth, BandwidthSetup, Refusal};
///
/// let setup = BandwidthSetup { nbwblks: 9, mrbwb: 9, nr: 2, na: 1, nm: 1, q: 1, w: 24 };
/// let bw = Bandwidth::new(setup).unwrap();
/// let mut saved = bw.buffers().clone();
/// assert_eq!(Bandwidth::from_buffers(saved.clone()).as_ref(), Ok(&bw));
///
/// saved.active[0] = 10; // more than MRBWB
/// assert_eq!(Bandwidth::from_buffers(saved.clone()).err(), Some(Refusal::State));
/// saved.used.pop();
/// assert_eq!(Bandwidth::from_buffers(saved).err(), Some(Refusal::Length));
/// ```
#[derive(Clone, PartialEq, Eq)]
pub struct Bandwidth {
    buffers: BandwidthBuffers,
}

controller!(
    Bandwidth,
    BandwidthSetup,
    BandwidthBuffers,
    cbqri_bandwidth_read,
    cbqri_bandwidth_write,
    Flags { invalid: registers::BANDWIDTH_INVALID, overflowed: registers::BANDWIDTH_OVF }
);

impl fmt::Debug for Bandwidth {
    fn fmt(&self, f: &mut fmt::Formatter<'_>) -> fmt::Result {
        let BandwidthSetup { nr, na, nm, .. } = self.setup();
        let record = &self.buffers.record;
        let counter = |mcid| self.counter(mcid);
        f.debug_struct("Bandwidth")
            .field("setup", &self.setup())
            .field("mon_ctl", &Hex(number(record, 7)))
            .field("mon_ctr_val", &Hex(number(record, 8)))
            .field("alloc_ctl", &Hex(number(record, 9)))
            .field("bw_alloc", &Hex(number(record, 10)))
            .field("pool_gave", &number(record, 11))
            .field("active", &ByPair { nr, na, get: &|rcid, at| self.active(rcid, at) })
            .field("configured", &ByPair { nr, na, get: &|rcid, at| self.configured(rcid, at) })
            .field("used", &ByPair { nr, na, get: &|rcid, at| self.used_of_holder(rcid, at) })
            .field("counters", &ByMcid { nm, get: &counter })
            .field("waiters", &Waiters(self))
            .finish()
    }
}

impl Bandwidth {
    /// A controller after a reset with this set-up: RCID 0 with AT 0 holds MRBWB
    /// blocks with Mweight 1, its other ATs share AT 0, and nothing else is set.
    ///
    /// # Errors
    ///
    /// [`Refusal::Setup`].
    pub fn new(setup: BandwidthSetup) -> Result<Bandwidth, Refusal> {
        let mut buffers = BandwidthBuffers::new(&setup);
        let BandwidthSetup { nbwblks, mrbwb, nr, na, nm, q, w } = setup;
        ffi::cbqri_bandwidth_reset(&mut buffers, nbwblks, mrbwb, nr, na, nm, q, w)?;
        Ok(Bandwidth { buffers })
    }

    /// The set-up of the last reset.
    #[must_use]
    pub fn setup(&self) -> BandwidthSetup {
        let at = |index| number(&self.buffers.record, index);
        BandwidthSetup {
            nbwblks: at(0),
            mrbwb: at(1),
            nr: at(2),
            na: at(3),
            nm: at(4),
            q: at(5),
            w: at(6),
        }
    }

    /// The setting in force of a pair; `None` if it was never set, or if there
    /// is no such pair.
    #[must_use]
    pub fn active(&self, rcid: u64, at: u64) -> Option<Setting> {
        Setting::of(self.word_of_pair(&self.buffers.active, 4, rcid, at)?)
    }

    /// The setting configured for a pair, which comes into force when the
    /// window ends; `None` as for [`Bandwidth::active`].
    ///
    /// ```
    /// use cbqri::{registers as reg, Bandwidth, BandwidthSetup, Setting};
    ///
    /// # fn main() -> Result<(), cbqri::Refusal> {
    /// let setup = BandwidthSetup { nbwblks: 100, mrbwb: 80, nr: 4, na: 2, nm: 4, q: 64, w: 24 };
    /// let mut bw = Bandwidth::new(setup)?;
    /// bw.write(8, reg::BW_ALLOC, reg::holder(30, 5))?;
    /// bw.write(8, reg::ALLOC_CTL, reg::alloc_ctl(reg::CONFIG_LIMIT, 0, 0))?;
    /// assert_eq!(bw.configured(0, 0), Some(Setting::Holder { rbwb: 30, mweight: 5 }));
    /// assert_eq!(bw.active(0, 0), Some(Setting::Holder { rbwb: 80, mweight: 1 }));
    /// assert_eq!(bw.active(0, 1), Some(Setting::Sharer { shared_at: 0 }));
    /// assert_eq!(bw.active(1, 0), None);
    ///
    /// // A holder's weight goes to all holders of its RCID.
    /// bw.write(8, reg::BW_ALLOC, reg::holder(10, 2))?;
    /// bw.write(8, reg::ALLOC_CTL, reg::alloc_ctl(reg::CONFIG_LIMIT, 1, 0))?;
    /// assert_eq!(bw.configured(0, 1), Some(Setting::Holder { rbwb: 10, mweight: 2 }));
    /// assert_eq!(bw.configured(0, 0), Some(Setting::Holder { rbwb: 30, mweight: 2 }));
    /// # Ok(())
    /// # }
    /// ```
    #[must_use]
    pub fn configured(&self, rcid: u64, at: u64) -> Option<Setting> {
        Setting::of(self.word_of_pair(&self.buffers.configured, 4, rcid, at)?)
    }

    /// Bytes that a pair used of its reservation in this window; `None` if
    /// there is no such pair.
    #[must_use]
    pub fn used(&self, rcid: u64, at: u64) -> Option<u64> {
        self.word_of_pair(&self.buffers.used, 4, rcid, at)
    }

    fn used_of_holder(&self, rcid: u64, at: u64) -> Option<u64> {
        self.used(rcid, at).filter(|used| *used > 0)
    }

    /// A request for so many bytes; the result is how many are granted, of the
    /// reservation and of the pool. An AT at or above NA counts as 0.
    ///
    /// # Errors
    ///
    /// [`Refusal::Identifier`].
    ///
    /// ```
    /// use cbqri::{Bandwidth, BandwidthSetup, Grant, Kind, Refusal};
    ///
    /// let setup = BandwidthSetup { nbwblks: 100, mrbwb: 80, nr: 4, na: 2, nm: 4, q: 64, w: 24 };
    /// let mut bw = Bandwidth::new(setup).unwrap();
    /// // 80 blocks of 64 bytes are reserved for RCID 0, and 20 are the pool.
    /// let granted = |reserved, pool| Ok(Grant { reserved, pool });
    /// assert_eq!(bw.request(0, 0, 1, Kind::Read, 6000), granted(5120, 880));
    /// assert_eq!(bw.request(0, 0, 0, Kind::Read, 6000), granted(0, 400));
    /// assert_eq!(bw.request(1, 0, 0, Kind::Read, 1), granted(0, 0));
    /// assert_eq!(bw.request(4, 0, 0, Kind::Read, 1), Err(Refusal::Identifier));
    /// ```
    pub fn request(
        &mut self,
        rcid: u64,
        mcid: u64,
        at: u64,
        kind: Kind,
        bytes: u32,
    ) -> Result<Grant, Refusal> {
        let (buffers, kind) = (&mut self.buffers, kind.number());
        Grant::of(|reserved, pool| {
            ffi::cbqri_bandwidth_request(buffers, rcid, mcid, at, kind, bytes, reserved, pool)
        })
    }

    /// A device's request through the IOMMU: as [`Bandwidth::request`], with the
    /// RCID and MCID of a word of the IOMMU. Its `mode` (`ddtp.iommu_mode`) says
    /// which word that is: register iommu_qosid if the IOMMU is off (0) or bare (1),
    /// DC.ta of the device's context if it has a directory (any other number). Other
    /// bits of the word are ignored.
    ///
    /// # Errors
    ///
    /// [`Refusal::Identifier`] with iommu_qosid, [`Refusal::DeviceContext`] with
    /// DC.ta.
    ///
    /// ```
    /// use cbqri::{registers as reg, Bandwidth, BandwidthSetup, Grant, Kind, Refusal};
    ///
    /// let setup = BandwidthSetup { nbwblks: 100, mrbwb: 80, nr: 4, na: 2, nm: 4, q: 64, w: 24 };
    /// let mut bw = Bandwidth::new(setup).unwrap();
    /// let mut dma = |mode, word| bw.device_request(mode, word, 0, Kind::Write, 4000);
    /// let granted = |reserved, pool| Ok(Grant { reserved, pool });
    /// // RCID 0 holds 80 blocks of 64 bytes, and may have the pool of 20.
    /// assert_eq!(dma(reg::IOMMU_BARE, reg::iommu_qosid(0, 3)), granted(4000, 0));
    /// assert_eq!(dma(reg::IOMMU_DIRECTORY, reg::dc_ta(0, 3)), granted(1120, 1280));
    /// assert_eq!(dma(reg::IOMMU_DIRECTORY, reg::dc_ta(1, 3)), granted(0, 0));
    /// assert_eq!(dma(reg::IOMMU_BARE, reg::iommu_qosid(4, 0)), Err(Refusal::Identifier));
    /// assert_eq!(dma(reg::IOMMU_DIRECTORY, reg::dc_ta(0, 4)), Err(Refusal::DeviceContext));
    /// ```
    pub fn device_request(
        &mut self,
        mode: u64,
        word: u64,
        at: u64,
        kind: Kind,
        bytes: u32,
    ) -> Result<Grant, Refusal> {
        let (buffers, kind) = (&mut self.buffers, kind.number());
        Grant::of(|reserved, pool| {
            ffi::cbqri_bandwidth_device_request(
                buffers, mode, word, at, kind, bytes, reserved, pool,
            )
        })
    }

    /// Ends the window: configured settings come into force, and reservations
    /// and pool are whole again. Then the requests that wait are served: first each
    /// from its holder's reservation; then each that still needs bytes, its holder's
    /// Mweight not 0, from the pool, at most the whole pool times that Mweight, divided
    /// by the Mweights of all such requests together and rounded down.
    ///
    /// # Errors
    ///
    /// None: a controller made by this crate is well formed.
    ///
    /// ```
    /// use cbqri::{Bandwidth, BandwidthSetup, Grant, Kind};
    ///
    /// let setup = BandwidthSetup { nbwblks: 10, mrbwb: 8, nr: 1, na: 1, nm: 1, q: 1, w: 24 };
    /// let mut bw = Bandwidth::new(setup).unwrap();
    /// assert_eq!(bw.request(0, 0, 0, Kind::Read, 99), Ok(Grant { reserved: 8, pool: 2 }));
    /// assert_eq!(bw.request(0, 0, 0, Kind::Read, 99), Ok(Grant { reserved: 0, pool: 0 }));
    /// bw.end_window().unwrap();
    /// assert_eq!(bw.request(0, 0, 0, Kind::Read, 99), Ok(Grant { reserved: 8, pool: 2 }));
    /// ```
    pub fn end_window(&mut self) -> Result<(), Refusal> {
        ffi::cbqri_bandwidth_end_window(&mut self.buffers)
    }
}
