//! Requests that wait for window ends.

use super::{Bandwidth, Kind};
use crate::parts::word;
use crate::{ffi, Refusal};

use std::fmt;

/// A request that waits.
#[derive(Clone, Copy, Debug, PartialEq, Eq, Hash)]
pub struct Waiter {
    /// Bytes that it still waits for, not 0.
    pub need: u32,
    /// The MCID whose counter counts what it is served.
    pub mcid: u8,
    /// Its AT, below NA.
    pub at: u8,
    /// Whether it reads or writes.
    pub kind: Kind,
}

impl Waiter {
    /// The request of a table's word; `None` for 0, where none waits.
    fn of(word: u64) -> Option<Waiter> {
        let kind = if word >> 43 & 1 == 0 { Kind::Read } else { Kind::Write };
        let (mcid, at) = ((word >> 32) as u8, (word >> 40 & 7) as u8);
        (word != 0).then_some(Waiter { need: word as u32, mcid, at, kind })
    }
}

impl Bandwidth {
    /// Puts a request to wait: the same arguments as [`Bandwidth::request`], and
    /// nothing is granted by the call itself. One request can wait under each RCID;
    /// it is served at every [`Bandwidth::end_window`] until it has all its bytes, or
    /// a reset comes. Other requests, of the same RCID too, go on beside it.
    ///
    /// A request for n bytes is done within n / (R * Q) window ends, rounded up, as
    /// long as its holder has at least R blocks in force at each, R at least 1.
    ///
    /// # Errors
    ///
    /// [`Refusal::Identifier`], [`Refusal::AlreadyWaits`], [`Refusal::NoBytes`].
    ///
    /// ```
    /// use cbqri::{registers as reg, Bandwidth, BandwidthSetup, Grant, Kind, Refusal};
    ///
    /// # fn main() -> Result<(), Refusal> {
    /// let setup = BandwidthSetup { nbwblks: 100, mrbwb: 80, nr: 4, na: 2, nm: 4, q: 64, w: 24 };
    /// let mut bw = Bandwidth::new(setup)?;
    /// // 30 blocks of 64 bytes each with the weights 1 and 5, and 40 are the pool.
    /// for (rcid, weight) in [(0, 1), (1, 5)] {
    ///     bw.write(8, reg::BW_ALLOC, reg::holder(30, weight))?;
    ///     bw.write(8, reg::ALLOC_CTL, reg::alloc_ctl(reg::CONFIG_LIMIT, 0, rcid))?;
    /// }
    /// bw.end_window()?;
    ///
    /// // What is not granted now waits, and need not be asked for again.
    /// let grant = bw.request(0, 0, 0, Kind::Read, 7000)?;
    /// assert_eq!(grant, Grant { reserved: 1920, pool: 2560 });
    /// bw.wait(0, 0, 0, Kind::Read, 7000 - grant.sum() as u32)?;
    /// bw.wait(1, 0, 0, Kind::Read, 3000)?;
    /// assert_eq!(bw.need(0), Ok(2520));
    /// assert_eq!(bw.wait(0, 0, 0, Kind::Read, 1), Err(Refusal::AlreadyWaits));
    /// assert_eq!(bw.wait(2, 0, 0, Kind::Read, 0), Err(Refusal::NoBytes));
    ///
    /// // Each has its 1,920 bytes, and of the pool 426 and 2,133, or what it needs.
    /// bw.end_window()?;
    /// assert_eq!((bw.need(0), bw.need(1)), (Ok(174), Ok(0)));
    /// bw.end_window()?;
    /// assert_eq!(bw.need(0), Ok(0));
    /// # Ok(())
    /// # }
    /// ```
    pub fn wait(
        &mut self,
        rcid: u64,
        mcid: u64,
        at: u64,
        kind: Kind,
        bytes: u32,
    ) -> Result<(), Refusal> {
        ffi::cbqri_bandwidth_wait(&mut self.buffers, rcid, mcid, at, kind.number(), bytes)
    }

    /// Bytes that the request under this RCID still waits for, 0 where none waits.
    ///
    /// # Errors
    ///
    /// [`Refusal::Identifier`].
    pub fn need(&self, rcid: u64) -> Result<u64, Refusal> {
        let mut need = 0;
        ffi::cbqri_bandwidth_need(&self.buffers, rcid, &mut need)?;
        Ok(need)
    }

    /// The request that waits under an RCID; `None` if none does, or if there is no
    /// such RCID.
    ///
    /// ```
    /// use cbqri::{Bandwidth, BandwidthSetup, Kind, Waiter};
    ///
    /// let setup = BandwidthSetup { nbwblks: 10, mrbwb: 8, nr: 2, na: 2, nm: 4, q: 1, w: 24 };
    /// let mut bw = Bandwidth::new(setup).unwrap();
    /// bw.wait(1, 3, 1, Kind::Write, 99).unwrap();
    /// let waiter = Waiter { need: 99, mcid: 3, at: 1, kind: Kind::Write };
    /// assert_eq!((bw.waiter(0), bw.waiter(1), bw.waiter(2)), (None, Some(waiter), None));
    /// ```
    #[must_use]
    pub fn waiter(&self, rcid: u64) -> Option<Waiter> {
        let index = usize::try_from(rcid).ok()?;
        Waiter::of(word(&self.buffers.waiters, index, 8)?)
    }
}

/// The requests that wait, for `Debug`: a map from RCID.
pub(super) struct Waiters<'a>(pub &'a Bandwidth);

impl fmt::Debug for Waiters<'_> {
    fn fmt(&self, f: &mut fmt::Formatter<'_>) -> fmt::Result {
        let waiting = |rcid| Some((rcid, self.0.waiter(rcid)?));
        f.debug_map().entries((0..self.0.setup().nr).filter_map(waiting)).finish()
    }
}
