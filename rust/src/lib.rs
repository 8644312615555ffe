//! A pair of RISC-V CBQRI quality-of-service controllers, as an emulator uses
//! them: the registers that a driver sees, the requests and cache events of
//! the emulated system, requests that wait, and the end of a bandwidth window.
//!
//! This crate wraps libcbqri.a. It is looked for in the folder that
//! `CBQRI_LIB_DIR` names when building, and where pkg-config finds it.
//! [`Bandwidth`] and [`Capacity`] own the record and tables that the C
//! interface asks for; `cbqri.h` describes them byte by byte. Several threads
//! may read one controller at a time.
//!
//! What a caller does wrong is a [`Refusal`], and a refused call has changed
//! nothing. What a driver asks of a register shows in STATUS ([`Status`]) of the
//! control register, and the write that carried it is `Ok`. A driver's access
//! of a wrong size or at a wrong place is [`Refusal::Size`] or
//! [`Refusal::Offset`]: answer it as the emulated bus does, by an access fault
//! or by reading 0 and dropping the write. A device context of the guest's with
//! an RCID or MCID out of range is [`Refusal::DeviceContext`]: answer it as the
//! emulated IOMMU does.
//!
//! ```
//! use cbqri::{registers as reg, Bandwidth, BandwidthSetup, Grant, Kind, Status};
//!
//! # fn main() -> Result<(), cbqri::Refusal> {
//! let setup = BandwidthSetup { nbwblks: 100, mrbwb: 80, nr: 4, na: 2, nm: 4, q: 64, w: 24 };
//! let mut bw = Bandwidth::new(setup)?;
//! assert_eq!(bw.read(8, reg::CAPABILITIES)?, 0x0000_0050_0000_6401);
//!
//! // After reset RCID 0 holds all 80 blocks, so RCID 1 cannot have 10.
//! bw.write(8, reg::BW_ALLOC, 10)?;
//! bw.write(8, reg::ALLOC_CTL, reg::alloc_ctl(reg::CONFIG_LIMIT, 0, 1))?;
//! assert_eq!(Status::of_alloc(bw.read(8, reg::ALLOC_CTL)?), Some(Status::BadLimit));
//!
//! // RCID 0 down to 30 blocks, then 30 for RCID 1 AT 0, shared by its AT 1.
//! for (rcid, at, word) in [
//!     (0, 0, reg::holder(30, 0)),
//!     (1, 0, reg::holder(30, 5)),
//!     (2, 0, reg::holder(20, 0)),
//!     (1, 1, reg::sharer(0)),
//! ] {
//!     bw.write(8, reg::BW_ALLOC, word)?;
//!     bw.write(8, reg::ALLOC_CTL, reg::alloc_ctl(reg::CONFIG_LIMIT, at, rcid))?;
//!     assert_eq!(Status::of_alloc(bw.read(8, reg::ALLOC_CTL)?), Some(Status::Ok));
//! }
//!
//! // Settings come into force when the window ends.
//! assert_eq!(bw.request(1, 0, 0, Kind::Read, 10)?, Grant { reserved: 0, pool: 0 });
//! bw.end_window()?;
//! // 1,920 bytes from the reservation and 80 from the pool of 1,280.
//! assert_eq!(bw.request(1, 0, 1, Kind::Read, 2000)?, Grant { reserved: 1920, pool: 80 });
//! assert_eq!(bw.request(1, 0, 0, Kind::Read, 2000)?, Grant { reserved: 0, pool: 1200 });
//! # Ok(())
//! # }
//! ```

mod bandwidth;
mod capacity;
mod common;
mod ffi;
mod parts;
pub mod registers;

pub use bandwidth::{Bandwidth, BandwidthBuffers, BandwidthSetup, Grant, Kind, Waiter};
pub use capacity::{Capacity, CapacityBuffers, CapacitySetup, Owner};
pub use parts::{Counter, Setting};

use std::fmt;

/// The version of this crate and of the library. Keep it beside saved buffers:
/// they are taken, with the same meaning, by every version with the same major
/// number and, while that is 0, the same minor number.
pub const VERSION: &str = env!("CARGO_PKG_VERSION");

/// Why a call was refused; of those that a call can give, the one with the lower
/// number is checked first. A refused call has changed nothing.
///
/// ```
/// use cbqri::{Capacity, CapacitySetup, Refusal};
///
/// let wrong = CapacitySetup { ncblks: 65, nr: 4, na: 1, nm: 4, w: 24, u: 2 };
/// assert_eq!(Capacity::new(wrong).err(), Some(Refusal::Setup));
///
/// let mut cc = Capacity::new(CapacitySetup { ncblks: 64, ..wrong }).unwrap();
/// assert_eq!(cc.read(2, 0), Err(Refusal::Size));
/// assert_eq!(cc.read(8, 36), Err(Refusal::Offset));
/// assert_eq!(cc.write(4, 32, 1 << 32), Err(Refusal::Value));
/// assert_eq!(cc.fill(4, 0, 0, 0), Err(Refusal::Identifier));
/// assert_eq!(cc.fill(0, 0, 0, 128), Err(Refusal::Unit));
/// assert_eq!(Refusal::Unit as u64, 8);
/// ```
#[derive(Clone, Copy, Debug, PartialEq, Eq, Hash)]
#[non_exhaustive]
#[repr(u64)]
pub enum Refusal {
    /// The set-up lies outside its ranges, or the record has another length.
    Setup = 1,
    /// A table has another length than the set-up says.
    Length = 2,
    /// The record or a table is not well formed.
    State = 3,
    /// The access is neither of 4 nor of 8 bytes.
    Size = 4,
    /// The offset is no multiple of the size, or the access ends beyond byte 40.
    Offset = 5,
    /// A 4-byte write carries a value of 2^32 or more.
    Value = 6,
    /// RCID at or above NR, or MCID at or above NM.
    Identifier = 7,
    /// Unit at or above NCBLKS * U.
    Unit = 8,
    /// A device context with an RCID at or above NR, or an MCID at or above NM.
    DeviceContext = 9,
    /// A request already waits under that RCID.
    AlreadyWaits = 10,
    /// A request for 0 bytes is put to wait.
    NoBytes = 11,
}

impl Refusal {
    /// The library's answer as a result.
    fn check(answer: u64) -> Result<(), Refusal> {
        Err(match answer {
            0 => return Ok(()),
            1 => Refusal::Setup,
            2 => Refusal::Length,
            3 => Refusal::State,
            4 => Refusal::Size,
            5 => Refusal::Offset,
            6 => Refusal::Value,
            7 => Refusal::Identifier,
            8 => Refusal::Unit,
            9 => Refusal::DeviceContext,
            10 => Refusal::AlreadyWaits,
            11 => Refusal::NoBytes,
            _ => unreachable!("libcbqri.a answers 0 to 11, not {answer}"),
        })
    }
}

impl fmt::Display for Refusal {
    fn fmt(&self, f: &mut fmt::Formatter<'_>) -> fmt::Result {
        f.write_str(match self {
            Refusal::Setup => "set-up outside its ranges, or a record of another length",
            Refusal::Length => "a table of another length than the set-up says",
            Refusal::State => "record or table not well formed",
            Refusal::Size => "access neither of 4 nor of 8 bytes",
            Refusal::Offset => "offset no multiple of the size, or the end beyond byte 40",
            Refusal::Value => "4-byte write of a value of 2^32 or more",
            Refusal::Identifier => "RCID at or above NR, or MCID at or above NM",
            Refusal::Unit => "unit at or above NCBLKS * U",
            Refusal::DeviceContext => {
                "a device context with an RCID at or above NR, or an MCID at or above NM"
            }
            Refusal::AlreadyWaits => "a request already waits under that RCID",
            Refusal::NoBytes => "a request for 0 bytes is put to wait",
        })
    }
}

impl std::error::Error for Refusal {}

/// STATUS of a control register: how its last operation ended. An operation
/// that did not end in `Ok` has changed nothing but its control register.
///
/// ```
/// use cbqri::Status;
///
/// // The same number means another thing in alloc_ctl and in mon_ctl.
/// assert_eq!(Status::of_alloc(0x0000_0004_0000_0041), Some(Status::BadAt));
/// assert_eq!(Status::of_mon(0x0000_0004_0040_0201), Some(Status::BadEvent));
/// // After a reset there was no operation.
/// assert_eq!(Status::of_alloc(0), None);
/// ```
#[derive(Clone, Copy, Debug, PartialEq, Eq, Hash)]
#[non_exhaustive]
pub enum Status {
    /// 1: done.
    Ok,
    /// 2: no such operation.
    BadOp,
    /// 3: RCID at or above NR, or MCID at or above NM.
    BadId,
    /// AT at or above NA: 4 in alloc_ctl (not of FLUSH_RCID), 5 in mon_ctl (there only
    /// with ATV 1).
    BadAt,
    /// 5 in alloc_ctl: CONFIG_LIMIT cannot take bw_alloc or block_mask.
    BadLimit,
    /// 4 in mon_ctl: no such EVT_ID.
    BadEvent,
}

impl Status {
    /// STATUS of an alloc_ctl word; `None` if no operation ends so.
    #[must_use]
    pub const fn of_alloc(alloc_ctl: u64) -> Option<Status> {
        Status::of(alloc_ctl, Status::BadAt, Status::BadLimit)
    }

    /// STATUS of a mon_ctl word; `None` if no operation ends so.
    #[must_use]
    pub const fn of_mon(mon_ctl: u64) -> Option<Status> {
        Status::of(mon_ctl, Status::BadEvent, Status::BadAt)
    }

    const fn of(ctl: u64, four: Status, five: Status) -> Option<Status> {
        Some(match ctl >> 32 & 0x7f {
            1 => Status::Ok,
            2 => Status::BadOp,
            3 => Status::BadId,
            4 => four,
            5 => five,
            _ => return None,
        })
    }
}

/// A table's length, or 0 for numbers outside the ranges: the library then
/// refuses the set-up, and nothing large is allocated.
fn table_len(width: usize, rows: u64, columns: u64) -> usize {
    if rows <= 256 && columns <= 64 {
        width * rows as usize * columns as usize
    } else {
        0
    }
}
