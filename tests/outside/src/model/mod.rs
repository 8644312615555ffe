//! A model of the rules, written from the paper alone and apart from the proved code.
//! It is meant to be plain, not fast: typed tables, one rule of the paper in one place.

pub mod access;
pub mod bandwidth;
pub mod capacity;
mod check;
pub mod field;
mod limits;
pub mod listing;
pub mod monitor;
mod perform;
pub mod registers;
mod sizes;

use std::ops::AddAssign;

pub use check::Checked;
pub use perform::Performs;
pub use sizes::Sizes;

/// What a call hands back: the refusal's number, 0 for none, and numbers that are 0 after a refusal
/// and where the call has no such number.
#[derive(Clone, Copy, Debug, PartialEq, Eq, Default)]
pub struct Answer {
    pub refusal: u64,
    /// What a read gives, and whether a fill is allowed.
    pub value: u64,
    /// What a request is granted.
    pub grant: Grant,
}

/// The bytes that are granted, by where they came from.
#[derive(Clone, Copy, Debug, PartialEq, Eq, Default)]
pub struct Grant {
    /// From the holder's reservation.
    pub reserved: u64,
    /// From the pool.
    pub pool: u64,
}

/// A call, as far as both controllers have it.
pub enum Common<'a, S> {
    Reset(&'a S),
    Read {
        size: u64,
        offset: u64,
    },
    Write {
        size: u64,
        offset: u64,
        value: u64,
    },
    /// One that the other controller does not have.
    Own,
}

/// The calls that both controllers have.
pub trait CommonCall {
    type Setup;
    fn reset(setup: Self::Setup) -> Self;
    fn read(size: u64, offset: u64) -> Self;
    fn write(size: u64, offset: u64, value: u64) -> Self;
    fn common(&self) -> Common<'_, Self::Setup>;

    /// The set-up of a reset.
    fn as_reset(&self) -> Option<&Self::Setup> {
        match self.common() {
            Common::Reset(setup) => Some(setup),
            _ => None,
        }
    }
}

impl Answer {
    pub fn refused(number: u64) -> Answer {
        Answer { refusal: number, ..Answer::default() }
    }

    pub fn value(value: u64) -> Answer {
        Answer { value, ..Answer::default() }
    }

    pub fn granted(reserved: u64, pool: u64) -> Answer {
        Answer { grant: Grant { reserved, pool }, ..Answer::default() }
    }
}

impl Grant {
    pub fn sum(self) -> u64 {
        self.reserved + self.pool
    }
}

impl AddAssign for Grant {
    fn add_assign(&mut self, other: Grant) {
        self.reserved += other.reserved;
        self.pool += other.pool;
    }
}

/// The access type that a request or cache event counts as: one that does not exist is 0.
pub fn access_type(at: u64, na: u64) -> u64 {
    if at < na {
        at
    } else {
        0
    }
}
