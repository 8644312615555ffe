//! The numbers that the set-ups of both controllers have, and what goes by them.

pub trait Sizes {
    fn nr(&self) -> u64;
    fn na(&self) -> u64;
    fn nm(&self) -> u64;
    fn w(&self) -> u64;

    /// The number of pairs of RCID and AT.
    fn pairs(&self) -> usize {
        (self.nr() * self.na()) as usize
    }

    /// A pair's place in a table: the AT runs fastest.
    fn place(&self, rcid: u64, at: u64) -> usize {
        (rcid * self.na() + at) as usize
    }

    /// The places of an RCID's pairs.
    fn row(&self, rcid: u64) -> std::ops::Range<usize> {
        self.place(rcid, 0)..self.place(rcid + 1, 0)
    }

    /// Whether these numbers lie in their ranges.
    fn sizes_in_range(&self) -> bool {
        (1..=256).contains(&self.nr())
            && (1..=8).contains(&self.na())
            && (1..=256).contains(&self.nm())
            && (24..=62).contains(&self.w())
    }
}

/// A set-up has the numbers as fields, and a controller's calls those that both have.
macro_rules! common {
    ($setup:ty, $call:ident) => {
        impl crate::model::Sizes for $setup {
            fn nr(&self) -> u64 {
                self.nr
            }
            fn na(&self) -> u64 {
                self.na
            }
            fn nm(&self) -> u64 {
                self.nm
            }
            fn w(&self) -> u64 {
                self.w
            }
        }

        impl crate::model::CommonCall for $call {
            type Setup = $setup;
            fn reset(setup: $setup) -> $call {
                $call::Reset(setup)
            }
            fn read(size: u64, offset: u64) -> $call {
                $call::Read { size, offset }
            }
            fn write(size: u64, offset: u64, value: u64) -> $call {
                $call::Write { size, offset, value }
            }
            fn common(&self) -> crate::model::Common<'_, $setup> {
                use crate::model::Common;
                match *self {
                    $call::Reset(ref setup) => Common::Reset(setup),
                    $call::Read { size, offset } => Common::Read { size, offset },
                    $call::Write { size, offset, value } => Common::Write { size, offset, value },
                    _ => Common::Own,
                }
            }
        }
    };
}

pub(super) use common;
