//! Words of record and tables, taken apart.

use std::fmt;

/// The word at an index of a little-endian table, if it is there.
pub(crate) fn word(table: &[u8], index: usize, width: usize) -> Option<u64> {
    let start = index.checked_mul(width)?;
    let bytes = table.get(start..start.checked_add(width)?)?;
    Some(bytes.iter().rev().fold(0, |word, byte| word << 8 | u64::from(*byte)))
}

/// Number `index` of a record of 8-byte numbers.
pub(crate) fn number(record: &[u8], index: usize) -> u64 {
    word(record, index, 8).unwrap_or(0)
}

/// A table's index of a pair, if there is such a pair.
pub(crate) fn pair(nr: u64, na: u64, rcid: u64, at: u64) -> Option<usize> {
    (rcid < nr && at < na).then(|| (rcid * na + at) as usize)
}

/// What a pair of RCID and AT is set to.
#[derive(Clone, Copy, Debug, PartialEq, Eq, Hash)]
pub enum Setting {
    /// The pair has blocks of its own.
    Holder {
        /// Blocks reserved.
        rbwb: u16,
        /// Weight in the pool, the same for all holders of an RCID; with 0 the pool gives
        /// them nothing.
        mweight: u8,
    },
    /// The pair uses the blocks of another AT of its RCID.
    Sharer {
        /// That AT.
        shared_at: u8,
    },
}

impl Setting {
    /// The setting of a table's word; `None` for 0, a pair never set.
    pub(crate) fn of(word: u64) -> Option<Setting> {
        match word {
            0 => None,
            _ if word >> 31 & 1 == 1 => Some(Setting::Sharer { shared_at: (word >> 28 & 7) as u8 }),
            _ => Some(Setting::Holder { rbwb: word as u16, mweight: (word >> 20) as u8 }),
        }
    }
}

/// A counter, and what it counts.
#[derive(Clone, Copy, Debug, PartialEq, Eq, Hash)]
#[non_exhaustive]
pub struct Counter {
    /// What it has counted.
    pub value: u64,
    /// INVALID: a fill or an eviction came at an end of its range and was not counted.
    pub invalid: bool,
    /// OVF of a bandwidth counter: it wrapped.
    pub overflowed: bool,
    /// EVT_ID, 0 while it is stopped.
    pub event: u8,
    /// The one AT that it counts, or all.
    pub at: Option<u8>,
}

/// Where a controller's counters have their flags.
pub(crate) struct Flags {
    pub invalid: u64,
    pub overflowed: u64,
}

impl Counter {
    /// The counter of an MCID, if there is one.
    pub(crate) fn of(counters: &[u8], events: &[u8], flags: &Flags, mcid: u64) -> Option<Counter> {
        let index = usize::try_from(mcid).ok()?;
        let (counter, event) = (word(counters, index, 8)?, word(events, index, 2)?);
        Some(Counter {
            value: counter & !(flags.invalid | flags.overflowed),
            invalid: counter & flags.invalid != 0,
            overflowed: counter & flags.overflowed != 0,
            event: event as u8,
            at: (event >> 11 & 1 == 1).then_some((event >> 8 & 7) as u8),
        })
    }

    fn is_untouched(&self) -> bool {
        let Counter { value, invalid, overflowed, event, .. } = *self;
        (value, invalid, overflowed, event) == (0, false, false, 0)
    }
}

/// A register's word, for `Debug`.
pub(crate) struct Hex(pub u64);

impl fmt::Debug for Hex {
    fn fmt(&self, f: &mut fmt::Formatter<'_>) -> fmt::Result {
        write!(f, "{:#018x}", self.0)
    }
}

/// What is set of a table by pair, for `Debug`: a map from (RCID, AT).
pub(crate) struct ByPair<'a, T> {
    pub nr: u64,
    pub na: u64,
    pub get: &'a dyn Fn(u64, u64) -> Option<T>,
}

impl<T: fmt::Debug> fmt::Debug for ByPair<'_, T> {
    fn fmt(&self, f: &mut fmt::Formatter<'_>) -> fmt::Result {
        let pairs = (0..self.nr).flat_map(|rcid| (0..self.na).map(move |at| (rcid, at)));
        f.debug_map()
            .entries(pairs.filter_map(|pair| Some((pair, (self.get)(pair.0, pair.1)?))))
            .finish()
    }
}

/// The counters that were ever used, for `Debug`: a map from MCID.
pub(crate) struct ByMcid<'a> {
    pub nm: u64,
    pub get: &'a dyn Fn(u64) -> Option<Counter>,
}

impl fmt::Debug for ByMcid<'_> {
    fn fmt(&self, f: &mut fmt::Formatter<'_>) -> fmt::Result {
        let used = |mcid| (self.get)(mcid).filter(|counter| !counter.is_untouched());
        f.debug_map().entries((0..self.nm).filter_map(|mcid| Some((mcid, used(mcid)?)))).finish()
    }
}
