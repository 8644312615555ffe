//! The window end by which a request that waits must be done.

use crate::coverage::Labels;
use crate::model::bandwidth::Request;

const AT_THE_LAST: &str = "deadline: done at the last window end for it";
const AT_THE_LAST_OF_SEVERAL: &str = "deadline: done at the last of several window ends for it";
const OTHER_BLOCKS: &str = "deadline: due with other blocks at another window end";
const EARLIER: &str = "deadline: done before it was due";
const NONE: &str = "deadline: none, at a window end nobody held";

/// A waiter since the call that put it to wait.
#[derive(Debug)]
pub struct Deadline {
    bytes: u64,
    pub at: u64,
    window_ends: u64,
    /// The fewest and the most blocks that its holder had in force at one of them.
    fewest: u64,
    most: u64,
}

impl Deadline {
    pub fn of(request: &Request) -> Deadline {
        let (bytes, at) = (request.bytes as u64, request.at);
        Deadline { bytes, at, window_ends: 0, fewest: u64::MAX, most: 0 }
    }

    /// Bytes divided by (R times Q), rounded up, as many window ends have come; R is at least 1.
    pub fn is_due(&self, q: u64) -> bool {
        let in_time = || (self.bytes + self.fewest * q - 1) / (self.fewest * q);
        self.window_ends > 0 && self.fewest > 0 && self.window_ends >= in_time()
    }

    /// Counts a window end at which the holder has these blocks, and says what it shows; `waits` is
    /// whether bytes are still needed before it.
    pub fn end_window(&mut self, blocks: u64, q: u64, waits: bool) -> Option<&'static str> {
        let was_due = self.is_due(q);
        let had_none = self.fewest == 0;
        self.window_ends += 1;
        self.fewest = self.fewest.min(blocks);
        self.most = self.most.max(blocks);
        match self.is_due(q) && !was_due {
            _ if blocks == 0 && !had_none => Some(NONE),
            true if !waits => Some(EARLIER),
            true if self.most > self.fewest => Some(OTHER_BLOCKS),
            true if self.window_ends > 1 => Some(AT_THE_LAST_OF_SEVERAL),
            true => Some(AT_THE_LAST),
            false => None,
        }
    }
}

pub fn required() -> Labels {
    [AT_THE_LAST, AT_THE_LAST_OF_SEVERAL, OTHER_BLOCKS, EARLIER, NONE].map(String::from).to_vec()
}

#[cfg(test)]
mod tests {
    use super::*;

    /// 1,500 bytes and 20 blocks of 64 are two window ends, 1,280 are one.
    #[test]
    fn deadlines() {
        let of = |bytes| Deadline::of(&Request { rcid: 2, mcid: 0, at: 0, kind: 0, bytes });
        let q = 64;
        let mut deadline = of(1_500);
        assert!(!deadline.is_due(q));
        assert_eq!(deadline.end_window(20, q, true), None);
        assert_eq!(deadline.end_window(20, q, true), Some(AT_THE_LAST_OF_SEVERAL));
        assert!(deadline.is_due(q));
        let mut deadline = of(1_280);
        assert_eq!(deadline.end_window(20, q, true), Some(AT_THE_LAST));
        let mut deadline = of(1_281);
        assert_eq!(deadline.end_window(20, q, true), None);
        assert_eq!(deadline.end_window(0, q, false), Some(NONE));
        assert_eq!(deadline.end_window(20, q, false), None);
    }
}
