//! One counter as the ledger knows it.

use super::super::{claim, CounterSet};
use crate::model::capacity::{counted, CTR, INVALID};

/// The setting of event 1 with ATV 0.
const EVERY_UNIT: u16 = 1;

#[derive(Clone, Default)]
pub struct Tally {
    setting: u16,
    balance: Balance,
    /// Whether it was set to count every unit while its MCID owned none, and not set again since.
    complete: bool,
}

/// Fills less evictions since its event was set, until an eviction met 0 or a fill met 2^W - 1.
#[derive(Clone, Copy, Debug, Default)]
enum Balance {
    /// No event was set since the reset.
    #[default]
    Unset,
    Units(u64),
    /// The counter must have become INVALID.
    Lost,
}

impl Tally {
    /// A new setting, at a time when its MCID owns so many units.
    pub fn set(&mut self, set: &CounterSet, owned: u64) {
        self.setting = set.setting;
        self.complete = set.setting == EVERY_UNIT && owned == 0;
        if set.starts {
            self.balance = Balance::Units(0);
        }
    }

    pub fn is_complete(&self) -> bool {
        self.complete
    }

    /// Counts a unit of this access type, if the setting does.
    pub fn count(&mut self, at: u64, next: impl Fn(u64) -> Option<u64>) {
        if let Balance::Units(units) = self.balance {
            if counted(self.setting, at) {
                self.balance = next(units).map_or(Balance::Lost, Balance::Units);
            }
        }
    }

    /// The counter's word, while its MCID owns so many units.
    pub fn check(&self, mcid: usize, word: u64, owned: u64) -> Result<(), String> {
        let invalid = INVALID.get(word) == 1;
        let expected = self.balance;
        let holds = match expected {
            Balance::Unset => true,
            Balance::Lost => invalid,
            Balance::Units(units) => !invalid && CTR.get(word) == units,
        };
        claim(holds, || format!("counter {mcid} is {word:#x}, expected {expected:?}"))?;
        let text = || format!("counter {mcid} is {word:#x}, but its MCID owns {owned} units");
        claim(!self.complete || word == owned, text)
    }
}
