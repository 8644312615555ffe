//! The ledger of the capacity controller and its claims.

mod tally;

use super::{claim, CounterSet};
use crate::coverage::Labels;
use crate::model::access::{write_part, Part, ALLOC_CTL};
use crate::model::capacity::owners::owner_of;
use crate::model::capacity::{
    all_blocks, alloc_status, first_masks, Call, Fill, Setup, State, LAST_EVENT,
};
use crate::model::registers::{AT, CONFIG_LIMIT, DONE, FLUSH_RCID, OP, RCID, READ_LIMIT};
use crate::model::{access_type, Answer, Sizes};
use tally::Tally;

pub struct Ledger {
    setup: Setup,
    block_mask: u64,
    masks: Vec<u64>,
    /// The fill that each unit is owned by; its AT is one that exists.
    owners: Vec<Option<Fill>>,
    tallies: Vec<Tally>,
}

impl super::Ledger for Ledger {
    type Setup = Setup;
    type Call = Call;
    type State = State;

    const OPERAND: &'static str = "block_mask";
    const LAST_EVENT: u64 = LAST_EVENT;

    fn after_reset(setup: &Setup) -> Ledger {
        Ledger {
            setup: *setup,
            block_mask: 0,
            masks: first_masks(setup),
            owners: vec![None; setup.units() as usize],
            tallies: vec![Tally::default(); setup.nm as usize],
        }
    }

    fn setup(&self) -> &Setup {
        &self.setup
    }

    fn operand(&self) -> u64 {
        self.block_mask
    }

    fn write_operand(&mut self, part: Part, value: u64) {
        self.block_mask = write_part(self.block_mask, part, value) & all_blocks(&self.setup);
    }

    fn operate(&mut self, fields: u64) {
        if alloc_status(&self.setup, self.block_mask, fields) != DONE {
            return;
        }
        let (rcid, at) = (RCID.get(fields), AT.get(fields));
        match OP.get(fields) {
            CONFIG_LIMIT => self.masks[self.setup.place(rcid, at)] = self.block_mask,
            READ_LIMIT => self.block_mask = self.masks[self.setup.place(rcid, at)],
            _ => self.flush(rcid),
        }
    }

    fn set_counter(&mut self, set: CounterSet) {
        let owned = self.owned()[set.mcid];
        self.tallies[set.mcid].set(&set, owned);
    }

    fn own(&mut self, call: &Call, answer: Answer) -> Result<(), String> {
        match call {
            Call::Fill(fill) => return self.fill(fill, answer.value),
            Call::Evict { unit } => self.evict(*unit as usize),
            _ => {}
        }
        Ok(())
    }

    fn check(&self, state: &State) -> Result<(), String> {
        claim(state.masks == self.masks, || "the table of masks".into())?;
        let word = |owner: &Option<Fill>| owner.map_or(0, |fill| owner_of(&fill, self.setup.na));
        let same = state.owners.iter().copied().eq(self.owners.iter().map(word));
        claim(same, || "the table of owners".into())?;
        let owned = self.owned();
        for (mcid, tally) in self.tallies.iter().enumerate() {
            tally.check(mcid, state.counters[mcid], owned[mcid])?;
        }
        Ok(())
    }

    /// How many units those MCIDs own whose count is claimed to be just that.
    fn shown(&self, call: &Call) -> Labels {
        let name = match call {
            Call::Fill(_) => CLAIMED_AFTER[0],
            Call::Evict { .. } => CLAIMED_AFTER[1],
            Call::Write { offset, value, .. } if self.flushes(*offset, *value) => CLAIMED_AFTER[2],
            _ => return Labels::new(),
        };
        let tallies = self.tallies.iter().zip(self.owned());
        let claimed = tallies.filter(|(tally, _)| tally.is_complete());
        claimed.map(|(_, owned)| claimed_label(name, owned)).collect()
    }
}

/// Calls that change who owns a unit.
const CLAIMED_AFTER: [&str; 3] = ["a fill", "an eviction", "a flush"];

fn claimed_label(name: &str, owned: u64) -> String {
    let number = match owned {
        0 => "none",
        1 => "one",
        _ => "several",
    };
    format!("count of every unit claimed after {name}: {number}")
}

/// What a run must show of the claims.
pub fn required() -> Labels {
    CLAIMED_AFTER
        .iter()
        .flat_map(|name| [0, 1, 2].map(|owned| claimed_label(name, owned)))
        .collect()
}

impl Ledger {
    /// Whether a write makes a flush of an RCID that exists.
    fn flushes(&self, offset: u64, value: u64) -> bool {
        offset == ALLOC_CTL && OP.get(value) == FLUSH_RCID && RCID.get(value) < self.setup.nr
    }

    /// The number of units that each MCID owns.
    fn owned(&self) -> Vec<u64> {
        let mut owned = vec![0; self.setup.nm as usize];
        for fill in self.owners.iter().flatten() {
            owned[fill.mcid as usize] += 1;
        }
        owned
    }

    /// A fill is allowed exactly where the ledger's mask has the unit's block.
    fn fill(&mut self, fill: &Fill, allowed: u64) -> Result<(), String> {
        let fill = Fill { at: access_type(fill.at, self.setup.na), ..*fill };
        let mask = self.masks[self.setup.place(fill.rcid, fill.at)];
        let expected = mask >> self.setup.block_of(fill.unit) & 1;
        claim(allowed == expected, || format!("{fill:?} answered {allowed}"))?;
        if allowed == 1 {
            let (unit, top) = (fill.unit as usize, (1 << self.setup.w) - 1);
            self.evict(unit);
            self.owners[unit] = Some(fill);
            let tally = &mut self.tallies[fill.mcid as usize];
            tally.count(fill.at, |units| if units < top { Some(units + 1) } else { None });
        }
        Ok(())
    }

    fn evict(&mut self, unit: usize) {
        if let Some(fill) = self.owners[unit].take() {
            self.tallies[fill.mcid as usize].count(fill.at, |units| units.checked_sub(1));
        }
    }

    fn flush(&mut self, rcid: u64) {
        for unit in 0..self.owners.len() {
            if matches!(self.owners[unit], Some(fill) if fill.rcid == rcid) {
                self.evict(unit);
            }
        }
    }
}

#[cfg(test)]
mod tests {
    use super::*;
    use crate::ledger::{make, Ledger as _};
    use crate::model::capacity::INVALID;

    const SETUP: Setup = Setup { ncblks: 8, nr: 4, na: 2, nm: 4, w: 24, u: 2 };

    fn fill(rcid: u64, unit: u64) -> Call {
        Call::Fill(Fill { rcid, mcid: 0, at: 0, unit })
    }

    fn write(offset: u64, value: u64) -> Call {
        Call::Write { size: 8, offset, value }
    }

    /// RCID 1 has block 3; counter 0 counts occupancy, and unit 7 is the first of its MCID.
    fn in_use() -> (State, Ledger) {
        let (mut state, mut ledger) = (State::default(), Ledger::after_reset(&SETUP));
        let calls = [
            Call::Reset(SETUP),
            write(32, 0b1000),
            write(24, 0x101),
            write(8, 0x10_0001),
            fill(1, 7),
        ];
        for call in calls {
            make(&mut state, &mut ledger, &call).unwrap();
        }
        (state, ledger)
    }

    #[test]
    fn fills_go_by_the_ledgers_masks() {
        let (_, mut ledger) = in_use();
        assert!(ledger.observe(&fill(1, 5), Answer::value(1)).is_err());
        assert!(ledger.observe(&fill(1, 6), Answer::value(0)).is_err());
        assert!(ledger.observe(&fill(1, 8), Answer::value(1)).is_err());
        assert!(ledger.observe(&fill(1, 8), Answer::value(0)).is_ok());
    }

    #[test]
    fn reads_of_block_mask() {
        let (_, mut ledger) = in_use();
        let read = Call::Read { size: 4, offset: 32 };
        assert!(ledger.observe(&read, Answer::value(0b1000)).is_ok());
        assert!(ledger.observe(&read, Answer::value(0b1001)).is_err());
    }

    #[test]
    fn counters_are_fills_less_evictions() {
        let (mut state, ledger) = in_use();
        for word in [0, 2, INVALID.mask() | 1] {
            state.counters[0] = word;
            assert!(ledger.check(&state).is_err(), "{word:#x}");
        }
        state.counters[0] = 1;
        assert!(ledger.check(&state).is_ok());
    }

    #[test]
    fn an_eviction_at_0_must_show() {
        let (mut state, mut ledger) = in_use();
        make(&mut state, &mut ledger, &write(8, 0x10_0001)).unwrap();
        make(&mut state, &mut ledger, &Call::Evict { unit: 7 }).unwrap();
        assert_eq!(state.counters[0], INVALID.mask());
        state.counters[0] = 0;
        assert!(ledger.check(&state).is_err());
    }

    #[test]
    fn masks_and_owners_are_the_ledgers() {
        let (mut state, ledger) = in_use();
        state.masks[2] = 0b1001;
        assert!(ledger.check(&state).is_err());
        state.masks[2] = 0b1000;
        state.owners[7] = 0x0008_0000;
        assert!(ledger.check(&state).is_err());
        state.owners[7] = 0x0008_0001;
        assert!(ledger.check(&state).is_ok());
    }

    #[test]
    fn a_flush_frees_units_of_its_rcid_alone() {
        let (mut state, mut ledger) = in_use();
        make(&mut state, &mut ledger, &fill(0, 0)).unwrap();
        make(&mut state, &mut ledger, &write(24, 0x1E3)).unwrap();
        assert_eq!((state.owners[0], state.owners[7]), (0x0008_0000, 0));
        state.counters[0] = 2;
        assert!(ledger.check(&state).is_err());
    }

    /// A tally that lost count of a fill: the units owned tell.
    #[test]
    fn the_count_is_the_units_owned() {
        let (mut state, mut ledger) = in_use();
        ledger.tallies[0].count(0, |units| Some(units + 1));
        state.counters[0] = 2;
        let text = ledger.check(&state).unwrap_err();
        assert!(text.contains("its MCID owns 1 units"), "{text}");
        make(&mut state, &mut ledger, &write(8, 0x1010_0001)).unwrap();
        assert!(!ledger.tallies[0].is_complete(), "ATV 1");
        make(&mut state, &mut ledger, &write(8, 0x10_0001)).unwrap();
        assert!(!ledger.tallies[0].is_complete(), "a unit is owned");
    }
}
