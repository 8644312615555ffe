//! Ledgers (rules L1 to L6 and L8) that follow a list of calls by arguments and answers alone,
//! and the claims that each list must meet. They never look into a record or table to learn anything;
//! tables are only compared with what the ledger worked out.

pub mod bandwidth;
pub mod capacity;

use crate::coverage::Labels;
use crate::model::access::{self, Part};
use crate::model::monitor::{mon_status, setting_of};
use crate::model::registers::{
    alloc_ctl_fields, mon_ctl_fields, CONFIG_EVENT, DONE, EVT_ID, MCID, OP,
};
use crate::model::{Answer, Common, CommonCall, Sizes};
#[cfg(test)]
use crate::model::{Checked, Performs};

/// What follows the calls of one controller.
pub trait Ledger: Sized {
    type Setup: Sizes;
    type Call: CommonCall<Setup = Self::Setup>;
    type State;

    /// bw_alloc or block_mask, and the last event that is known.
    const OPERAND: &'static str;
    const LAST_EVENT: u64;

    fn after_reset(setup: &Self::Setup) -> Self;

    fn setup(&self) -> &Self::Setup;
    fn operand(&self) -> u64;
    fn write_operand(&mut self, part: Part, value: u64);

    /// An operation of alloc_ctl, its STATUS worked out over the ledger's words.
    fn operate(&mut self, fields: u64);

    /// A counter that an operation of mon_ctl set: with an event it starts again at 0.
    fn set_counter(&mut self, set: CounterSet);

    /// Follows an accepted call that this controller alone has, and its answer.
    fn own(&mut self, call: &Self::Call, answer: Answer) -> Result<(), String>;

    /// All claims, after any call of the list.
    fn check(&self, state: &Self::State) -> Result<(), String>;

    /// What an accepted call that was followed showed, by what came before it in the list.
    fn shown(&self, _call: &Self::Call) -> Labels {
        Labels::new()
    }

    /// What is claimed of a call that is refused by this number.
    fn refused(&self, _call: &Self::Call, _number: u64) -> Result<(), String> {
        Ok(())
    }

    /// Follows an accepted call and its answer.
    fn accepted(&mut self, call: &Self::Call, answer: Answer) -> Result<(), String> {
        match call.common() {
            Common::Reset(setup) => *self = Self::after_reset(setup),
            Common::Read { size, offset } => return self.claim_read(size, offset, answer.value),
            Common::Write { size, offset, value } => self.write(size, offset, value),
            Common::Own => return self.own(call, answer),
        }
        Ok(())
    }

    fn write(&mut self, size: u64, offset: u64, value: u64) {
        let na = self.setup().na();
        match (access::register(offset), access::part(size, offset)) {
            (access::OPERAND, part) => self.write_operand(part, value),
            (_, Part::High) => {}
            (access::ALLOC_CTL, _) => self.operate(alloc_ctl_fields(value, na)),
            (access::MON_CTL, _) => {
                let fields = mon_ctl_fields(value, na);
                if let Some(set) = counter_set(fields, self.setup(), Self::LAST_EVENT) {
                    self.set_counter(set);
                }
            }
            _ => {}
        }
    }

    /// A read of bw_alloc or block_mask gives the ledger's word; another register is not claimed
    /// here.
    fn claim_read(&self, size: u64, offset: u64, value: u64) -> Result<(), String> {
        if access::register(offset) != access::OPERAND {
            return Ok(());
        }
        let expected = access::read_part(self.operand(), access::part(size, offset));
        let text = || format!("{} read {value:#x}, not {expected:#x}", Self::OPERAND);
        claim(value == expected, text)
    }

    /// Follows one call; a refused one changes nothing.
    fn observe(&mut self, call: &Self::Call, answer: Answer) -> Result<(), String> {
        match answer.refusal {
            0 => self.accepted(call, answer),
            number => self.refused(call, number),
        }
    }
}

/// Lets the ledger see a call; an accepted reset opens a new one.
pub fn follow<L: Ledger>(
    ledger: &mut Option<L>,
    call: &L::Call,
    answer: Answer,
    after: &L::State,
) -> Result<(), String> {
    if let (Some(setup), 0) = (call.as_reset(), answer.refusal) {
        *ledger = Some(L::after_reset(setup));
    }
    match ledger {
        Some(ledger) => ledger.observe(call, answer).and_then(|_| ledger.check(after)),
        None => Ok(()),
    }
}

/// A counter that an operation of mon_ctl set, and whether it starts again at 0.
pub struct CounterSet {
    mcid: usize,
    setting: u16,
    starts: bool,
}

/// What mon_ctl's fields set by an operation that ends in STATUS 1.
fn counter_set(fields: u64, sizes: &impl Sizes, last_event: u64) -> Option<CounterSet> {
    let status = mon_status(fields, sizes.na(), sizes.nm(), last_event);
    (status == DONE && OP.get(fields) == CONFIG_EVENT).then(|| CounterSet {
        mcid: MCID.get(fields) as usize,
        setting: setting_of(fields),
        starts: EVT_ID.get(fields) != 0,
    })
}

/// A claim: an error with its text where it does not hold.
fn claim(holds: bool, text: impl FnOnce() -> String) -> Result<(), String> {
    if holds {
        Ok(())
    } else {
        Err(format!("ledger: {}", text()))
    }
}

/// One call on a state and in its ledger, and the claims after it.
#[cfg(test)]
fn make<L>(state: &mut L::State, ledger: &mut L, call: &L::Call) -> Result<(), String>
where
    L: Ledger,
    L::State: Performs<Call = L::Call>,
{
    let answer = state.perform(&L::State::lengths(ledger.setup()), call);
    ledger.observe(call, answer)?;
    ledger.check(state)
}
