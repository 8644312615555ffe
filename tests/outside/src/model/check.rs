//! The refusals of both controllers, in checking order.

use super::access::{access_refusal, write_refusal};
use super::{Common, CommonCall};

/// The set-up of a state's controller.
pub type Setup<S> = <<S as Checked>::Call as CommonCall>::Setup;

/// A controller's record and tables as the checks see them.
pub trait Checked: Sized {
    type Call: CommonCall;

    /// The bytes of a record in the C interface.
    const RECORD_LENGTH: usize;

    fn setup(&self) -> &Setup<Self>;

    /// Whether every number of a set-up lies in its range.
    fn in_range(setup: &Setup<Self>) -> bool;

    /// The lengths of the tables in bytes.
    fn table_lengths(setup: &Setup<Self>) -> Vec<usize>;

    /// The first part of record and tables that is not well formed (rule W1). Well formed is what
    /// the controller's own calls can leave, and no bit elsewhere.
    fn fault(&self) -> Option<&'static str>;

    /// Refusals of a call that this controller alone has, by its own arguments, or 0.
    fn own_refusal(&self, call: &Self::Call) -> u64;

    /// Refusals 4 and on, which go by the call's own arguments, or 0.
    fn argument_refusal(&self, call: &Self::Call) -> u64 {
        match call.common() {
            Common::Reset(_) => 0,
            Common::Read { size, offset } => access_refusal(size, offset),
            Common::Write { size, offset, value } => write_refusal(size, offset, value),
            Common::Own => self.own_refusal(call),
        }
    }

    fn well_formed(&self) -> bool {
        self.fault().is_none()
    }

    /// The lengths of the lent slices in bytes: record, then tables in order.
    fn lengths(setup: &Setup<Self>) -> Vec<usize> {
        [vec![Self::RECORD_LENGTH], Self::table_lengths(setup)].concat()
    }

    /// The number of the first check that fails, or 0.
    fn refusal(&self, lengths: &[usize], call: &Self::Call) -> u64 {
        let setup = call.as_reset().unwrap_or(self.setup());
        if lengths[0] != Self::RECORD_LENGTH || !Self::in_range(setup) {
            1
        } else if lengths[1..] != Self::table_lengths(setup) {
            2
        } else if call.as_reset().is_none() && !self.well_formed() {
            3
        } else {
            self.argument_refusal(call)
        }
    }
}
