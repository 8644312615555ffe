//! What an accepted call does, as far as both controllers do it alike.

use super::access::{self, Part};
use super::check::Setup;
use super::monitor::{write_mon_ctl, Monitor};
use super::{Answer, Checked, Common, CommonCall};

pub trait Performs: Checked {
    fn after_reset(setup: &Setup<Self>) -> Self;

    /// The words of the registers in the order of their offsets.
    fn registers(&self) -> [u64; 5];

    fn monitor(&mut self) -> Monitor<'_>;

    /// Stores alloc_ctl's fields and performs the operation. Unless it ends in STATUS 1,
    /// nothing but alloc_ctl changes.
    fn write_alloc_ctl(&mut self, value: u64);

    /// A write of bw_alloc or block_mask, whole or in part.
    fn write_operand(&mut self, part: Part, value: u64);

    /// A call that this controller alone has, and its answer.
    fn own(&mut self, call: &Self::Call) -> Answer;

    /// Makes one call. `lengths` are those of the lent slices in bytes: record, then tables in order.
    fn perform(&mut self, lengths: &[usize], call: &Self::Call) -> Answer {
        let refusal = self.refusal(lengths, call);
        if refusal != 0 {
            return Answer::refused(refusal);
        }
        match call.common() {
            Common::Reset(setup) => *self = Self::after_reset(setup),
            Common::Read { size, offset } => {
                return Answer::value(access::read(self.registers(), size, offset));
            }
            Common::Write { size, offset, value } => self.write(size, offset, value),
            Common::Own => return self.own(call),
        }
        Answer::default()
    }

    fn write(&mut self, size: u64, offset: u64, value: u64) {
        match (access::register(offset), access::part(size, offset)) {
            (access::OPERAND, part) => self.write_operand(part, value),
            // a write of a control register's high half alone does nothing
            (_, Part::High) => {}
            (access::MON_CTL, _) => write_mon_ctl(value, self.monitor()),
            (access::ALLOC_CTL, _) => self.write_alloc_ctl(value),
            // capabilities and mon_ctr_val are read-only: accepted, and nothing happens
            _ => {}
        }
    }
}
