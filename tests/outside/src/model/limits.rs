//! STATUS of the operations of alloc_ctl that both controllers have, worked out in the same order.

use super::registers::{AT, CONFIG_LIMIT, DONE, OP, RCID, READ_LIMIT};
use super::Sizes;

/// STATUS of the operation that alloc_ctl's fields ask for; whether an operand is bad for a pair of
/// RCID and AT the controller says.
pub fn alloc_status(
    sizes: &impl Sizes,
    fields: u64,
    bad_operand: impl FnOnce(u64, u64) -> bool,
) -> u64 {
    let (op, rcid, at) = (OP.get(fields), RCID.get(fields), AT.get(fields));
    if op != CONFIG_LIMIT && op != READ_LIMIT {
        2
    } else if rcid >= sizes.nr() {
        3
    } else if at >= sizes.na() {
        4
    } else if op == CONFIG_LIMIT && bad_operand(rcid, at) {
        5
    } else {
        DONE
    }
}
