//! The places of register fields that both controllers have, and the version number.

use super::field::Field;

/// capabilities.VER reads this.
pub const VERSION: u64 = 0x01;

// alloc_ctl and mon_ctl
pub const OP: Field = Field::new(4, 0);
pub const AT: Field = Field::new(7, 5);
pub const STATUS: Field = Field::new(38, 32);
// BUSY is bit 39; operations end within the write, so it is always 0

// alloc_ctl
pub const RCID: Field = Field::new(19, 8);

// mon_ctl
pub const MCID: Field = Field::new(19, 8);
pub const EVT_ID: Field = Field::new(27, 20);
pub const ATV: Field = Field::new(28, 28);

/// The operations of alloc_ctl; the last is the capacity controller's alone.
pub const CONFIG_LIMIT: u64 = 1;
pub const READ_LIMIT: u64 = 2;
pub const FLUSH_RCID: u64 = 3;

/// The operations of mon_ctl.
pub const CONFIG_EVENT: u64 = 1;
pub const READ_COUNTER: u64 = 2;

/// STATUS of an operation that was carried out.
pub const DONE: u64 = 1;

/// With one access type the AT and ATV fields of control registers are held as 0.
pub fn held_at(value: u64, na: u64) -> u64 {
    if na == 1 {
        0
    } else {
        value
    }
}

/// alloc_ctl's fields of a written value, without STATUS.
pub fn alloc_ctl_fields(value: u64, na: u64) -> u64 {
    OP.place(OP.get(value)) | AT.place(held_at(AT.get(value), na)) | RCID.place(RCID.get(value))
}

/// mon_ctl's fields of a written value, without STATUS.
pub fn mon_ctl_fields(value: u64, na: u64) -> u64 {
    OP.place(OP.get(value))
        | AT.place(held_at(AT.get(value), na))
        | MCID.place(MCID.get(value))
        | EVT_ID.place(EVT_ID.get(value))
        | ATV.place(held_at(ATV.get(value), na))
}

/// Whether alloc_ctl has no bit outside its fields or held as 0; STATUS may be any of its values.
pub fn alloc_ctl_well_formed(word: u64, na: u64) -> bool {
    word == alloc_ctl_fields(word, na) | (word & STATUS.mask())
}

/// The same for mon_ctl.
pub fn mon_ctl_well_formed(word: u64, na: u64) -> bool {
    word == mon_ctl_fields(word, na) | (word & STATUS.mask())
}

#[cfg(test)]
mod tests {
    use super::*;

    #[test]
    fn unnamed_bits_are_dropped() {
        assert_eq!(alloc_ctl_fields(u64::MAX, 2), 0x000F_FFFF);
        assert_eq!(mon_ctl_fields(u64::MAX, 2), 0x1FFF_FFFF);
    }

    #[test]
    fn one_access_type_holds_at_and_atv_at_0() {
        assert_eq!(alloc_ctl_fields(0x121, 1), 0x101);
        assert_eq!(mon_ctl_fields(u64::MAX, 1), 0x0FFF_FF1F);
    }

    #[test]
    fn busy_is_not_well_formed() {
        assert!(alloc_ctl_well_formed(0x7F_0000_0000, 2));
        assert!(!alloc_ctl_well_formed(0x80_0000_0000, 2));
        assert!(mon_ctl_well_formed(0x7F_0000_0000, 2));
        assert!(!mon_ctl_well_formed(0x80_0000_0000, 2));
    }
}
