//! Accesses of 4 and 8 bytes to the 40 bytes of registers.

/// Where the registers stand; capabilities is at 0.
pub const MON_CTL: u64 = 8;
pub const MON_CTR_VAL: u64 = 16;
pub const ALLOC_CTL: u64 = 24;
/// bw_alloc of the bandwidth controller, block_mask of the capacity controller.
pub const OPERAND: u64 = 32;
/// The first byte beyond the registers.
pub const END: u64 = 40;

/// The part of a register that an access covers.
#[derive(Clone, Copy, Debug, PartialEq, Eq)]
pub enum Part {
    Whole,
    Low,
    High,
}

/// Refusals 4 and 5, or 0.
pub fn access_refusal(size: u64, offset: u64) -> u64 {
    if size != 4 && size != 8 {
        return 4;
    }
    let end = offset as u128 + size as u128;
    if offset % size != 0 || end > END as u128 {
        return 5;
    }
    0
}

/// Refusal 6 of a write, or 0.
fn value_refusal(size: u64, value: u64) -> u64 {
    if size == 4 && value > u32::MAX as u64 {
        6
    } else {
        0
    }
}

/// Refusals 4 to 6 of a write, or 0.
pub fn write_refusal(size: u64, offset: u64, value: u64) -> u64 {
    match access_refusal(size, offset) {
        0 => value_refusal(size, value),
        number => number,
    }
}

/// The register that an accepted access falls in.
pub fn register(offset: u64) -> u64 {
    offset - offset % 8
}

/// The part of that register.
pub fn part(size: u64, offset: u64) -> Part {
    match (size, offset % 8) {
        (8, _) => Part::Whole,
        (_, 0) => Part::Low,
        _ => Part::High,
    }
}

/// What a read of a part of a register's word gives.
pub fn read_part(word: u64, part: Part) -> u64 {
    match part {
        Part::Whole => word,
        Part::Low => word & 0xFFFF_FFFF,
        Part::High => word >> 32,
    }
}

/// What an accepted read gives, by the words of the registers in the order of their offsets.
pub fn read(words: [u64; 5], size: u64, offset: u64) -> u64 {
    read_part(words[(offset / 8) as usize], part(size, offset))
}

/// A register's word after a plain write of a part, before any field is held back.
pub fn write_part(word: u64, part: Part, value: u64) -> u64 {
    match part {
        Part::Whole => value,
        Part::Low => (word & 0xFFFF_FFFF_0000_0000) | value,
        Part::High => (word & 0xFFFF_FFFF) | (value << 32),
    }
}

#[cfg(test)]
mod tests {
    use super::*;

    #[test]
    fn sizes_come_before_offsets() {
        assert_eq!(access_refusal(0, 1), 4);
        assert_eq!(access_refusal(16, 0), 4);
        assert_eq!(access_refusal(8, 4), 5);
        assert_eq!(access_refusal(4, 2), 5);
    }

    #[test]
    fn the_last_bytes() {
        assert_eq!(access_refusal(8, 32), 0);
        assert_eq!(access_refusal(4, 36), 0);
        assert_eq!(access_refusal(8, 40), 5);
        assert_eq!(access_refusal(4, 40), 5);
    }

    #[test]
    fn an_end_beyond_64_bits() {
        assert_eq!(access_refusal(8, u64::MAX - 7), 5);
        assert_eq!(access_refusal(4, u64::MAX - 3), 5);
    }

    #[test]
    fn halves() {
        let word = 0x1122_3344_5566_7788;
        assert_eq!(read_part(word, part(4, 12)), 0x1122_3344);
        assert_eq!(read_part(word, part(4, 8)), 0x5566_7788);
        assert_eq!(write_part(word, Part::High, 0xAABB_CCDD), 0xAABB_CCDD_5566_7788);
        assert_eq!(write_part(word, Part::Low, 0xAABB_CCDD), 0x1122_3344_AABB_CCDD);
    }
}
