//! Bit fields of registers and table words.

/// A field from its highest bit to its lowest, as the paper writes it: STATUS 38:32.
#[derive(Clone, Copy, Debug)]
pub struct Field {
    high: u32,
    low: u32,
}

impl Field {
    pub const fn new(high: u32, low: u32) -> Field {
        Field { high, low }
    }

    /// The highest value that the field can hold.
    pub fn highest(self) -> u64 {
        ((1u128 << (self.high - self.low + 1)) - 1) as u64
    }

    /// The field's bits in a word.
    pub fn mask(self) -> u64 {
        self.highest() << self.low
    }

    /// The field's value in a word.
    pub fn get(self, word: u64) -> u64 {
        (word >> self.low) & self.highest()
    }

    /// A word with the value in this field and 0 elsewhere. The value must fit.
    pub fn place(self, value: u64) -> u64 {
        assert!(value <= self.highest(), "{value} does not fit into {self:?}");
        value << self.low
    }
}

#[cfg(test)]
mod tests {
    use super::*;

    #[test]
    fn a_field_of_the_whole_word() {
        let whole = Field::new(63, 0);
        assert_eq!(whole.mask(), u64::MAX);
        assert_eq!(whole.get(u64::MAX), u64::MAX);
    }

    #[test]
    fn the_status_field() {
        let status = Field::new(38, 32);
        assert_eq!(status.mask(), 0x7F_0000_0000);
        assert_eq!(status.place(5), 0x5_0000_0000);
        assert_eq!(status.get(0xFFFF_FF85_FFFF_FFFF), 5);
    }
}
