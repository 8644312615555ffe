//! A small pseudo-random generator (splitmix64) and choices with the ends of ranges favoured.

pub struct Random {
    state: u64,
}

impl Random {
    pub fn new(seed: u64) -> Random {
        Random { state: seed }
    }

    pub fn next(&mut self) -> u64 {
        self.state = self.state.wrapping_add(0x9E37_79B9_7F4A_7C15);
        let mut word = self.state;
        word = (word ^ (word >> 30)).wrapping_mul(0xBF58_476D_1CE4_E5B9);
        word = (word ^ (word >> 27)).wrapping_mul(0x94D0_49BB_1331_11EB);
        word ^ (word >> 31)
    }

    /// A number below `count`, which is not 0.
    pub fn below(&mut self, count: u64) -> u64 {
        self.next() % count
    }

    /// A number from `low` to `high`, both included.
    pub fn between(&mut self, low: u64, high: u64) -> u64 {
        low + self.below(high - low + 1)
    }

    pub fn percent(&mut self, chance: u64) -> bool {
        self.below(100) < chance
    }

    pub fn pick<T: Clone>(&mut self, items: &[T]) -> T {
        items[self.below(items.len() as u64) as usize].clone()
    }

    /// Any 64-bit number, those next to a power of two more often.
    pub fn number(&mut self) -> u64 {
        let power = 1u64 << self.below(64);
        match self.below(6) {
            0 => self.below(10),
            1 => power,
            2 => power - 1,
            3 => power.wrapping_add(1),
            4 => u64::MAX - self.below(10),
            _ => self.next(),
        }
    }

    /// Mostly a number below `count`; at times the first that is not, any one,
    /// or one that falls below `count` where its high bits are lost.
    pub fn index(&mut self, count: u64) -> u64 {
        match self.below(60) {
            0 => count,
            1 => self.number(),
            2 => self.below(count) | 1 << self.below(64),
            3..=7 => count - 1,
            _ => self.below(count),
        }
    }

    /// A place in a table: its ends and those next to a power of two more often.
    pub fn place(&mut self, count: u64) -> usize {
        let place = match self.below(4) {
            0 => 0,
            1 => count - 1,
            2 => (self.below(8) << self.below(9)) + self.below(2),
            _ => self.below(count),
        };
        place.min(count - 1) as usize
    }

    /// A value for a field of `width` bits: mostly below `count`, at times not.
    pub fn field_index(&mut self, count: u64, width: u32) -> u64 {
        let highest = (1 << width) - 1;
        match self.below(20) {
            0 => count & highest,
            1 => self.next() & highest,
            2 => self.below(count) | 1 << self.below(width as u64),
            _ => self.below(count),
        }
    }
}

#[cfg(test)]
mod tests {
    use super::*;

    #[test]
    fn the_published_first_numbers_of_splitmix64() {
        let mut random = Random::new(1234567);
        assert_eq!(random.next(), 6457827717110365317);
        assert_eq!(random.next(), 3203168211198807973);
        assert_eq!(random.next(), 9817491932198370423);
    }
}
