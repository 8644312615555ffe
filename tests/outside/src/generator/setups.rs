//! Set-ups: in their ranges with the ends favoured, and with one number out of its range.

use super::Random;

/// Numbers that both controllers have.
struct Sizes {
    nr: u64,
    na: u64,
    nm: u64,
    w: u64,
}

fn sizes(random: &mut Random) -> Sizes {
    let w = match random.below(4) {
        0 => 24,
        1 => 62,
        2 => random.pick(&[25, 31, 32, 33, 61]),
        _ => random.between(24, 62),
    };
    match random.below(100) {
        // the largest tables cost the most time
        0 => Sizes { nr: 256, na: 8, nm: 256, w },
        1 => Sizes { nr: 256, na: random.between(1, 8), nm: random.between(1, 4), w },
        2 => Sizes { nr: random.between(100, 255), na: 1, nm: random.between(100, 256), w },
        3..=6 => Sizes { nr: random.between(7, 100), na: random.between(1, 8), nm: 5, w },
        7 | 8 => Sizes { nr: 1, na: 1, nm: 1, w },
        9..=16 => Sizes { nr: random.between(1, 3), na: 8, nm: random.between(1, 3), w },
        17..=36 => Sizes { nr: random.between(1, 5), na: 1, nm: random.between(1, 4), w },
        _ => Sizes {
            nr: random.between(1, 6),
            na: random.between(2, 4),
            nm: random.between(1, 5),
            w,
        },
    }
}

/// One beyond either end of a range, or any number at all.
fn beyond(random: &mut Random, low: u64, high: u64) -> u64 {
    match random.below(6) {
        0 | 1 => low - 1,
        2 | 3 => high + 1,
        4 => random.number(),
        _ => random.pick(&[u64::MAX, 1 << 32, 1 << 63, (1 << 32) + 1]),
    }
}

pub mod bandwidth {
    use super::super::Random;
    use super::{beyond, sizes, Sizes};
    use crate::model::bandwidth::Setup;

    pub fn in_range(random: &mut Random) -> Setup {
        let Sizes { nr, na, nm, w } = sizes(random);
        let nbwblks = match random.below(8) {
            0 => 1,
            1 | 2 => 65_535,
            3 => random.between(1, 65_535),
            _ => random.between(2, 200),
        };
        let mrbwb = match random.below(10) {
            0..=2 => nbwblks,
            3 => 1,
            _ => random.between((nbwblks + 1) / 2, nbwblks),
        };
        let q = match random.below(8) {
            0 => 1,
            1 | 2 => 65_536,
            3 => 65_535,
            4 => random.between(1, 65_536),
            _ => random.between(1, 100),
        };
        Setup { nbwblks, mrbwb, nr, na, nm, q, w }
    }

    /// A set-up with one number replaced; `random.number()` may still lie in the range.
    pub fn outside(random: &mut Random) -> Setup {
        let mut setup = in_range(random);
        match random.below(8) {
            0 => setup.nbwblks = beyond(random, 1, 65_535),
            1 => setup.mrbwb = beyond(random, 1, setup.nbwblks),
            2 => setup.nr = beyond(random, 1, 256),
            3 => setup.na = beyond(random, 1, 8),
            4 => setup.nm = beyond(random, 1, 256),
            5 => setup.q = beyond(random, 1, 65_536),
            6 => setup.w = beyond(random, 24, 62),
            _ => (setup.nbwblks, setup.mrbwb) = (65_536, random.pick(&[1, 65_535, 65_536])),
        }
        setup
    }
}

pub mod capacity {
    use super::super::Random;
    use super::{beyond, sizes, Sizes};
    use crate::model::capacity::Setup;

    pub fn in_range(random: &mut Random) -> Setup {
        let Sizes { nr, na, nm, w } = sizes(random);
        let ncblks = match random.below(6) {
            0 => 1,
            1 => 64,
            2 => random.pick(&[31, 32, 33, 63]),
            3 => random.between(1, 64),
            _ => random.between(2, 16),
        };
        let u = match random.below(6) {
            0 => 1,
            1 => random.pick(&[63, 64, 64]),
            2 => random.between(1, 64),
            _ => random.between(2, 5),
        };
        Setup { ncblks, nr, na, nm, w, u }
    }

    /// A set-up with one number replaced; `random.number()` may still lie in the range.
    pub fn outside(random: &mut Random) -> Setup {
        let mut setup = in_range(random);
        match random.below(6) {
            0 => setup.ncblks = beyond(random, 1, 64),
            1 => setup.nr = beyond(random, 1, 256),
            2 => setup.na = beyond(random, 1, 8),
            3 => setup.nm = beyond(random, 1, 256),
            4 => setup.w = beyond(random, 24, 62),
            _ => {
                let any = beyond(random, 1, 64);
                setup.u = random.pick(&[0, 65, u64::MAX, any]);
            }
        }
        setup
    }
}
