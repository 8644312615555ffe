//! The words of the table of owners: who filled each unit. A free unit has word 0.

use super::{Fill, Setup};
use crate::model::access_type;
use crate::model::field::Field;

pub const RCID: Field = Field::new(7, 0);
pub const MCID: Field = Field::new(15, 8);
pub const AT: Field = Field::new(18, 16);
pub const OWNED: Field = Field::new(19, 19);

/// The word that an allowed fill stores.
pub fn owner_of(fill: &Fill, na: u64) -> u32 {
    let at = access_type(fill.at, na);
    let word = RCID.place(fill.rcid) | MCID.place(fill.mcid) | AT.place(at) | OWNED.place(1);
    word as u32
}

/// Whether a word is 0 or one that some fill stores.
pub fn owner_well_formed(setup: &Setup, word: u32) -> bool {
    let word = word as u64;
    let named = RCID.mask() | MCID.mask() | AT.mask() | OWNED.mask();
    let is_stored = word & !named == 0
        && OWNED.get(word) == 1
        && RCID.get(word) < setup.nr
        && MCID.get(word) < setup.nm
        && AT.get(word) < setup.na;
    word == 0 || is_stored
}

#[cfg(test)]
mod tests {
    use super::*;

    const SETUP: Setup = Setup { ncblks: 2, nr: 200, na: 3, nm: 100, w: 24, u: 2 };

    #[test]
    fn words() {
        let fill = Fill { rcid: 0xAB, mcid: 0x5C, at: 2, unit: 3 };
        assert_eq!(owner_of(&fill, 3), 0x000A_5CAB);
        assert_eq!(owner_of(&fill, 2), 0x0008_5CAB, "AT 2 of 2");
        assert_eq!(owner_of(&Fill { at: 1 << 32 | 1, ..fill }, 3), 0x0008_5CAB);
        assert_eq!(owner_of(&Fill { rcid: 0, mcid: 0, at: 0, unit: 0 }, 1), 0x0008_0000);
    }

    #[test]
    fn forms() {
        let forms = [
            (0, true),
            (0x0008_0000, true),
            (0x000A_63C7, true),
            (0x000A_63C8, false),
            (0x000A_64C7, false),
            (0x000B_63C7, false),
            (0x0002_63C7, false),
            (1, false),
            (0x0018_0000, false),
            (0x8008_0000, false),
        ];
        for (word, expected) in forms {
            assert_eq!(owner_well_formed(&SETUP, word), expected, "{word:#x}");
        }
    }
}
