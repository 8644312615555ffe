//! A setting's word: the fields of bw_alloc, and the holders of a table.
//! A holder is a pair that was set with useShared 0; a sharer one with useShared 1; word 0 is unset.

use super::Setup;
use crate::model::field::Field;
use crate::model::Sizes;

pub const RBWB: Field = Field::new(15, 0);
pub const MWEIGHT: Field = Field::new(27, 20);
pub const SHARED_AT: Field = Field::new(30, 28);
pub const USE_SHARED: Field = Field::new(31, 31);

/// A value with the bits outside the named fields dropped.
pub fn named_bits(value: u64) -> u64 {
    value & (RBWB.mask() | MWEIGHT.mask() | SHARED_AT.mask() | USE_SHARED.mask())
}

pub fn is_sharer(word: u32) -> bool {
    USE_SHARED.get(word as u64) == 1
}

pub fn is_holder(word: u32) -> bool {
    word != 0 && !is_sharer(word)
}

/// The blocks that a word reserves: a holder's Rbwb, and nothing otherwise.
pub fn reserved(word: u32) -> u64 {
    if is_holder(word) {
        RBWB.get(word as u64)
    } else {
        0
    }
}

pub fn weight(word: u32) -> u64 {
    MWEIGHT.get(word as u64)
}

pub fn shared_at(word: u32) -> u64 {
    SHARED_AT.get(word as u64)
}

/// The holders among some words.
pub fn holders(words: &[u32]) -> impl Iterator<Item = u32> + '_ {
    words.iter().copied().filter(|&word| is_holder(word))
}

/// All blocks that a table reserves.
pub fn all_reserved(words: &[u32]) -> u64 {
    words.iter().map(|&word| reserved(word)).sum()
}

/// Whether a sharer's word names a wrong access type:
/// its own, one that does not exist, no holder under the same RCID,
/// or any at all while another AT of the RCID shares this one.
pub fn bad_share(setup: &Setup, words: &[u32], rcid: u64, at: u64, target: u64) -> bool {
    if target == at || target >= setup.na {
        return true;
    }
    let word = |at: u64| words[setup.place(rcid, at)];
    let is_shared = (0..setup.na)
        .any(|other| other != at && is_sharer(word(other)) && shared_at(word(other)) == at);
    !is_holder(word(target)) || is_shared
}

/// Stores an accepted setting of a pair; a holder's weight is carried to all holders of its RCID.
pub fn store(setup: &Setup, words: &mut [u32], rcid: u64, at: u64, operand: u64) {
    let stored = stored_form(operand);
    words[setup.place(rcid, at)] = stored;
    if is_sharer(stored) {
        return;
    }
    for word in &mut words[setup.row(rcid)] {
        if is_holder(*word) {
            *word = *word & !(MWEIGHT.mask() as u32) | stored & MWEIGHT.mask() as u32;
        }
    }
}

/// Whether the holders of each RCID have one weight.
pub fn one_weight_each(setup: &Setup, words: &[u32]) -> bool {
    (0..setup.nr).all(|rcid| {
        let mut weights = holders(&words[setup.row(rcid)]).map(weight);
        let first = weights.next();
        weights.all(|weight| Some(weight) == first)
    })
}

/// The form in which a table keeps a setting:
/// a sharer's Rbwb and Mweight are 0, and so is a holder's sharedAT.
pub fn stored_form(value: u64) -> u32 {
    let kept = if USE_SHARED.get(value) == 1 {
        USE_SHARED.mask() | SHARED_AT.mask()
    } else {
        RBWB.mask() | MWEIGHT.mask()
    };
    (value & kept) as u32
}

#[cfg(test)]
mod tests {
    use super::*;

    #[test]
    fn stored_forms() {
        assert_eq!(stored_form(0xFFFF_FFFF_FFFF_FFFF), 0xF000_0000);
        assert_eq!(stored_form(0x7FFF_FFFF), 0x0FF0_FFFF);
    }

    #[test]
    fn named_bits_of_bw_alloc() {
        assert_eq!(named_bits(u64::MAX), 0xFFF0_FFFF);
    }

    const SETUP: Setup = Setup { nbwblks: 9, mrbwb: 9, nr: 3, na: 4, nm: 1, q: 4, w: 24 };

    /// In each RCID AT 0 and AT 3 hold, AT 1 shares AT 0 and AT 2 is unset; the weights are 5, 6, 7.
    fn words() -> Vec<u32> {
        let row = |weight: u32| [weight << 20 | 1, 0x8000_0000, 0, weight << 20 | 2];
        [5, 6, 7].map(row).concat()
    }

    fn after(rcid: u64, at: u64, operand: u64) -> Vec<u32> {
        let mut words = words();
        store(&SETUP, &mut words, rcid, at, operand);
        words
    }

    #[test]
    fn a_holder_carries_its_weight_within_its_rcid() {
        let mut expected = words();
        (expected[4], expected[7]) = (0x0FF0_0001, 0x0FF0_0003);
        assert_eq!(after(1, 3, 0x0FF0_0003), expected);
        (expected[4], expected[6], expected[7]) = (1, 1, 2);
        assert_eq!(after(1, 2, 1), expected, "weight 0 of a new holder");
    }

    #[test]
    fn a_sharer_carries_nothing() {
        let mut expected = words();
        expected[6] = 0xB000_0000;
        assert_eq!(after(1, 2, 0xBFF0_FFFF), expected);
        expected[6] = 0;
        expected[7] = 0x8000_0000;
        assert_eq!(after(1, 3, 0x8FF0_0000), expected, "once a holder");
    }

    #[test]
    fn weights_may_differ_between_rcids_alone() {
        assert!(one_weight_each(&SETUP, &words()));
        for holder in [0, 3, 4, 7, 8, 11] {
            for bit in 20..28 {
                let mut words = words();
                words[holder] ^= 1 << bit;
                assert!(!one_weight_each(&SETUP, &words), "{holder}, bit {bit}");
            }
        }
    }
}
