//! What accepted settings read back as: all but the weight until the pair is set again, the weight
//! until then or until any holder of the RCID is set; a reset opens a new ledger and ends both.

use super::super::claim;
use crate::coverage::Labels;
use crate::model::bandwidth::settings::{is_sharer, weight, MWEIGHT};
use crate::model::bandwidth::Setup;
use crate::model::Sizes;

pub struct ReadBack {
    setup: Setup,
    /// Each pair's last accepted setting, as stored.
    settings: Vec<Option<u32>>,
    /// The weights of these that still read back.
    weights: Vec<Option<u64>>,
    since: Vec<Since>,
}

/// What came since a pair was set.
#[derive(Clone, Copy, Default)]
struct Since {
    /// A sharer was set under the same RCID.
    sharer: bool,
    window_end: bool,
}

fn all_but_the_weight(word: u32) -> u32 {
    word & !(MWEIGHT.mask() as u32)
}

impl ReadBack {
    pub fn after_reset(setup: &Setup) -> ReadBack {
        let pairs = setup.pairs();
        ReadBack {
            setup: *setup,
            settings: vec![None; pairs],
            weights: vec![None; pairs],
            since: vec![Since::default(); pairs],
        }
    }

    /// A pair was set to this word.
    pub fn accept(&mut self, rcid: u64, at: u64, word: u32) {
        let (place, row) = (self.setup.place(rcid, at), self.setup.row(rcid));
        if is_sharer(word) {
            self.since[row].iter_mut().for_each(|since| since.sharer = true);
        } else {
            self.weights[row].fill(None);
        }
        self.settings[place] = Some(word);
        self.weights[place] = Some(weight(word));
        self.since[place] = Since::default();
    }

    pub fn end_window(&mut self) {
        self.since.iter_mut().for_each(|since| since.window_end = true);
    }

    pub fn check(&self, configured: &[u32]) -> Result<(), String> {
        for (place, &now) in configured.iter().enumerate() {
            let (setting, kept) = (self.settings[place], self.weights[place]);
            let same = |word| all_but_the_weight(word) == all_but_the_weight(now);
            let text = || format!("setting {setting:x?} at {place} reads back {now:#x}");
            claim(setting.map_or(true, same), text)?;
            let text = || format!("weight {kept:x?} at {place} reads back in {now:#x}");
            claim(kept.map_or(true, |kept| kept == weight(now)), text)?;
        }
        Ok(())
    }

    /// What reading a holder's setting back showed, by what came since it was set.
    pub fn shown(&self, place: usize, now: u32) -> Labels {
        match self.settings[place] {
            Some(word) if !is_sharer(word) => {
                let Since { sharer, window_end } = self.since[place];
                vec![label([weight(word) != weight(now), sharer, window_end])]
            }
            _ => Labels::new(),
        }
    }
}

/// A read-back after these: another weight, a sharer's setting, a window end.
fn label(since: [bool; 3]) -> String {
    let names = ["another holder's weight", "a sharer", "a window end"];
    let came: Vec<&str> =
        names.into_iter().zip(since).filter(|(_, came)| *came).map(|(name, _)| name).collect();
    match came.len() {
        0 => "read back with nothing since".into(),
        _ => format!("read back after {}", came.join(", ")),
    }
}

pub fn required() -> Labels {
    (0..8).map(|bits| label([0, 1, 2].map(|bit| bits >> bit & 1 == 1))).collect()
}

#[cfg(test)]
mod tests {
    use super::*;

    const SETUP: Setup = Setup { nbwblks: 100, mrbwb: 80, nr: 2, na: 3, nm: 1, q: 64, w: 24 };

    /// RCID 1 AT 0 was set to 20 blocks with weight 5, then these pairs to these words.
    fn after(settings: &[(u64, u64, u32)]) -> ReadBack {
        let mut read_back = ReadBack::after_reset(&SETUP);
        read_back.accept(1, 0, 0x0050_0014);
        settings.iter().for_each(|&(rcid, at, word)| read_back.accept(rcid, at, word));
        read_back
    }

    /// Whether these words of RCID 1 are what is promised.
    fn reads_back(read_back: &ReadBack, rcid_1: [u32; 3]) -> bool {
        let rcid_0 = [0x0070_0001, 0x8000_0000, 0x8000_0000];
        read_back.check(&[rcid_0, rcid_1].concat()).is_ok()
    }

    #[test]
    fn both_parts_at_first() {
        let read_back = after(&[]);
        assert!(reads_back(&read_back, [0x0050_0014, 0, 0]));
        assert!(!reads_back(&read_back, [0x0050_0015, 0, 0]), "another block");
        assert!(!reads_back(&read_back, [0x0040_0014, 0, 0]), "another weight");
        assert!(!reads_back(&read_back, [0x8000_0000, 0, 0]));
    }

    #[test]
    fn a_later_holder_ends_the_weight_alone() {
        let read_back = after(&[(1, 2, 0x0070_0001)]);
        assert!(reads_back(&read_back, [0x0070_0014, 0, 0x0070_0001]));
        assert!(!reads_back(&read_back, [0x0070_0013, 0, 0x0070_0001]), "blocks stay");
        assert!(!reads_back(&read_back, [0x8000_0000, 0, 0x0070_0001]));
        assert!(!reads_back(&read_back, [0x0050_0014, 0, 0x0050_0001]), "its own weight");
    }

    #[test]
    fn neither_ends_by_a_sharer_nor_by_another_rcid() {
        for setting in [(1, 1, 0x8000_0000), (0, 0, 0x0070_0001)] {
            let read_back = after(&[setting]);
            assert!(reads_back(&read_back, [0x0050_0014, 0x8000_0000, 0]));
            assert!(!reads_back(&read_back, [0x0070_0014, 0x8000_0000, 0]));
            assert!(!reads_back(&read_back, [0x0000_0014, 0x8000_0000, 0]));
            assert!(!reads_back(&read_back, [0x0050_0015, 0x8000_0000, 0]));
        }
    }

    #[test]
    fn a_pair_set_again() {
        let read_back = after(&[(1, 1, 0x0050_0001), (1, 0, 0x9000_0000)]);
        assert!(reads_back(&read_back, [0x9000_0000, 0x0050_0001, 0]));
        assert!(!reads_back(&read_back, [0x0050_0014, 0x0050_0001, 0]));
    }
}
