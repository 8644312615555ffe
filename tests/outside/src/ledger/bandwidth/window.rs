//! The bytes of one window, and what is claimed of them by the words in force.

use crate::ledger::claim;
use crate::model::bandwidth::settings::{reserved, weight};
use crate::model::bandwidth::{pool_size, Setup};
use crate::model::{Grant, Sizes};

pub struct Window {
    /// What was asked and granted, by the holder's place in the tables.
    pub asked: Vec<u64>,
    pub granted: Vec<Grant>,
    /// All grants, those without a holder too.
    pub all: Grant,
}

impl Window {
    pub fn open(setup: &Setup) -> Window {
        let (asked, granted) = (vec![0; setup.pairs()], vec![Grant::default(); setup.pairs()]);
        Window { asked, granted, all: Grant::default() }
    }

    /// Notes a request that is led to this holder, if to any.
    pub fn note(&mut self, holder: Option<usize>, asked: u64, grant: Grant) {
        if let Some(place) = holder {
            self.asked[place] += asked;
            self.granted[place] += grant;
        }
        self.all += grant;
    }

    /// All pool bytes stay within what nobody reserved, and all grants within the blocks.
    pub fn check(&self, setup: &Setup, active: &[u32]) -> Result<(), String> {
        let (pool, blocks) = (pool_size(setup, active), setup.nbwblks * setup.q);
        for (place, &word) in active.iter().enumerate() {
            self.check_holder(place, reserved(word) * setup.q, weight(word), pool)?;
        }
        let Grant { pool: given, .. } = self.all;
        claim(given <= pool, || format!("{given} bytes of a pool of {pool} in a window"))?;
        let sum = self.all.sum();
        claim(sum <= blocks, || format!("{sum} bytes granted of {blocks} in a window"))
    }

    /// A holder's reserved bytes are the smaller of its reservation and what was asked on it, its pool
    /// bytes 0 at weight 0. The rest is claimed of their sum.
    fn check_holder(
        &self,
        place: usize,
        reservation: u64,
        weight: u64,
        pool: u64,
    ) -> Result<(), String> {
        let (asked, grant) = (self.asked[place], self.granted[place]);
        let (smaller, sum) = (reservation.min(asked), grant.sum());
        let text = || format!("place {place}: asked {asked}, reservation {reservation}, {grant:?}");
        claim(grant.reserved == smaller, text)?;
        claim(weight != 0 || grant.pool == 0, text)?;
        claim(sum >= smaller, text)?;
        claim(sum <= asked, text)?;
        claim(sum <= reservation + pool, text)?;
        claim(weight != 0 || sum == smaller, text)
    }
}

#[cfg(test)]
mod tests {
    use super::*;

    const SETUP: Setup = Setup { nbwblks: 100, mrbwb: 80, nr: 4, na: 2, nm: 4, q: 64, w: 24 };
    /// RCID 0 has 1,920 bytes and weight 1, RCID 1 has 1,280 and weight 0; the pool has 3,200.
    const ACTIVE: [u32; 8] = [0x0010_001E, 0x8000_0000, 20, 0, 0, 0, 0, 0];
    const RCID_0: Option<usize> = Some(0);
    const RCID_1: Option<usize> = Some(2);

    /// A holder, what was asked on it, and the reserved bytes and pool bytes granted.
    type Noted = (Option<usize>, u64, [u64; 2]);

    fn holds(requests: &[Noted]) -> bool {
        let mut window = Window::open(&SETUP);
        for &(holder, asked, [reserved, pool]) in requests {
            window.note(holder, asked, Grant { reserved, pool });
        }
        window.check(&SETUP, &ACTIVE).is_ok()
    }

    #[test]
    fn grants_between_the_bounds() {
        assert!(!holds(&[(RCID_0, 2_000, [1_919, 0])]), "less than the reservation");
        assert!(holds(&[(RCID_0, 2_000, [1_920, 0])]));
        assert!(holds(&[(RCID_0, 2_000, [1_920, 80])]));
        assert!(!holds(&[(RCID_0, 2_000, [1_920, 81])]), "more than asked");
        assert!(holds(&[(RCID_0, 9_000, [1_920, 3_200])]), "reservation and pool");
        assert!(!holds(&[(RCID_0, 9_000, [1_920, 3_201])]), "others' reservation");
        assert!(!holds(&[(RCID_0, 100, [0, 0])]), "nothing at all");
    }

    /// The sum is right each time.
    #[test]
    fn bytes_from_the_wrong_place() {
        assert!(!holds(&[(RCID_0, 2_000, [1_919, 81])]), "the pool before the reservation's end");
        assert!(!holds(&[(RCID_0, 2_000, [1_921, 79])]), "more than the reservation");
        assert!(!holds(&[(RCID_0, 2_000, [80, 1_920])]), "one for the other");
        assert!(!holds(&[(RCID_0, 2_000, [2_000, 0])]), "the sum in one amount");
        assert!(!holds(&[(RCID_0, 100, [0, 100])]), "the pool in place of the reservation");
        assert!(holds(&[(RCID_0, 100, [100, 0])]));
        assert!(!holds(&[(RCID_1, 2_000, [1_279, 1])]), "the pool at weight 0");
    }

    #[test]
    fn requests_of_a_window_go_together() {
        let first = (RCID_0, 1_900, [1_900, 0]);
        assert!(holds(&[first, (RCID_0, 100, [20, 80])]));
        assert!(!holds(&[first, (RCID_0, 100, [0, 100])]), "20 are left");
        assert!(!holds(&[first, (RCID_0, 100, [21, 79])]), "20 are left");
    }

    #[test]
    fn weight_0_is_a_hard_limit() {
        assert!(holds(&[(RCID_1, 2_000, [1_280, 0])]));
        assert!(!holds(&[(RCID_1, 2_000, [1_280, 1])]));
        assert!(!holds(&[(RCID_1, 2_000, [1_279, 0])]));
    }

    #[test]
    fn all_grants_fit_into_the_blocks() {
        assert!(holds(&[(None, 6_400, [6_400, 0])]));
        assert!(!holds(&[(None, 6_401, [6_401, 0])]));
    }

    #[test]
    fn all_pool_bytes_fit_into_the_pool() {
        assert!(holds(&[(None, 3_200, [0, 3_200])]));
        assert!(!holds(&[(None, 3_201, [0, 3_201])]));
        let first = (RCID_0, 2_000, [1_920, 80]);
        assert!(holds(&[first, (None, 9_000, [0, 3_120])]));
        assert!(!holds(&[first, (None, 9_000, [0, 3_121])]));
    }
}
