//! What a run shows of set-ups: how many units there are, and units that do not exist.

use super::super::{shown_of, Labels};
use crate::model::capacity::{Setup, State};
use crate::model::Checked;

const ONE_EACH: &str = "reset to one unit a block";
const MOST_EACH: &str = "reset to 64 units a block";
const ONE: &str = "reset to one unit";
const MOST: &str = "reset to 4,096 units";
const FREED: &str = "reset to the same set-up over owned units";

pub fn reset(before: &State, setup: &Setup) -> Labels {
    shown_of(&[
        (ONE_EACH, setup.u == 1),
        (MOST_EACH, setup.u == 64),
        (ONE, setup.units() == 1),
        (MOST, setup.units() == 4_096),
        (FREED, before.record.setup == *setup && before.owners.iter().any(|&word| word != 0)),
    ])
}

const U_0: &str = "reset refused for U 0 alone";
const U_65: &str = "reset refused for U 65 alone";
const U_HIGHEST: &str = "reset refused for U 2^64 - 1 alone";

/// A reset refused by 1, where all but U lies in its range.
pub fn refused_reset(setup: &Setup, number: u64) -> Labels {
    let u_alone = number == 1 && State::in_range(&Setup { u: 1, ..*setup });
    let refused = |u| u_alone && setup.u == u;
    shown_of(&[(U_0, refused(0)), (U_65, refused(65)), (U_HIGHEST, refused(u64::MAX))])
}

const FIRST_BEYOND: &str = "refused for the first unit that does not exist";
const HIGHEST: &str = "refused for unit 2^64 - 1";

/// A call refused by 8.
pub fn no_unit(call: &str, setup: &Setup, unit: u64, number: u64) -> Labels {
    let labels = shown_of(&[
        (FIRST_BEYOND, number == 8 && unit == setup.units()),
        (HIGHEST, number == 8 && unit == u64::MAX),
    ]);
    labels.iter().map(|label| format!("{call} {label}")).collect()
}

pub fn required() -> Labels {
    let labels = [ONE_EACH, MOST_EACH, ONE, MOST, FREED, U_0, U_65, U_HIGHEST];
    let of = |call| [FIRST_BEYOND, HIGHEST].map(|label| format!("{call} {label}"));
    labels.map(String::from).into_iter().chain(of("fill")).chain(of("evict")).collect()
}
