//! Settings of one RCID's pairs with all kinds of weights, and between them read-backs, requests and
//! window ends.

use super::operand::{holders_of, modest_operand};
use super::{any_request, configuration, likely_request, reading_back, Steps};
use crate::generator::{planned, Random, Step};
use crate::model::bandwidth::{Call, Request, State};

pub fn weights(random: &mut Random, state: &State) -> Steps {
    let rcid = any_rcid(random, state);
    planned(random, state, |random, state| next(random, state, rcid))
}

/// Mostly the RCID with the most holders.
fn any_rcid(random: &mut Random, state: &State) -> u64 {
    let setup = &state.record.setup;
    let most = (0..setup.nr).max_by_key(|&rcid| holders_of(state, rcid).len()).unwrap_or(0);
    let any = random.place(setup.nr) as u64;
    random.pick(&[most, most, any])
}

fn next(random: &mut Random, state: &State, rcid: u64) -> Steps {
    let setup = &state.record.setup;
    let at = random.below(setup.na);
    match random.below(10) {
        0..=4 => {
            let operand = modest_operand(random, state, rcid);
            configuration(random, operand)
        }
        5..=7 => reading_back(random, rcid, at),
        8 => {
            let request = Request { rcid, at, ..any_request(random, setup, 0) };
            vec![likely_request(random, state, request)]
        }
        _ => vec![Step::Call(Call::EndWindow)],
    }
}
