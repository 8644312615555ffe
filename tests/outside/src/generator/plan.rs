//! Steps of a list, each chosen for the state that those before it leave.

use super::{Random, Step};
use crate::model::Performs;

/// Two to eight times some steps, chosen for the state as it then is.
pub fn planned<S: Performs + Clone>(
    random: &mut Random,
    state: &S,
    next: impl Fn(&mut Random, &S) -> Vec<Step<S::Call>>,
) -> Vec<Step<S::Call>> {
    let mut state = state.clone();
    let lengths = S::lengths(state.setup());
    let mut steps = Vec::new();
    for _ in 0..random.between(2, 8) {
        for step in next(random, &state) {
            if let Step::Call(call) = &step {
                state.perform(&lengths, call);
            }
            steps.push(step);
        }
    }
    steps
}
