//! What the tests need of a controller, said once for both.

use std::fmt::Debug;

use crate::coverage::{self, Labels};
use crate::ffi;
use crate::generator::{self, Random, Step};
use crate::image::Image;
use crate::ledger::{self, Ledger};
use crate::memory::Memory;
use crate::model::{bandwidth, capacity, Answer, CommonCall, Performs, Sizes};

pub trait Controller {
    type Setup: Copy + Debug + Sizes;
    type State: Clone + Debug + Image + Performs<Call = Self::Call>;
    type Call: Clone + Debug + CommonCall<Setup = Self::Setup>;
    type Ledger: Ledger<Call = Self::Call, State = Self::State>;

    const NAME: &'static str;
    /// The lent slices and the bytes of one word in each.
    const REGIONS: &'static [(&'static str, usize)];

    /// A call through the C interface.
    fn on_library(memory: &mut Memory, call: &Self::Call) -> Answer;

    /// Set-ups in range and outside, and any call.
    fn setup_in_range(random: &mut Random) -> Self::Setup;
    fn setup_outside(random: &mut Random) -> Self::Setup;
    fn any_call(random: &mut Random, setup: &Self::Setup) -> Self::Call;
    /// Some further steps of a list of calls, in a given state.
    fn scenario(
        random: &mut Random,
        state: &Self::State,
        lengths: &[usize],
        quiet: bool,
    ) -> Vec<Step<Self::Call>>;

    fn call_name(call: &Self::Call) -> &'static str;
    /// What an accepted call showed, by its answer and the states around it.
    fn accepted(
        before: &Self::State,
        call: &Self::Call,
        answer: Answer,
        after: &Self::State,
    ) -> Labels;
    /// What a state showed, beside its fault, that was refused by 3.
    fn fault(state: &Self::State) -> Labels;
    /// What a call showed that was refused by this number for its own arguments.
    fn refused(before: &Self::State, call: &Self::Call, number: u64) -> Labels;
    /// What a whole run must have shown.
    fn required() -> Labels;
}

/// A controller by the modules that have its parts, and its slices.
macro_rules! controller {
    ($name:ident, $module:ident, $regions:expr) => {
        pub struct $name;

        impl Controller for $name {
            type Setup = $module::Setup;
            type State = $module::State;
            type Call = $module::Call;
            type Ledger = ledger::$module::Ledger;

            const NAME: &'static str = stringify!($module);
            const REGIONS: &'static [(&'static str, usize)] = &$regions;

            fn on_library(memory: &mut Memory, call: &$module::Call) -> Answer {
                ffi::$module(memory, call)
            }

            fn setup_in_range(random: &mut Random) -> $module::Setup {
                generator::setups::$module::in_range(random)
            }

            fn setup_outside(random: &mut Random) -> $module::Setup {
                generator::setups::$module::outside(random)
            }

            fn any_call(random: &mut Random, setup: &$module::Setup) -> $module::Call {
                generator::$module::any_call(random, setup)
            }

            fn scenario(
                random: &mut Random,
                state: &$module::State,
                lengths: &[usize],
                quiet: bool,
            ) -> Vec<Step<$module::Call>> {
                generator::$module::scenario(random, state, lengths, quiet)
            }

            fn call_name(call: &$module::Call) -> &'static str {
                coverage::$module::call_name(call)
            }

            fn accepted(
                before: &$module::State,
                call: &$module::Call,
                answer: Answer,
                after: &$module::State,
            ) -> Labels {
                coverage::$module::accepted(before, call, answer, after)
            }

            fn fault(state: &$module::State) -> Labels {
                coverage::$module::fault(state)
            }

            fn refused(before: &$module::State, call: &$module::Call, number: u64) -> Labels {
                coverage::$module::refused(before, call, number)
            }

            fn required() -> Labels {
                [coverage::$module::required(), coverage::lengths_required(Self::REGIONS)].concat()
            }
        }
    };
}

controller!(
    Bandwidth,
    bandwidth,
    [
        ("record", 8),
        ("active", 4),
        ("configured", 4),
        ("used", 4),
        ("counters", 8),
        ("events", 2),
        ("waiters", 8)
    ]
);
controller!(
    Capacity,
    capacity,
    [("record", 8), ("masks", 8), ("counters", 8), ("events", 2), ("owners", 4)]
);
