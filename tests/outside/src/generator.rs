//! Lists of calls from a fixed seed: scenarios that mostly succeed, boundary values, refused calls,
//! damaged records and tables, wrong lengths.

pub mod bandwidth;
pub mod capacity;
mod common;
pub mod listing;
mod plan;
mod random;
pub mod setups;
mod states;
mod step;

pub use common::{another_reset, opening};
use plan::planned;
pub use random::Random;
pub use step::{Change, Kind, Step};
