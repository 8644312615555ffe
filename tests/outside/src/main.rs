//! Tests of the CBQRI controllers from outside: every call is made on a separately written model
//! and through the C interface of libcbqri.a, and all that both hand back is compared.
//!
//!     outside cases                           the papers' worked examples, with numbers by hand
//!     outside run [--calls N] [--seed N]      lists of calls on each controller
//!     outside listing --program PATH [--inputs N] [--seed N]
//!                                             the listing program beside the model's own listing
//!     outside soak [--minutes N] [--seed N] [--program PATH]
//!                                             the same until the time is over

mod cases;
mod controller;
mod coverage;
mod ffi;
mod generator;
mod image;
mod ledger;
mod listing;
mod memory;
mod model;
mod program;
mod run;
mod session;

use std::process::ExitCode;
use std::time::{Duration, Instant};

use controller::{Bandwidth, Capacity, Controller};
use coverage::{Coverage, Labels};

const DEFAULT_CALLS: u64 = 500_000;
const DEFAULT_INPUTS: u64 = 3_000;
const DEFAULT_SEED: u64 = 20_230_301;

fn main() -> ExitCode {
    let arguments: Vec<String> = std::env::args().skip(1).collect();
    let seed = number(&arguments, "--seed").unwrap_or(DEFAULT_SEED);
    let passed = match arguments.first().map(String::as_str) {
        Some("cases") => cases::run(),
        Some("run") => {
            let calls = number(&arguments, "--calls").unwrap_or(DEFAULT_CALLS);
            run_both(seed, calls)
        }
        Some("listing") => {
            let program = option(&arguments, "--program").expect("--program PATH");
            run_listing(program, seed, number(&arguments, "--inputs").unwrap_or(DEFAULT_INPUTS))
        }
        Some("soak") => {
            let minutes = number(&arguments, "--minutes").unwrap_or(10);
            soak(seed, minutes, option(&arguments, "--program"))
        }
        _ => {
            eprintln!("usage: outside cases | run [--calls N] [--seed N]");
            eprintln!("       outside listing --program PATH [--inputs N] [--seed N]");
            eprintln!("       outside soak [--minutes N] [--seed N] [--program PATH]");
            false
        }
    };
    ExitCode::from(!passed as u8)
}

/// What stands after an option, if the option is given.
fn option<'a>(arguments: &'a [String], name: &str) -> Option<&'a str> {
    let place = arguments.iter().position(|argument| argument == name)?;
    Some(arguments.get(place + 1).map_or("", String::as_str))
}

fn number(arguments: &[String], name: &str) -> Option<u64> {
    let text = option(arguments, name)?;
    Some(text.parse().unwrap_or_else(|_| panic!("{name} needs a number, not '{text}'")))
}

fn run_both(seed: u64, calls: u64) -> bool {
    let bandwidth = run_one::<Bandwidth>(seed, calls);
    let capacity = run_one::<Capacity>(seed, calls);
    bandwidth && capacity
}

/// Runs one controller's lists, prints what they showed, and asserts that nothing is missing.
fn run_one<C: Controller>(seed: u64, calls: u64) -> bool {
    let start = Instant::now();
    let mut coverage = Coverage::default();
    if let Err(failure) = run::run::<C>(seed, calls, &mut coverage) {
        failure.print();
        return false;
    }
    coverage.print(C::NAME);
    println!("  seed {seed}, {:.1} s", start.elapsed().as_secs_f64());
    nothing_missing(&coverage, C::required()) && coverage.calls >= calls
}

fn nothing_missing(coverage: &Coverage, required: Labels) -> bool {
    let missing = coverage.missing(required);
    for label in &missing {
        println!("  MISSING: {label}");
    }
    missing.is_empty()
}

fn run_listing(program: &str, seed: u64, inputs: u64) -> bool {
    let start = Instant::now();
    let mut coverage = Coverage::default();
    if !same_listing(program, seed, inputs, &mut coverage) {
        return false;
    }
    println!("listing: {} lines in {} inputs, no difference", coverage.calls, coverage.lists);
    coverage.print_counts();
    println!("  seed {seed}, {:.1} s", start.elapsed().as_secs_f64());
    nothing_missing(&coverage, coverage::listing::required())
}

fn same_listing(program: &str, seed: u64, inputs: u64, coverage: &mut Coverage) -> bool {
    let outcome = listing::run(program, seed, inputs, coverage);
    if let Err(text) = &outcome {
        println!("listing: {text}");
    }
    outcome.is_ok()
}

/// Runs both controllers and the listing program, if there is one, in turn, each time with another seed.
fn soak(seed: u64, minutes: u64, program: Option<&str>) -> bool {
    let end = Instant::now() + Duration::from_secs(60 * minutes);
    let [mut bandwidth, mut capacity, mut lines] = [(); 3].map(|_| Coverage::default());
    let mut seed = seed;
    while Instant::now() < end {
        seed += 1;
        let passed = soak_one::<Bandwidth>(seed, &mut bandwidth)
            && soak_one::<Capacity>(seed, &mut capacity)
            && program.map_or(true, |program| same_listing(program, seed, 100, &mut lines));
        if !passed {
            return false;
        }
    }
    println!("bandwidth: {} calls, no difference", bandwidth.calls);
    println!("capacity: {} calls, no difference", capacity.calls);
    if program.is_some() {
        println!("listing: {} lines in {} inputs, no difference", lines.calls, lines.lists);
    }
    true
}

fn soak_one<C: Controller>(seed: u64, coverage: &mut Coverage) -> bool {
    match run::run::<C>(seed, 20_000, coverage) {
        Ok(()) => true,
        Err(failure) => {
            failure.print();
            false
        }
    }
}
