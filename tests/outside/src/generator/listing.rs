//! Inputs of the listing: sessions in which most lines are good, and lines of every other form.

mod spoil;

use super::another_reset;
use super::bandwidth::{any_call, scenario};
use super::setups::bandwidth::{in_range, outside};
use super::{Random, Step};
use crate::controller::Bandwidth;
use crate::model::bandwidth::{Call, Request, Setup, State};
use crate::model::listing::{lengths, Listing};
use spoil::spoil;

/// A text of lines; the last one often lacks its newline.
pub fn input(random: &mut Random) -> Vec<u8> {
    let mut text = Vec::new();
    let mut listing = Listing::default();
    let spoiled = random.pick(&[0, 2, 10, 50]);
    let mut budget = size(random);
    while budget > 0.0 {
        for call in calls(random, listing.state()) {
            let mut line = line_of(random, &call);
            if random.percent(spoiled) {
                line = spoil(random, line);
            }
            listing.answer(&line);
            text.extend(line);
            text.push(b'\n');
            budget -= cost(listing.state());
        }
    }
    if random.below(300) == 0 {
        text.extend(repeated(random, cost(listing.state())));
    }
    if random.percent(30) {
        text.pop();
    }
    text
}

/// One line so often that it and its answers fill large buffers.
fn repeated(random: &mut Random, cost: f64) -> Vec<u8> {
    let line = random.pick(&["\n", "\n", "e\n", "r 8 0\n", "q 0 0 0 0 4294967295\n"]);
    let count = random.between(10_000, 70_000) as f64 / cost;
    line.repeat(count as usize).into_bytes()
}

/// About so many lines.
fn size(random: &mut Random) -> f64 {
    let lines = match random.below(40) {
        0 => 0,
        1..=3 => random.between(1, 3),
        4 => random.between(500, 4_000),
        _ => random.between(4, 100),
    };
    lines as f64
}

/// A call on the largest tables costs as much as many on small ones.
fn cost(state: Option<&State>) -> f64 {
    let bytes: usize = state.map_or(0, |state| lengths(&state.record.setup).iter().sum());
    1.0 + bytes as f64 / 2_000.0
}

/// Some calls for the controller as it is.
fn calls(random: &mut Random, state: Option<&State>) -> Vec<Call> {
    let state = match state {
        Some(state) => state,
        None => return vec![first_call(random)],
    };
    let setup = &state.record.setup;
    let steps = match random.below(30) {
        0 => another_reset::<Bandwidth>(random, setup),
        _ => scenario(random, state, &lengths(setup), true),
    };
    let call = |step| match step {
        Step::Call(call) | Step::WrongLength { call, .. } => Some(call),
        _ => None,
    };
    steps.into_iter().filter_map(call).collect()
}

/// Mostly an s that is accepted.
fn first_call(random: &mut Random) -> Call {
    match random.below(10) {
        0 => Call::Reset(outside(random)),
        1 | 2 => {
            let setup = in_range(random);
            any_call(random, &setup)
        }
        _ => Call::Reset(in_range(random)),
    }
}

/// The line that asks for a call, with its numbers in any form.
fn line_of(random: &mut Random, call: &Call) -> Vec<u8> {
    let mut decimals = |numbers: &[u64]| -> String {
        numbers.iter().map(|&number| " ".to_string() + &decimal(random, number)).collect()
    };
    let line = match *call {
        Call::Reset(Setup { nbwblks, mrbwb, nr, na, nm, q, w }) => {
            "s".to_string() + &decimals(&[nbwblks, mrbwb, nr, na, nm, q, w])
        }
        Call::Read { size, offset } => {
            "r".to_string() + &decimals(&[size]) + " " + &hexadecimal(random, offset)
        }
        Call::Write { size, offset, value } => {
            let start = "w".to_string() + &decimals(&[size]) + " " + &hexadecimal(random, offset);
            start + " " + &hexadecimal(random, value)
        }
        Call::Request(Request { rcid, mcid, at, kind, bytes }) => {
            "q".to_string() + &decimals(&[rcid, mcid, at, kind, bytes as u64])
        }
        // no line asks for a device's request, a wait or a need: a request stands in its place
        Call::DeviceRequest(device) => return line_of(random, &Call::Request(device.request())),
        Call::Wait(request) => return line_of(random, &Call::Request(request)),
        Call::Need { rcid } => "q".to_string() + &decimals(&[rcid, 0, 0, 0, 1]),
        Call::EndWindow => "e".to_string(),
    };
    line.into_bytes()
}

fn zeros(random: &mut Random) -> String {
    let count = if random.percent(3) { random.between(1, 25) } else { 0 };
    "0".repeat(count as usize)
}

fn decimal(random: &mut Random, number: u64) -> String {
    zeros(random) + &number.to_string()
}

/// In lower case, in upper case or in both.
fn hexadecimal(random: &mut Random, number: u64) -> String {
    let upper = random.pick(&[0, 0, 50, 100]);
    let digits = format!("{number:x}");
    let digit = |digit: char| match random.percent(upper) {
        true => digit.to_ascii_uppercase(),
        false => digit,
    };
    let digits: String = digits.chars().map(digit).collect();
    zeros(random) + &digits
}
