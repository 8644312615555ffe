//! The listing program and the model's listing on the same inputs, from a seed.

use crate::coverage::listing::{input_labels, line_labels};
use crate::coverage::Coverage;
use crate::generator::{listing::input, Random};
use crate::model::listing::{lines, Listing};
use crate::program::{cut, output, whole};

/// Gives the program each input twice, whole and in pieces, and compares every byte that it prints.
pub fn run(program: &str, seed: u64, inputs: u64, coverage: &mut Coverage) -> Result<(), String> {
    let mut seeds = Random::new(seed);
    for number in 1..=inputs {
        let mut random = Random::new(seeds.next());
        let text = input(&mut random);
        let expected = answers(&text, coverage);
        for (how, pieces) in [("whole", whole(&text)), ("in pieces", cut(&mut random, &text))] {
            output(program, &pieces)
                .and_then(|printed| compare(&text, &expected, &printed))
                .map_err(|error| format!("seed {seed}, input {number} {how}: {error}"))?;
        }
    }
    Ok(())
}

/// The model's answers with their newlines; what they show is noted.
fn answers(text: &[u8], coverage: &mut Coverage) -> Vec<String> {
    let mut listing = Listing::default();
    let mut answer = |line: &&[u8]| {
        let set_up = listing.state().is_some();
        let reply = listing.answer(line);
        coverage.calls += 1;
        coverage.note(line_labels(line, reply, set_up));
        reply.text() + "\n"
    };
    let answers = lines(text).iter().map(&mut answer).collect();
    coverage.lists += 1;
    coverage.note(input_labels(text));
    answers
}

fn compare(text: &[u8], expected: &[String], printed: &[u8]) -> Result<(), String> {
    let printed: Vec<&[u8]> = printed.split_inclusive(|&byte| byte == b'\n').collect();
    let same =
        |index: &usize| expected.get(*index).map(String::as_bytes) == printed.get(*index).copied();
    let count = expected.len().max(printed.len());
    let index = match (0..count).find(|index| !same(index)) {
        Some(index) => index,
        None => return Ok(()),
    };
    Err(format!(
        "line {}: {}\n  the model answers {}, the program {}",
        index + 1,
        shown(lines(text).get(index).copied()),
        shown(expected.get(index).map(String::as_bytes)),
        shown(printed.get(index).copied())
    ))
}

/// The bytes as text, of long ones the start.
fn shown(bytes: Option<&[u8]>) -> String {
    match bytes {
        None => "nothing".into(),
        Some(bytes) if bytes.len() > 200 => {
            format!("\"{}\"... of {} bytes", bytes[..200].escape_ascii(), bytes.len())
        }
        Some(bytes) => format!("\"{}\"", bytes.escape_ascii()),
    }
}
