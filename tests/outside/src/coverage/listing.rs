//! What a run shows of the listing.

use super::Labels;
use crate::model::listing::{form_of, Reply, BEFORE, BYTES, FORM, KIND, LONG, LONGEST, NUMBER};
use crate::model::Grant;

/// What one line shows; `set_up` says whether an s was accepted before it.
pub fn line_labels(line: &[u8], reply: Reply, set_up: bool) -> Labels {
    let letter = line.first().map_or("", |letter| name(*letter));
    let mut labels = vec![match reply {
        Reply::Done => format!("{letter}: ok"),
        Reply::Value(_) => format!("{letter}: 16 digits"),
        Reply::Granted(grant) => format!("{letter}: {}", amounts(grant)),
        Reply::Refused(number) => format!("{letter}: no {number}"),
        Reply::Bad(why) => format!("bad: {why}"),
    }];
    if letter == "s" && set_up {
        match reply {
            Reply::Done => labels.push("s accepted after an accepted one".into()),
            Reply::Refused(_) => labels.push("s refused after an accepted one".into()),
            _ => {}
        }
    }
    labels.extend(length_label(line, reply));
    labels
}

fn name(letter: u8) -> &'static str {
    match letter {
        b's' => "s",
        b'w' => "w",
        b'r' => "r",
        b'q' => "q",
        b'e' => "e",
        _ => "",
    }
}

/// Which of the two amounts are not 0.
fn amounts(grant: Grant) -> &'static str {
    match (grant.reserved, grant.pool) {
        (0, 0) => "nothing",
        (_, 0) => "reserved bytes alone",
        (0, _) => "pool bytes alone",
        _ => "reserved and pool bytes",
    }
}

/// A line that only its length makes bad, or nearly so.
fn length_label(line: &[u8], reply: Reply) -> Option<String> {
    match (line.len(), reply) {
        (0, _) => Some("an empty line".into()),
        (LONGEST, Reply::Bad(_)) => Some("80 bytes, bad".into()),
        (LONGEST, _) => Some("80 bytes, good".into()),
        (81, _) if form_of(line).is_ok() => Some("81 bytes, good but for that".into()),
        (4_096.., _) => Some("4,096 bytes or more in one line".into()),
        _ => None,
    }
}

/// An input of so many bytes does not fit into a pipe.
const LARGE: usize = 65_536;

/// What a whole input shows.
pub fn input_labels(text: &[u8]) -> Labels {
    let label = match text.last() {
        None => "an empty input",
        Some(b'\n') => "a last newline",
        Some(_) => "no last newline",
    };
    let mut labels = vec![label.into()];
    if text.len() >= LARGE {
        labels.push("65,536 bytes or more in one input".into());
    }
    labels
}

const REQUIRED: [&str; 26] = [
    "s: ok",
    "s: no 1",
    "s accepted after an accepted one",
    "s refused after an accepted one",
    "w: ok",
    "w: no 4",
    "w: no 5",
    "w: no 6",
    "r: 16 digits",
    "r: no 4",
    "r: no 5",
    "q: nothing",
    "q: reserved bytes alone",
    "q: pool bytes alone",
    "q: reserved and pool bytes",
    "q: no 7",
    "e: ok",
    "an empty line",
    "80 bytes, bad",
    "80 bytes, good",
    "81 bytes, good but for that",
    "4,096 bytes or more in one line",
    "65,536 bytes or more in one input",
    "an empty input",
    "a last newline",
    "no last newline",
];

pub fn required() -> Labels {
    let bad = [LONG, FORM, NUMBER, BYTES, KIND, BEFORE].map(|why| format!("bad: {why}"));
    REQUIRED.map(String::from).into_iter().chain(bad).collect()
}
