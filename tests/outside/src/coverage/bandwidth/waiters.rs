//! What a run shows of requests that wait: put to wait, refused, beside requests, badly formed.

use super::super::{lone_fault, lone_required, outcome, shown_of, unknown, Labels};
use crate::model::bandwidth::waiters::{AT, MCID, NEED};
use crate::model::bandwidth::{Request, State};
use crate::model::Sizes;

const PLAIN: &str = "wait with a known AT";
const OTHER_AT: &str = "wait with an AT at or above NA";
const OTHER_KIND: &str = "wait with a kind of neither 0 nor 1";
const ONE_BYTE: &str = "wait for 1 byte";
const ALL_BYTES: &str = "wait for 4,294,967,295 bytes";
const BESIDE: &str = "wait while another RCID waits";
const LAST_RCID: &str = "wait under the last of several RCIDs";

pub fn put_to_wait(before: &State, request: &Request) -> Labels {
    let setup = &before.record.setup;
    let shown = [
        (PLAIN, request.at < setup.na),
        (OTHER_AT, request.at >= setup.na),
        (OTHER_KIND, request.kind > 1),
        (ONE_BYTE, request.bytes == 1),
        (ALL_BYTES, request.bytes == u32::MAX),
        (BESIDE, before.waiters.iter().any(|&word| word != 0)),
        (LAST_RCID, setup.nr > 1 && request.rcid + 1 == setup.nr),
    ];
    shown_of(&shown)
}

const SEVEN_FIRST: &str = "wait refused 7 where 10 or 11 would come next";
const TEN_FIRST: &str = "wait refused 10 where 11 would come next";

pub fn refused_wait(before: &State, request: &Request, number: u64) -> Labels {
    let waits = before.waiters.get(request.rcid as usize).map_or(false, |&word| word != 0);
    let mut labels = shown_of(&[
        (SEVEN_FIRST, number == 7 && (waits || request.bytes == 0)),
        (TEN_FIRST, number == 10 && request.bytes == 0),
    ]);
    labels.extend(unknown("wait", &before.record.setup, request.rcid, request.mcid));
    labels
}

const NO_NEED: &str = "need of 0";
const SOME_NEED: &str = "need of some bytes";

pub fn need(value: u64) -> &'static str {
    if value == 0 {
        NO_NEED
    } else {
        SOME_NEED
    }
}

const OF_A_WAITING_RCID: &str = "request of an RCID that waits";
const AFTER_WAITERS: &str = "request in a window in which waiters were served";

/// What a request showed beside waiters: nothing was used yet but by those.
pub fn beside(before: &State, request: &Request) -> Labels {
    let row = before.record.setup.row(request.rcid);
    let used = before.used[row].iter().any(|&used| used != 0);
    let waits = before.waiters[request.rcid as usize] != 0;
    shown_of(&[(OF_A_WAITING_RCID, waits), (AFTER_WAITERS, waits && used)])
}

const RESET: &str = "reset dropped a waiter";

pub fn reset(before: &State) -> Labels {
    shown_of(&[(RESET, before.waiters.iter().any(|&word| word != 0))])
}

const LABELS: [&str; 14] = [
    PLAIN,
    OTHER_AT,
    OTHER_KIND,
    ONE_BYTE,
    ALL_BYTES,
    BESIDE,
    LAST_RCID,
    SEVEN_FIRST,
    TEN_FIRST,
    NO_NEED,
    SOME_NEED,
    OF_A_WAITING_RCID,
    AFTER_WAITERS,
    RESET,
];

/// A need is refused by 7 for its RCID alone.
pub fn required() -> Labels {
    let of_need = [0, 1, 2, 3, 7].map(|number| outcome("need", number));
    let labels = LABELS.iter().map(|label| label.to_string());
    labels
        .chain(of_need)
        .chain(["refused 3 for a waiter".into()])
        .chain(lone_required("a waiter", &FAULTS))
        .collect()
}

/// What is wrong with a word of waiters.
const FAULTS: [&str; 4] = ["no need", "an unknown MCID", "an unknown AT", "a bit above 43"];

pub fn fault(state: &State) -> Labels {
    let setup = &state.record.setup;
    let wrong = |&word: &u64| {
        [
            word != 0 && NEED.get(word) == 0,
            MCID.get(word) >= setup.nm,
            AT.get(word) >= setup.na,
            word >> 44 != 0,
        ]
    };
    let words: Vec<[bool; 4]> = state.waiters.iter().map(wrong).collect();
    lone_fault("a waiter", FAULTS, &words)
}
