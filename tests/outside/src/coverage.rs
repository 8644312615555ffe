//! What a run has shown, counted, and what it must show.

pub mod bandwidth;
pub mod capacity;
pub mod listing;

use std::collections::BTreeMap;

use crate::controller::Controller;
use crate::model::access::{ALLOC_CTL, MON_CTL};
use crate::model::registers::{CONFIG_EVENT, EVT_ID, OP, STATUS};
use crate::model::{Answer, Checked, CommonCall, Sizes};

pub type Labels = Vec<String>;

#[derive(Default)]
pub struct Coverage {
    pub lists: u64,
    pub calls: u64,
    /// Calls after which the ledger's claims were checked.
    pub claimed: u64,
    counts: BTreeMap<String, u64>,
}

impl Coverage {
    pub fn note(&mut self, labels: Labels) {
        for label in labels {
            *self.counts.entry(label).or_insert(0) += 1;
        }
    }

    /// The labels that never came up.
    pub fn missing(&self, required: Vec<String>) -> Vec<String> {
        required.into_iter().filter(|label| !self.counts.contains_key(label)).collect()
    }

    pub fn print(&self, controller: &str) {
        let (lists, calls, claimed) = (self.lists, self.calls, self.claimed);
        println!("{controller}: {calls} calls in {lists} lists, claims checked after {claimed}");
        self.print_counts();
    }

    pub fn print_counts(&self) {
        for (label, count) in &self.counts {
            println!("  {count:>8}  {label}");
        }
    }
}

/// "read refused 3" or "read accepted".
fn outcome(call: &str, refusal: u64) -> String {
    match refusal {
        0 => format!("{call} accepted"),
        number => format!("{call} refused {number}"),
    }
}

/// What a call showed: the number of its refusal and what that is for; or what it changed.
pub fn labels<C: Controller>(
    before: &C::State,
    call: &C::Call,
    answer: Answer,
    after: &C::State,
) -> Labels {
    let mut labels = vec![outcome(C::call_name(call), answer.refusal)];
    match answer.refusal {
        0 => labels.extend(C::accepted(before, call, answer, after)),
        1 | 2 if call.as_reset().is_none() => {}
        3 => {
            labels.push(format!("refused 3 for {}", before.fault().unwrap_or("nothing")));
            labels.extend(C::fault(before));
        }
        number => labels.extend(C::refused(before, call, number)),
    }
    labels
}

/// Which identifiers of a refused call do not exist.
const UNKNOWN: [&str; 3] = ["RCID alone", "MCID alone", "RCID and MCID"];

fn unknown(call: &str, sizes: &impl Sizes, rcid: u64, mcid: u64) -> Option<String> {
    let which = match (rcid < sizes.nr(), mcid < sizes.nm()) {
        (true, true) => return None,
        (false, true) => UNKNOWN[0],
        (true, false) => UNKNOWN[1],
        (false, false) => UNKNOWN[2],
    };
    Some(format!("{call} refused for {which}"))
}

/// Those labels that hold.
fn shown_of(shown: &[(&str, bool)]) -> Labels {
    shown.iter().filter(|(_, is_shown)| *is_shown).map(|(label, _)| label.to_string()).collect()
}

/// "refused 3 for a waiter: no need alone": what is wrong with the first bad word of a table, if it is
/// one thing, and whether the word is the last; `wrong` says of each word which faults it has.
fn lone_fault<const N: usize>(name: &str, faults: [&str; N], wrong: &[[bool; N]]) -> Labels {
    let place = match wrong.iter().position(|word| word.contains(&true)) {
        Some(place) => place,
        None => return Labels::new(),
    };
    let found: Vec<(&str, bool)> = faults.into_iter().zip(wrong[place]).collect();
    match &shown_of(&found)[..] {
        [alone] => vec![lone_label(name, alone, place + 1 == wrong.len())],
        _ => Labels::new(),
    }
}

fn lone_label(name: &str, fault: &str, last: bool) -> String {
    let place = if last { ", the last word" } else { "" };
    format!("refused 3 for {name}: {fault} alone{place}")
}

/// Each fault alone, in the last word and elsewhere.
fn lone_required(name: &str, faults: &[&str]) -> Labels {
    let both = |fault: &&str| [false, true].map(|last| lone_label(name, fault, last));
    faults.iter().flat_map(both).collect()
}

/// What a call showed that was refused for the length of one slice.
pub fn wrong_length(slice: &str, refusal: u64) -> String {
    format!("refused {refusal} for the length of {slice}")
}

/// The length of each slice; that of the record, the first, gives 1.
pub fn lengths_required(regions: &[(&str, usize)]) -> Labels {
    let label = |(index, region): (usize, &(&str, usize))| {
        wrong_length(region.0, if index == 0 { 1 } else { 2 })
    };
    regions.iter().enumerate().map(label).collect()
}

/// First and last code of each row of OP: in mon_ctl, and in the bandwidth controller's alloc_ctl.
const OPERATIONS: [(u64, u64); 5] = [(0, 0), (1, 1), (2, 2), (3, 23), (24, 31)];

/// First and last code of each row of OP in alloc_ctl and of EVT_ID, which differ by controller.
struct Rows {
    alloc: &'static [(u64, u64)],
    events: &'static [(u64, u64)],
}

/// "mon_ctl OP 3 to 23".
fn row(name: &str, first: u64, last: u64) -> String {
    format!("{name} {first} to {last}")
}

/// "mon_ctl OP 3 to 23", for the row in which a code stands.
fn row_of(name: &str, rows: &[(u64, u64)], code: u64) -> Option<String> {
    let found = rows.iter().find(|&&(first, last)| (first..=last).contains(&code));
    found.map(|&(first, last)| row(name, first, last))
}

/// STATUS and row of the operation that an accepted write performed, if it did, and the row of EVT_ID
/// where CONFIG_EVENT goes by it.
fn operation(offset: u64, alloc_ctl: u64, mon_ctl: u64, rows: &Rows) -> Labels {
    let (name, word, operations) = match offset {
        ALLOC_CTL => ("alloc_ctl", alloc_ctl, rows.alloc),
        MON_CTL => ("mon_ctl", mon_ctl, &OPERATIONS[..]),
        _ => return Labels::new(),
    };
    let mut labels = vec![format!("{name} STATUS {}", STATUS.get(word))];
    labels.extend(row_of(&format!("{name} OP"), operations, OP.get(word)));
    if offset == MON_CTL && OP.get(word) == CONFIG_EVENT {
        labels.extend(row_of("CONFIG_EVENT EVT_ID", rows.events, EVT_ID.get(word)));
    }
    labels
}

/// Labels that both controllers must show: each refusal of each call, each identifier that does not
/// exist, each STATUS, and each row of OP and EVT_ID.
fn common_required(refusals: &[(&str, &[u64])], rows: &Rows) -> Vec<String> {
    let mut labels = Vec::new();
    for (call, numbers) in refusals {
        labels.push(outcome(call, 0));
        labels.extend(numbers.iter().map(|&number| outcome(call, number)));
        if numbers.contains(&7) || numbers.contains(&9) {
            labels.extend(UNKNOWN.map(|which| format!("{call} refused for {which}")));
        }
    }
    for register in ["alloc_ctl", "mon_ctl"] {
        labels.extend((1..=5).map(|status| format!("{register} STATUS {status}")));
    }
    let tables = [
        ("alloc_ctl OP", rows.alloc),
        ("mon_ctl OP", &OPERATIONS),
        ("CONFIG_EVENT EVT_ID", rows.events),
    ];
    for (name, table) in tables {
        labels.extend(table.iter().map(|&(first, last)| row(name, first, last)));
    }
    labels
}
