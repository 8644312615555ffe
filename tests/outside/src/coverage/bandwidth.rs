//! What a run shows of the bandwidth controller.

mod devices;
mod grants;
mod served;
mod waiters;
mod weights;

use super::{common_required, operation, unknown, Labels, Rows, OPERATIONS};
use crate::ledger::bandwidth::required as ledger_required;
use crate::model::access::ALLOC_CTL;
use crate::model::bandwidth::settings::{is_sharer, RBWB, SHARED_AT, USE_SHARED};
use crate::model::bandwidth::{Call, Request, State, OVF};
use crate::model::registers::{AT, RCID, STATUS};
use crate::model::{Answer, Checked, Sizes};

const ROWS: Rows =
    Rows { alloc: &OPERATIONS, events: &[(0, 0), (1, 1), (2, 2), (3, 3), (4, 127), (128, 255)] };

pub fn call_name(call: &Call) -> &'static str {
    match call {
        Call::Reset(_) => "reset",
        Call::Read { .. } => "read",
        Call::Write { .. } => "write",
        Call::Request(_) => "request",
        Call::DeviceRequest(device) => devices::name(device),
        Call::Wait(_) => "wait",
        Call::Need { .. } => "need",
        Call::EndWindow => "end_window",
    }
}

pub fn accepted(before: &State, call: &Call, answer: Answer, after: &State) -> Labels {
    let mut labels = Vec::new();
    match call {
        Call::Write { offset, .. } => {
            labels.extend(operation(*offset, after.record.alloc_ctl, after.record.mon_ctl, &ROWS));
            labels.extend(setting_change(before, after));
            if *offset == ALLOC_CTL && STATUS.get(after.record.alloc_ctl) == 5 {
                labels.push(format!("bad operand: {}", bad_operand(after)));
            }
            if *offset == ALLOC_CTL {
                labels.extend(weights::operation(before, after).map(String::from));
            }
        }
        Call::Request(request) => {
            labels.push(grants::source(before, request, answer.grant));
            labels.extend(counter_change(before, request, answer.grant.sum(), after));
            labels.extend(waiters::beside(before, request));
        }
        Call::DeviceRequest(device) => {
            labels.extend(devices::accepted(before, device, answer.grant, after))
        }
        Call::Wait(request) => labels.extend(waiters::put_to_wait(before, request)),
        Call::Need { .. } => labels.push(waiters::need(answer.value).into()),
        Call::Reset(_) => labels.extend(waiters::reset(before)),
        Call::EndWindow => {
            labels.extend(weights::window_end(before));
            labels.extend(served::window_end(before, after));
            if before.active != after.active {
                labels.push("window end put other settings in force".into());
            }
        }
        Call::Read { .. } => {}
    }
    labels
}

/// What a state showed that was refused by 3.
pub fn fault(state: &State) -> Labels {
    match state.fault() {
        Some("a waiter") => waiters::fault(state),
        _ => weights::fault(state),
    }
}

pub fn refused(before: &State, call: &Call, number: u64) -> Labels {
    let setup = &before.record.setup;
    let mut labels = Labels::new();
    match call {
        Call::Request(request) => {
            labels.extend(unknown("request", setup, request.rcid, request.mcid));
        }
        Call::DeviceRequest(device) => labels.extend(devices::refused(setup, device)),
        Call::Wait(request) => labels.extend(waiters::refused_wait(before, request, number)),
        _ => {}
    }
    labels
}

/// A setting that was stored, by what it was and what it became.
fn setting_change(before: &State, after: &State) -> Option<String> {
    let kind = |word: u32| match word {
        0 => "unset pair",
        word if is_sharer(word) => "sharer",
        _ => "holder",
    };
    if before.configured == after.configured {
        return None;
    }
    let (rcid, at) = (RCID.get(after.record.alloc_ctl), AT.get(after.record.alloc_ctl));
    let place = after.record.setup.place(rcid, at);
    Some(format!("{} became {}", kind(before.configured[place]), kind(after.configured[place])))
}

/// Why alloc_ctl's operation ended in STATUS 5.
fn bad_operand(state: &State) -> &'static str {
    let (setup, operand) = (&state.record.setup, state.record.bw_alloc);
    let (rcid, at) = (RCID.get(state.record.alloc_ctl), AT.get(state.record.alloc_ctl));
    let target = SHARED_AT.get(operand);
    if USE_SHARED.get(operand) == 0 {
        return if RBWB.get(operand) == 0 { "Rbwb 0" } else { "more than MRBWB" };
    }
    if target == at {
        return "shares itself";
    }
    if target >= setup.na {
        return "shares an AT at or above NA";
    }
    match state.configured[setup.place(rcid, target)] {
        0 => "shares an unset pair",
        word if is_sharer(word) => "shares a sharer",
        _ => "another AT shares this one",
    }
}

fn counter_change(before: &State, request: &Request, granted: u64, after: &State) -> Labels {
    let mcid = request.mcid as usize;
    let (old, new) = (before.counters[mcid], after.counters[mcid]);
    let limit = 1u64 << before.record.setup.w;
    let mut labels = Vec::new();
    if old == new {
        return labels;
    }
    let ovf = |word: u64| OVF.get(word) == 1;
    let wrapped = (old & (limit - 1)) + granted >= limit;
    if wrapped {
        labels.push("counter wrapped".into());
    }
    if granted >= 2 * limit {
        labels.push("counter wrapped many times in one grant".into());
    }
    if ovf(old) && !wrapped {
        labels.push("counter kept OVF".into());
    }
    if old >> 62 & 1 == 1 {
        labels.push("counter kept INVALID".into());
    }
    labels
}

pub fn required() -> Labels {
    let mut labels = common_required(
        &[
            ("reset", &[1, 2]),
            ("read", &[1, 2, 3, 4, 5]),
            ("write", &[1, 2, 3, 4, 5, 6]),
            ("request", &[1, 2, 3, 7]),
            (devices::OFF_NAME, &[1, 2, 3, 7]),
            (devices::BARE_NAME, &[1, 2, 3, 7]),
            (devices::DIRECTORY_NAME, &[1, 2, 3, 9]),
            ("wait", &[1, 2, 3, 7, 10, 11]),
            ("end_window", &[1, 2, 3]),
        ],
        &ROWS,
    );
    labels.extend(OTHERS.map(String::from));
    labels.extend(grants::SOURCES.map(String::from));
    labels.extend(devices::required());
    labels.extend(weights::required());
    labels.extend(waiters::required());
    labels.extend(served::required());
    labels.extend(ledger_required());
    labels
}

const OTHERS: [&str; 25] = [
    "refused 3 for a register",
    "refused 3 for a configured setting",
    "refused 3 for a setting in force",
    "refused 3 for used bytes",
    "refused 3 for the pool's bytes",
    "refused 3 for a counter",
    "refused 3 for a counter setting",
    "bad operand: Rbwb 0",
    "bad operand: more than MRBWB",
    "bad operand: shares itself",
    "bad operand: shares an AT at or above NA",
    "bad operand: shares an unset pair",
    "bad operand: shares a sharer",
    "bad operand: another AT shares this one",
    "window end put other settings in force",
    "unset pair became holder",
    "unset pair became sharer",
    "holder became holder",
    "holder became sharer",
    "sharer became holder",
    "sharer became sharer",
    "counter wrapped",
    "counter wrapped many times in one grant",
    "counter kept OVF",
    "counter kept INVALID",
];
