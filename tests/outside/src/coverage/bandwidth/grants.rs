//! Where granted bytes came from, for a request and for a device's.

use crate::model::bandwidth::settings::weight;
use crate::model::bandwidth::{holder_of, Request, State};
use crate::model::{access_type, Grant};

/// Which of the two amounts are there, and whether they are all that was asked.
pub fn source(before: &State, request: &Request, grant: Grant) -> String {
    let setup = &before.record.setup;
    let at = access_type(request.at, setup.na);
    let place = match holder_of(setup, &before.active, request.rcid, at) {
        Some(place) => place,
        None => return "granted nothing: no holder".into(),
    };
    let hard = if weight(before.active[place]) == 0 { ", weight 0" } else { "" };
    let part = if grant.sum() < request.bytes as u64 { "in part" } else { "in full" };
    match (grant.reserved, grant.pool) {
        (0, 0) if request.bytes == 0 => "granted nothing: asked 0".into(),
        (0, 0) => format!("granted nothing: nothing left{hard}"),
        (_, 0) => format!("granted {part} from the reservation{hard}"),
        (0, _) => format!("granted {part} from the pool{hard}"),
        _ => format!("granted {part} from both{hard}"),
    }
}

/// All that can come up: at weight 0 the pool gives nothing.
pub const SOURCES: [&str; 12] = [
    "granted nothing: no holder",
    "granted nothing: asked 0",
    "granted nothing: nothing left",
    "granted nothing: nothing left, weight 0",
    "granted in full from the reservation",
    "granted in full from the reservation, weight 0",
    "granted in part from the reservation",
    "granted in part from the reservation, weight 0",
    "granted in full from the pool",
    "granted in part from the pool",
    "granted in full from both",
    "granted in part from both",
];
