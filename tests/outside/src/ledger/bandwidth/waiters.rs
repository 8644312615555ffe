//! The requests that wait, as the ledger knows them by calls and answers: what window ends have left of
//! each, worked out over the ledger's own words, and the window end by which each must be done.

use super::super::claim;
use super::deadline::Deadline;
use crate::coverage::Labels;
use crate::model::bandwidth::settings::{reserved, weight};
use crate::model::bandwidth::{holder_of, pool_size, waiters::NEED, Request, Setup};
use crate::model::{access_type, Grant};

#[derive(Default)]
pub struct Waiters {
    /// The request under each RCID; its bytes are what it still needs.
    waiting: Vec<Option<Request>>,
    deadlines: Vec<Option<Deadline>>,
    /// What the last window end showed of deadlines.
    pub shown: Labels,
}

/// What a waiter had at a window end.
pub struct Served {
    /// The waiter before, with all that it needed.
    pub request: Request,
    pub holder: Option<usize>,
    pub grant: Grant,
}

impl Served {
    fn rest(&self) -> u64 {
        self.request.bytes as u64 - self.grant.sum()
    }
}

impl Waiters {
    pub fn after_reset(setup: &Setup) -> Waiters {
        let none = |_| None;
        Waiters {
            waiting: (0..setup.nr).map(none).collect(),
            deadlines: (0..setup.nr).map(|_| None).collect(),
            shown: Labels::new(),
        }
    }

    pub fn need(&self, rcid: u64) -> u64 {
        self.waiting[rcid as usize].map_or(0, |request| request.bytes as u64)
    }

    /// Why a request cannot be put to wait, or 0.
    pub fn refusal(&self, setup: &Setup, request: &Request) -> u64 {
        match request {
            _ if request.rcid >= setup.nr || request.mcid >= setup.nm => 7,
            _ if self.need(request.rcid) != 0 => 10,
            Request { bytes: 0, .. } => 11,
            _ => 0,
        }
    }

    /// An accepted call that puts a request to wait.
    pub fn put(&mut self, setup: &Setup, request: &Request) {
        let request = Request { at: access_type(request.at, setup.na), ..*request };
        self.waiting[request.rcid as usize] = Some(request);
        self.deadlines[request.rcid as usize] = Some(Deadline::of(&request));
    }

    /// What each waiter has as a window opens with these words in force.
    pub fn end_window(&mut self, setup: &Setup, active: &[u32]) -> Vec<Served> {
        let waiting: Vec<Request> = self.waiting.iter().flatten().copied().collect();
        let from_reservation = |request: Request| {
            let holder = holder_of(setup, active, request.rcid, request.at);
            let reservation = holder.map_or(0, |place| reserved(active[place]) * setup.q);
            let reserved = reservation.min(request.bytes as u64);
            Served { request, holder, grant: Grant { reserved, pool: 0 } }
        };
        let mut served: Vec<Served> = waiting.into_iter().map(from_reservation).collect();
        share_out(pool_size(setup, active), active, &mut served);
        self.note_deadlines(setup, active);
        for one in &served {
            let left = Request { bytes: one.rest() as u32, ..one.request };
            self.waiting[left.rcid as usize] = (left.bytes != 0).then_some(left);
        }
        served
    }

    fn note_deadlines(&mut self, setup: &Setup, active: &[u32]) {
        self.shown.clear();
        for (rcid, deadline) in self.deadlines.iter_mut().enumerate() {
            if let Some(deadline) = deadline {
                let holder = holder_of(setup, active, rcid as u64, deadline.at);
                let blocks = holder.map_or(0, |place| reserved(active[place]));
                let waits = self.waiting[rcid].is_some();
                self.shown.extend(deadline.end_window(blocks, setup.q, waits).map(String::from));
            }
        }
    }

    /// The table has what the ledger says, and nothing once a deadline is there.
    pub fn check(&self, setup: &Setup, table: &[u64]) -> Result<(), String> {
        for (rcid, &word) in table.iter().enumerate() {
            let (need, expected) = (NEED.get(word), self.need(rcid as u64));
            claim(need == expected, || format!("RCID {rcid} needs {need}, not {expected}"))?;
            let due = self.deadlines[rcid].as_ref().filter(|deadline| deadline.is_due(setup.q));
            let text = || format!("RCID {rcid} still needs {need} bytes: {due:?}");
            claim(due.is_none() || need == 0, text)?;
        }
        Ok(())
    }
}

/// Each waiter in need, its holder's weight not 0, has its share of the pool at most.
fn share_out(pool: u64, active: &[u32], served: &mut [Served]) {
    let weight_of = |one: &Served| match one.holder {
        Some(place) if one.rest() != 0 => weight(active[place]),
        _ => 0,
    };
    let all: u64 = served.iter().map(weight_of).sum();
    for one in served.iter_mut().filter(|one| weight_of(one) != 0) {
        one.grant.pool = one.rest().min(pool * weight_of(one) / all);
    }
}

#[cfg(test)]
mod tests {
    use super::*;

    const SETUP: Setup = Setup { nbwblks: 100, mrbwb: 80, nr: 4, na: 2, nm: 4, q: 64, w: 24 };
    /// RCIDs 0 and 1 have 1,920 bytes and the weights 1 and 5, RCID 1 for both access types; RCID 2
    /// has 1,280 and weight 0; the pool has 1,280.
    const ACTIVE: [u32; 8] = [0x0010_001E, 0, 0x0050_001E, 0x8000_0000, 20, 0, 0, 0];

    fn request(rcid: u64, at: u64, bytes: u32) -> Request {
        Request { rcid, mcid: rcid, at, kind: 0, bytes }
    }

    fn waiting(requests: &[Request]) -> Waiters {
        let mut waiters = Waiters::after_reset(&SETUP);
        requests.iter().for_each(|request| waiters.put(&SETUP, request));
        waiters
    }

    fn needs(waiters: &Waiters) -> [u64; 4] {
        [0, 1, 2, 3].map(|rcid| waiters.need(rcid))
    }

    #[test]
    fn two_window_ends() {
        let list = [request(0, 0, 2_500), request(1, 1, 4_000), request(2, 0, 1_500)];
        let mut waiters = waiting(&list);
        let served = waiters.end_window(&SETUP, &ACTIVE);
        let grants: Vec<(u64, u64)> =
            served.iter().map(|one| (one.grant.reserved, one.grant.pool)).collect();
        assert_eq!(grants, [(1_920, 213), (1_920, 1_066), (1_280, 0)]);
        assert_eq!(served[1].holder, Some(2));
        assert_eq!(served[1].request.bytes, 4_000);
        assert_eq!(needs(&waiters), [367, 1_014, 220, 0]);
        waiters.end_window(&SETUP, &ACTIVE);
        assert_eq!(needs(&waiters), [0; 4]);
    }

    #[test]
    fn refusals() {
        let waiters = waiting(&[request(1, 0, 5)]);
        let refusal = |rcid, mcid, bytes| {
            waiters.refusal(&SETUP, &Request { rcid, mcid, at: 0, kind: 0, bytes })
        };
        assert_eq!([refusal(0, 0, 1), refusal(0, 0, 0), refusal(1, 0, 0)], [0, 11, 10]);
        assert_eq!([refusal(4, 0, 0), refusal(1, 4, 1)], [7, 7]);
    }

    #[test]
    fn the_table_is_the_ledgers() {
        let waiters = waiting(&[request(1, 0, 5)]);
        assert!(waiters.check(&SETUP, &[0, 5, 0, 0]).is_ok());
        assert!(waiters.check(&SETUP, &[0, 4, 0, 0]).is_err());
        assert!(waiters.check(&SETUP, &[0, 0, 0, 0]).is_err());
        assert!(waiters.check(&SETUP, &[1, 5, 0, 0]).is_err());
    }

    #[test]
    fn a_missed_deadline() {
        let mut waiters = waiting(&[request(2, 0, 1_500)]);
        waiters.end_window(&SETUP, &ACTIVE);
        waiters.end_window(&SETUP, &ACTIVE);
        waiters.waiting[2] = Some(request(2, 0, 1));
        let text = waiters.check(&SETUP, &[0, 0, 1, 0]).unwrap_err();
        assert!(text.contains("RCID 2 still needs 1 bytes"), "{text}");
    }
}
