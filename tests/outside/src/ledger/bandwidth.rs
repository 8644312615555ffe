//! The ledger of the bandwidth controller and the claims of demand 3.

mod deadline;
mod read_back;
mod waiters;
mod window;

use super::{claim, CounterSet};
use crate::coverage::Labels;
use crate::model::access::{Part, ALLOC_CTL};
use crate::model::bandwidth::settings::{
    all_reserved, named_bits, one_weight_each, store, stored_form,
};
use crate::model::bandwidth::{
    alloc_status, counted, first_settings, holder_of, Call, DeviceRequest, Request, Setup, State,
    CTR, LAST_EVENT, OVF,
};
use crate::model::registers::{alloc_ctl_fields, AT, CONFIG_LIMIT, DONE, OP, RCID, READ_LIMIT};
use crate::model::{access_type, Answer, Grant, Sizes};
use read_back::ReadBack;
use waiters::Waiters;
use window::Window;

pub struct Ledger {
    setup: Setup,
    bw_alloc: u64,
    configured: Vec<u32>,
    active: Vec<u32>,
    read_back: ReadBack,
    window: Window,
    waiters: Waiters,
    tallies: Vec<Tally>,
}

/// What the lists of a run must have shown.
pub fn required() -> Labels {
    [read_back::required(), deadline::required()].concat()
}

/// One counter: its setting, and the bytes that it counted since its event was set.
#[derive(Clone, Default)]
struct Tally {
    setting: u16,
    total: Option<u128>,
}

impl super::Ledger for Ledger {
    type Setup = Setup;
    type Call = Call;
    type State = State;

    const OPERAND: &'static str = "bw_alloc";
    const LAST_EVENT: u64 = LAST_EVENT;

    fn after_reset(setup: &Setup) -> Ledger {
        let words = first_settings(setup);
        Ledger {
            setup: *setup,
            bw_alloc: 0,
            configured: words.clone(),
            active: words,
            read_back: ReadBack::after_reset(setup),
            window: Window::open(setup),
            waiters: Waiters::after_reset(setup),
            tallies: vec![Tally::default(); setup.nm as usize],
        }
    }

    fn setup(&self) -> &Setup {
        &self.setup
    }

    fn operand(&self) -> u64 {
        self.bw_alloc
    }

    fn write_operand(&mut self, part: Part, value: u64) {
        if part != Part::High {
            self.bw_alloc = named_bits(value);
        }
    }

    fn operate(&mut self, fields: u64) {
        if self.status(fields) != DONE {
            return;
        }
        let (rcid, at) = (RCID.get(fields), AT.get(fields));
        if OP.get(fields) == CONFIG_LIMIT {
            store(&self.setup, &mut self.configured, rcid, at, self.bw_alloc);
            self.read_back.accept(rcid, at, stored_form(self.bw_alloc));
        } else {
            self.bw_alloc = self.configured[self.setup.place(rcid, at)] as u64;
        }
    }

    fn set_counter(&mut self, set: CounterSet) {
        let tally = &mut self.tallies[set.mcid];
        tally.setting = set.setting;
        if set.starts {
            tally.total = Some(0);
        }
    }

    fn own(&mut self, call: &Call, answer: Answer) -> Result<(), String> {
        match call {
            Call::Request(request) => return self.request(request, answer.grant),
            Call::DeviceRequest(device) => return self.request(&request_of(device), answer.grant),
            Call::Wait(request) => return self.wait(request),
            Call::Need { rcid } => return self.claim_need(*rcid, answer.value),
            Call::EndWindow => self.end_window(),
            _ => {}
        }
        Ok(())
    }

    /// Which waits are refused is the ledger's too.
    fn refused(&self, call: &Call, number: u64) -> Result<(), String> {
        let expected = match call {
            Call::Wait(request) => self.waiters.refusal(&self.setup, request),
            Call::Need { rcid } => 7 * (*rcid >= self.setup.nr) as u64,
            _ => return Ok(()),
        };
        claim(number == expected, || format!("refused by {number}, not {expected}: {call:?}"))
    }

    fn check(&self, state: &State) -> Result<(), String> {
        self.check_settings(state)?;
        self.window.check(&self.setup, &self.active)?;
        self.waiters.check(&self.setup, &state.waiters)?;
        self.check_counters(state)
    }

    fn shown(&self, call: &Call) -> Labels {
        match *call {
            Call::Write { offset: ALLOC_CTL, value, .. } => self.shown_by_reading(value),
            Call::EndWindow => self.waiters.shown.clone(),
            _ => Labels::new(),
        }
    }
}

/// A device's request as one with the identifiers of its word, 12 bits each: iommu_qosid has RCID
/// from bit 0 and MCID from bit 16, DC.ta of a device directory from bits 40 and 52.
fn request_of(device: &DeviceRequest) -> Request {
    let DeviceRequest { mode, word, at, kind, bytes } = *device;
    let (rcid, mcid) = if mode < 2 { (word, word >> 16) } else { (word >> 40, word >> 52) };
    Request { rcid: rcid % 4_096, mcid: mcid % 4_096, at, kind, bytes }
}

impl Ledger {
    fn status(&self, fields: u64) -> u64 {
        alloc_status(&self.setup, &self.configured, self.bw_alloc, fields)
    }

    /// What a write of alloc_ctl showed, if it was a READ_LIMIT.
    fn shown_by_reading(&self, value: u64) -> Labels {
        let fields = alloc_ctl_fields(value, self.setup.na);
        if OP.get(fields) != READ_LIMIT || self.status(fields) != DONE {
            return Labels::new();
        }
        let place = self.setup.place(RCID.get(fields), AT.get(fields));
        self.read_back.shown(place, self.configured[place])
    }

    fn request(&mut self, request: &Request, grant: Grant) -> Result<(), String> {
        let exists = request.rcid < self.setup.nr && request.mcid < self.setup.nm;
        claim(exists, || format!("accepted with an RCID or MCID that is not there: {request:?}"))?;
        let at = access_type(request.at, self.setup.na);
        let holder = holder_of(&self.setup, &self.active, request.rcid, at);
        self.window.note(holder, request.bytes as u64, grant);
        self.tally(&Request { at, ..*request }, grant);
        Ok(())
    }

    /// Adds a grant to its counter, if that matches.
    fn tally(&mut self, request: &Request, grant: Grant) {
        let tally = &mut self.tallies[request.mcid as usize];
        if counted(tally.setting, request.at, request.kind) {
            tally.total = tally.total.map(|total| total + grant.sum() as u128);
        }
    }

    /// A call that puts a request to wait asks nothing.
    fn wait(&mut self, request: &Request) -> Result<(), String> {
        let refusal = self.waiters.refusal(&self.setup, request);
        claim(refusal == 0, || format!("accepted, not refused by {refusal}: {request:?}"))?;
        self.waiters.put(&self.setup, request);
        Ok(())
    }

    fn claim_need(&self, rcid: u64, value: u64) -> Result<(), String> {
        claim(rcid < self.setup.nr, || format!("accepted with RCID {rcid}"))?;
        let expected = self.waiters.need(rcid);
        claim(value == expected, || format!("RCID {rcid} read {value} as need, not {expected}"))
    }

    /// Opens a window, in which what the waiters need is asked and what they are served granted.
    fn end_window(&mut self) {
        self.active = self.configured.clone();
        self.window = Window::open(&self.setup);
        self.read_back.end_window();
        for served in self.waiters.end_window(&self.setup, &self.active) {
            self.window.note(served.holder, served.request.bytes as u64, served.grant);
            self.tally(&served.request, served.grant);
        }
    }

    fn check_settings(&self, state: &State) -> Result<(), String> {
        claim(state.configured == self.configured, || "the configured table".into())?;
        claim(state.active == self.active, || "the table in force".into())?;
        let all = all_reserved(&state.configured);
        claim(all <= self.setup.mrbwb, || format!("{all} blocks reserved of MRBWB"))?;
        for (words, table) in [(&self.configured, "configured"), (&self.active, "in force")] {
            let text = || format!("two weights of an RCID, {table}: {words:x?}");
            claim(one_weight_each(&self.setup, words), text)?;
        }
        self.read_back.check(&state.configured)
    }

    /// A counter is the sum of its matching grants modulo 2^W, with OVF once that reached 2^W.
    fn check_counters(&self, state: &State) -> Result<(), String> {
        let limit = 1u128 << self.setup.w;
        let expected = |total: u128| {
            let overflow = if total >= limit { OVF.mask() } else { 0 };
            overflow | CTR.place((total % limit) as u64)
        };
        for (mcid, tally) in self.tallies.iter().enumerate() {
            let (word, total) = (state.counters[mcid], tally.total);
            let text = || format!("counter {mcid} is {word:#x}, counted {total:?}");
            claim(total.map_or(true, |total| word == expected(total)), text)?;
        }
        Ok(())
    }
}

#[cfg(test)]
mod tests {
    use super::*;
    use crate::ledger::{make, Ledger as _};
    use crate::model::{Checked, Performs};

    const SETUP: Setup = Setup { nbwblks: 100, mrbwb: 80, nr: 4, na: 2, nm: 4, q: 64, w: 24 };

    fn write(offset: u64, value: u64) -> Call {
        Call::Write { size: 8, offset, value }
    }

    fn request(rcid: u64, bytes: u32) -> Call {
        Call::Request(Request { rcid, mcid: 0, at: 0, kind: 0, bytes })
    }

    /// RCID 0 to 30 blocks with weight 1, RCID 1 to 20 with weight 0, in force; counter 0 counts all.
    fn in_use() -> (State, Ledger) {
        let (mut state, mut ledger) = (State::default(), Ledger::after_reset(&SETUP));
        let calls = [
            Call::Reset(SETUP),
            write(32, 0x0010_001E),
            write(24, 0x001),
            write(32, 20),
            write(24, 0x101),
            write(8, 0x10_0001),
            Call::EndWindow,
        ];
        for call in calls {
            make(&mut state, &mut ledger, &call).unwrap();
        }
        (state, ledger)
    }

    #[test]
    fn settings_must_come_into_force_at_every_window_end() {
        let (mut state, mut ledger) = in_use();
        make(&mut state, &mut ledger, &write(32, 10)).unwrap();
        make(&mut state, &mut ledger, &write(24, 0x101)).unwrap();
        ledger.observe(&Call::EndWindow, Answer::value(0)).unwrap();
        assert!(ledger.check(&state).is_err(), "the state has seen no window end");
        state.perform(&State::lengths(&SETUP), &Call::EndWindow);
        assert!(ledger.check(&state).is_ok());
    }

    #[test]
    fn an_accepted_setting_must_stay() {
        let (mut state, ledger) = in_use();
        state.configured[2] = 19;
        assert!(ledger.check(&state).is_err());
    }

    /// RCID 1 as in `in_use`, and then its AT 1 to 5 blocks with weight 3.
    fn two_holders() -> (State, Ledger) {
        let (mut state, mut ledger) = in_use();
        make(&mut state, &mut ledger, &write(32, 0x0030_0005)).unwrap();
        make(&mut state, &mut ledger, &write(24, 0x121)).unwrap();
        (state, ledger)
    }

    #[test]
    fn a_weight_is_carried_and_comes_into_force_with_the_window() {
        let (mut state, mut ledger) = two_holders();
        assert_eq!(ledger.configured[2..4], [0x0030_0014, 0x0030_0005]);
        assert_eq!(ledger.active[2..4], [0x0000_0014, 0]);
        make(&mut state, &mut ledger, &Call::EndWindow).unwrap();
        assert_eq!(ledger.active[2..4], [0x0030_0014, 0x0030_0005]);
        state.configured[2] = 0x0000_0014;
        assert!(ledger.check(&state).is_err(), "its own weight again");
    }

    #[test]
    fn two_weights_of_an_rcid_in_either_table() {
        let (mut state, mut ledger) = two_holders();
        (ledger.configured[2], state.configured[2]) = (0x0040_0014, 0x0040_0014);
        assert!(ledger.check(&state).unwrap_err().contains("two weights of an RCID, configured"));
        let (mut state, mut ledger) = two_holders();
        make(&mut state, &mut ledger, &Call::EndWindow).unwrap();
        (ledger.active[2], state.active[2]) = (0x0040_0014, 0x0040_0014);
        assert!(ledger.check(&state).unwrap_err().contains("two weights of an RCID, in force"));
    }

    #[test]
    fn reads_of_bw_alloc() {
        let (_, mut ledger) = in_use();
        let read = Call::Read { size: 8, offset: 32 };
        assert!(ledger.observe(&read, Answer::value(20)).is_ok());
        assert!(ledger.observe(&read, Answer::value(21)).is_err());
    }

    /// RCID 1 and MCID 2 by iommu_qosid, RCID 0 and MCID 3 by DC.ta, and all other bits set.
    fn device(mode: u64, bytes: u32) -> Call {
        let word = 0x0030_00FF_F002_F001;
        Call::DeviceRequest(DeviceRequest { mode, word, at: 0, kind: 1, bytes })
    }

    #[test]
    fn a_devices_request_is_noted_as_a_request() {
        for (mode, place) in [(0, 2), (1, 2), (2, 0), (u64::MAX, 0)] {
            let (mut state, mut ledger) = in_use();
            make(&mut state, &mut ledger, &device(mode, 500)).unwrap();
            let (mut asked, mut granted) = (vec![0; 8], vec![Grant::default(); 8]);
            asked[place] = 500;
            granted[place].reserved = 500;
            assert_eq!(ledger.window.asked, asked, "mode {mode}");
            assert_eq!(ledger.window.granted, granted, "mode {mode}");
            assert_eq!(ledger.window.all, Grant { reserved: 500, pool: 0 });
        }
    }

    #[test]
    fn a_devices_grant_is_claimed_by_its_own_holder() {
        let claims = |mode, reserved, pool| {
            let (_, mut ledger) = in_use();
            ledger.observe(&device(mode, 2_000), Answer::granted(reserved, pool)).unwrap();
            ledger.window.check(&ledger.setup, &ledger.active)
        };
        assert!(claims(1, 1_280, 0).is_ok());
        assert!(claims(1, 1_280, 1).is_err(), "RCID 1 has weight 0 and 1,280 bytes");
        assert!(claims(2, 1_280, 1).is_err(), "RCID 0 has 1,920 bytes");
        assert!(claims(2, 1_920, 0).is_ok());
        assert!(claims(2, 1_920, 80).is_ok());
        assert!(claims(2, 1_919, 81).is_err(), "the pool before the reservation");
    }

    #[test]
    fn a_devices_grant_is_tied_to_its_counter() {
        for (mode, mcid) in [(0, 2), (1, 2), (3, 3)] {
            let (mut state, mut ledger) = in_use();
            let event = 0x30_0001 | (mcid as u64) << 8;
            make(&mut state, &mut ledger, &write(8, event)).unwrap();
            make(&mut state, &mut ledger, &device(mode, 70)).unwrap();
            assert_eq!(state.counters[mcid], 70);
            state.counters[mcid] = 0;
            assert!(ledger.check(&state).is_err(), "mode {mode}");
        }
    }

    #[test]
    fn no_accepted_request_names_what_does_not_exist() {
        let (_, mut ledger) = in_use();
        let word = 0x0000_0400_0004_0000;
        for mode in [0, 2] {
            let device = DeviceRequest { mode, word, at: 0, kind: 0, bytes: 0 };
            let call = Call::DeviceRequest(device);
            assert!(ledger.observe(&call, Answer::value(0)).is_err(), "mode {mode}");
            assert!(ledger.observe(&call, Answer::refused(7)).is_ok());
        }
    }

    fn wait(rcid: u64, bytes: u32) -> Call {
        Call::Wait(Request { rcid, mcid: 0, at: 1, kind: 0, bytes })
    }

    /// RCID 0 has 1,920 bytes for both access types, and the pool 3,200.
    #[test]
    fn what_a_waiter_needs_is_asked_in_the_window_that_opens() {
        let (mut state, mut ledger) = in_use();
        make(&mut state, &mut ledger, &wait(0, 6_000)).unwrap();
        assert_eq!(ledger.window.asked, [0; 8]);
        make(&mut state, &mut ledger, &Call::EndWindow).unwrap();
        assert_eq!(ledger.window.asked, [6_000, 0, 0, 0, 0, 0, 0, 0]);
        assert_eq!(ledger.window.granted[0], Grant { reserved: 1_920, pool: 3_200 });
        assert_eq!(ledger.window.all, Grant { reserved: 1_920, pool: 3_200 });
        assert_eq!(ledger.tallies[0].total, Some(5_120));
        make(&mut state, &mut ledger, &Call::EndWindow).unwrap();
        assert_eq!(ledger.window.asked, [880, 0, 0, 0, 0, 0, 0, 0]);
        assert_eq!(ledger.tallies[0].total, Some(6_000));
    }

    #[test]
    fn needs_and_refusals_are_the_ledgers() {
        let (mut state, mut ledger) = in_use();
        make(&mut state, &mut ledger, &wait(0, 50)).unwrap();
        let need = |rcid| Call::Need { rcid };
        assert!(ledger.observe(&need(0), Answer::value(50)).is_ok());
        assert!(ledger.observe(&need(0), Answer::value(49)).is_err());
        assert!(ledger.observe(&need(1), Answer::value(0)).is_ok());
        assert!(ledger.observe(&need(1), Answer::refused(7)).is_err());
        assert!(ledger.observe(&need(4), Answer::refused(7)).is_ok());
        assert!(ledger.observe(&wait(0, 0), Answer::refused(10)).is_ok());
        assert!(ledger.observe(&wait(0, 0), Answer::refused(11)).is_err());
        assert!(ledger.observe(&wait(0, 1), Answer::value(0)).is_err());
        assert!(ledger.observe(&wait(1, 0), Answer::refused(11)).is_ok());
        assert!(ledger.observe(&wait(1, 1), Answer::refused(11)).is_err());
    }

    #[test]
    fn counters_are_tied_to_grants() {
        let (mut state, mut ledger) = in_use();
        make(&mut state, &mut ledger, &request(0, 300)).unwrap();
        assert_eq!(state.counters[0], 300);
        state.counters[0] = 301;
        assert!(ledger.check(&state).is_err());
    }
}
