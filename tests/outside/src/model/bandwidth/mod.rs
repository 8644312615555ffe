//! The bandwidth controller: set-up, state, calls, and one call's effect.

mod check;
pub mod device;
mod limits;
mod request;
mod reset;
pub mod settings;
pub mod waiters;

pub use check::{TWO_CONFIGURED_WEIGHTS, TWO_WEIGHTS_IN_FORCE};
pub use limits::alloc_status;
pub use request::{counted, holder_of, pool_size, CTR, OVF};
pub use reset::first_settings;

use super::access::Part;
use super::monitor::Monitor;
use super::registers::VERSION;
use super::{Answer, Performs};

/// Bandwidth events: 0 none, 1 all bytes, 2 reads, 3 writes.
pub const LAST_EVENT: u64 = 3;

/// The lent slices by number, in the order of the C interface.
pub mod slices {
    pub const RECORD: usize = 0;
    pub const ACTIVE: usize = 1;
    pub const CONFIGURED: usize = 2;
    pub const USED: usize = 3;
    pub const COUNTERS: usize = 4;
    pub const EVENTS: usize = 5;
    pub const WAITERS: usize = 6;
}

/// The numbers that a reset is given.
#[derive(Clone, Copy, Debug, PartialEq, Eq, Default)]
pub struct Setup {
    pub nbwblks: u64,
    pub mrbwb: u64,
    pub nr: u64,
    pub na: u64,
    pub nm: u64,
    /// The bytes that one block is worth in a window.
    pub q: u64,
    /// The width of a counter in bits.
    pub w: u64,
}

super::sizes::common!(Setup, Call);

/// The controller's record.
#[derive(Clone, Copy, Debug, PartialEq, Eq, Default)]
pub struct Record {
    pub setup: Setup,
    pub mon_ctl: u64,
    pub mon_ctr_val: u64,
    pub alloc_ctl: u64,
    pub bw_alloc: u64,
    /// The bytes that the pool gave in this window.
    pub pool_given: u64,
}

/// The record and the lent tables.
#[derive(Clone, Debug, PartialEq, Eq, Default)]
pub struct State {
    pub record: Record,
    /// The settings in force.
    pub active: Vec<u32>,
    pub configured: Vec<u32>,
    /// Bytes used of each holder's reservation in this window.
    pub used: Vec<u32>,
    pub counters: Vec<u64>,
    pub events: Vec<u16>,
    /// The request that waits under each RCID.
    pub waiters: Vec<u64>,
}

/// One call with its arguments. Wait puts a request to wait, Need is what an RCID's still waits for.
#[derive(Clone, Debug, PartialEq, Eq)]
pub enum Call {
    Reset(Setup),
    Read { size: u64, offset: u64 },
    Write { size: u64, offset: u64, value: u64 },
    Request(Request),
    DeviceRequest(DeviceRequest),
    Wait(Request),
    Need { rcid: u64 },
    EndWindow,
}

#[derive(Clone, Copy, Debug, PartialEq, Eq)]
pub struct Request {
    pub rcid: u64,
    pub mcid: u64,
    pub at: u64,
    /// 0 is a read, any other number a write.
    pub kind: u64,
    pub bytes: u32,
}

/// A request that a device makes through the IOMMU.
#[derive(Clone, Copy, Debug, PartialEq, Eq)]
pub struct DeviceRequest {
    /// 0 is an IOMMU that is off, 1 a bare one, any other number one with a device directory.
    pub mode: u64,
    /// iommu_qosid; with a device directory, the word ta of the device context.
    pub word: u64,
    pub at: u64,
    pub kind: u64,
    pub bytes: u32,
}

impl Performs for State {
    fn after_reset(setup: &Setup) -> State {
        reset::after_reset(setup)
    }

    fn registers(&self) -> [u64; 5] {
        let Record { setup, mon_ctl, mon_ctr_val, alloc_ctl, bw_alloc, .. } = self.record;
        [capabilities(&setup), mon_ctl, mon_ctr_val, alloc_ctl, bw_alloc]
    }

    fn monitor(&mut self) -> Monitor<'_> {
        let State { record: Record { setup, mon_ctl, mon_ctr_val, .. }, counters, events, .. } =
            self;
        let (na, nm, last_event) = (setup.na, setup.nm, LAST_EVENT);
        Monitor { na, nm, last_event, counters, events, mon_ctl, mon_ctr_val }
    }

    fn write_alloc_ctl(&mut self, value: u64) {
        limits::write_alloc_ctl(self, value);
    }

    /// No field lies in the high half.
    fn write_operand(&mut self, part: Part, value: u64) {
        if part != Part::High {
            self.record.bw_alloc = settings::named_bits(value);
        }
    }

    fn own(&mut self, call: &Call) -> Answer {
        match call {
            Call::Request(request) => return request::answer(self, request),
            Call::DeviceRequest(device) => return request::answer(self, &device.request()),
            Call::Wait(request) => {
                self.waiters[request.rcid as usize] =
                    waiters::word_of(request, self.record.setup.na);
            }
            Call::Need { rcid } => {
                return Answer::value(waiters::NEED.get(self.waiters[*rcid as usize]));
            }
            Call::EndWindow => end_window(self),
            _ => {}
        }
        Answer::default()
    }
}

/// VER 7:0, NBWBLKS 23:8, MRBWB 47:32.
fn capabilities(setup: &Setup) -> u64 {
    VERSION | setup.nbwblks << 8 | setup.mrbwb << 32
}

fn end_window(state: &mut State) {
    state.active = state.configured.clone();
    state.used.fill(0);
    state.record.pool_given = 0;
    waiters::serve(state);
}
