//! The C interface of libcbqri.a, and safe functions over it.
//! Each slice is an address and a length: the record, then the tables in the order of rule I2.

use crate::memory::Memory;
use crate::model::{bandwidth, capacity, Answer, Grant};

/// What the caller's variables for the answer hold before a call: the call must overwrite them.
const UNWRITTEN: u64 = 0xDEAD_BEEF_DEAD_BEEF;

/// A function of the C interface on lent memory. In brackets are its slices; before them come the
/// numbers of a set-up, after them the call's own arguments.
macro_rules! c_function {
    ([$($slice:ident),*] $name:ident($($number:ident),*; $($own:ident: $type:ty),*)) => {
        #[allow(clippy::too_many_arguments)] // as many as the C function has
        fn $name(memory: &mut Memory, $($number: u64,)* $($own: $type,)*) -> u64 {
            extern "C" {
                fn $name($($number: u64,)* $($slice: *mut u8, _: usize,)* $($own: $type,)*) -> u64;
            }
            let [$($slice),*] = memory.slices();
            // SAFETY: the slices are disjoint, alive and as long as said; what the call hands back
            // goes to variables that live until the end.
            unsafe { $name($($number,)* $($slice.0, $slice.1,)* $($own,)*) }
        }
    };
}

macro_rules! bandwidth_function {
    ($($rest:tt)*) => {
        c_function!([record, active, configured, used, counters, events, waiters] $($rest)*);
    };
}

macro_rules! capacity_function {
    ($($rest:tt)*) => {
        c_function!([record, masks, counters, events, owners] $($rest)*);
    };
}

bandwidth_function!(cbqri_bandwidth_reset(nbwblks, mrbwb, nr, na, nm, q, w;));
bandwidth_function!(cbqri_bandwidth_read(; size: u64, offset: u64, value: &mut u64));
bandwidth_function!(cbqri_bandwidth_write(; size: u64, offset: u64, value: u64));
bandwidth_function!(cbqri_bandwidth_request(; rcid: u64, mcid: u64, at: u64, kind: u64, bytes: u32,
    reserved: &mut u64, pool: &mut u64));
bandwidth_function!(cbqri_bandwidth_device_request(; mode: u64, word: u64, at: u64, kind: u64,
    bytes: u32, reserved: &mut u64, pool: &mut u64));
bandwidth_function!(cbqri_bandwidth_wait(; rcid: u64, mcid: u64, at: u64, kind: u64, bytes: u32));
bandwidth_function!(cbqri_bandwidth_need(; rcid: u64, need: &mut u64));
bandwidth_function!(cbqri_bandwidth_end_window(;));

capacity_function!(cbqri_capacity_reset(ncblks, nr, na, nm, w, u;));
capacity_function!(cbqri_capacity_read(; size: u64, offset: u64, value: &mut u64));
capacity_function!(cbqri_capacity_write(; size: u64, offset: u64, value: u64));
capacity_function!(cbqri_capacity_fill(; rcid: u64, mcid: u64, at: u64, unit: u64,
    allowed: &mut u64));
capacity_function!(cbqri_capacity_evict(; unit: u64));

/// The answer of a call that hands nothing back but its refusal.
fn plain(refusal: u64) -> Answer {
    Answer { refusal, ..Answer::default() }
}

/// The answer of a call that hands a number back too.
fn with_value(call: impl FnOnce(&mut u64) -> u64) -> Answer {
    let mut value = UNWRITTEN;
    let refusal = call(&mut value);
    Answer { refusal, value, ..Answer::default() }
}

/// The answer of a call that hands back what it grants.
fn with_grant(call: impl FnOnce(&mut u64, &mut u64) -> u64) -> Answer {
    let (mut reserved, mut pool) = (UNWRITTEN, UNWRITTEN);
    let refusal = call(&mut reserved, &mut pool);
    Answer { refusal, grant: Grant { reserved, pool }, ..Answer::default() }
}

/// One call of the bandwidth controller.
pub fn bandwidth(memory: &mut Memory, call: &bandwidth::Call) -> Answer {
    use bandwidth::Call::*;
    match *call {
        Reset(s) => {
            plain(cbqri_bandwidth_reset(memory, s.nbwblks, s.mrbwb, s.nr, s.na, s.nm, s.q, s.w))
        }
        Read { size, offset } => {
            with_value(|value| cbqri_bandwidth_read(memory, size, offset, value))
        }
        Write { size, offset, value } => plain(cbqri_bandwidth_write(memory, size, offset, value)),
        Request(r) => with_grant(|reserved, pool| {
            let (at, kind, bytes) = (r.at, r.kind, r.bytes);
            cbqri_bandwidth_request(memory, r.rcid, r.mcid, at, kind, bytes, reserved, pool)
        }),
        DeviceRequest(d) => with_grant(|reserved, pool| {
            let (at, kind, bytes) = (d.at, d.kind, d.bytes);
            cbqri_bandwidth_device_request(memory, d.mode, d.word, at, kind, bytes, reserved, pool)
        }),
        Wait(r) => plain(cbqri_bandwidth_wait(memory, r.rcid, r.mcid, r.at, r.kind, r.bytes)),
        Need { rcid } => with_value(|need| cbqri_bandwidth_need(memory, rcid, need)),
        EndWindow => plain(cbqri_bandwidth_end_window(memory)),
    }
}

/// One call of the capacity controller.
pub fn capacity(memory: &mut Memory, call: &capacity::Call) -> Answer {
    use capacity::Call::*;
    match *call {
        Reset(s) => plain(cbqri_capacity_reset(memory, s.ncblks, s.nr, s.na, s.nm, s.w, s.u)),
        Read { size, offset } => {
            with_value(|value| cbqri_capacity_read(memory, size, offset, value))
        }
        Write { size, offset, value } => plain(cbqri_capacity_write(memory, size, offset, value)),
        Fill(f) => {
            with_value(|allowed| cbqri_capacity_fill(memory, f.rcid, f.mcid, f.at, f.unit, allowed))
        }
        Evict { unit } => plain(cbqri_capacity_evict(memory, unit)),
    }
}
