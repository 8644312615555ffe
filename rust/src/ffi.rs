//! The C interface of libcbqri.a, over the buffers of a controller.

use crate::{BandwidthBuffers, CapacityBuffers, Refusal};

/// A function of the C interface. Its arguments are the numbers of a set-up, each buffer as pointer
/// and length, and the call's own.
macro_rules! function {
    ($buffers:ident [$($field:ident)*] $kind:tt $name:ident($($number:ident),*; $($own:ident: $type:ty),*)) => {
        #[allow(clippy::too_many_arguments)] // as many as the C function has
        pub(crate) fn $name(
            buffers: function!(@reference $kind $buffers),
            $($number: u64,)*
            $($own: $type,)*
        ) -> Result<(), Refusal> {
            extern "C" {
                fn $name(
                    $($number: u64,)*
                    $($field: function!(@pointer $kind), _: usize,)*
                    $($own: $type,)*
                ) -> u64;
            }
            // SAFETY: pointers and lengths are those of vectors that live and do not overlap, and the
            // numbers that are handed back go to variables of the caller's.
            Refusal::check(unsafe {
                $name(
                    $($number,)*
                    $(function!(@address $kind buffers.$field), buffers.$field.len(),)*
                    $($own,)*
                )
            })
        }
    };
    (@reference const $buffers:ident) => { &$buffers };
    (@reference mut $buffers:ident) => { &mut $buffers };
    (@pointer const) => { *const u8 };
    (@pointer mut) => { *mut u8 };
    (@address const $vector:expr) => { $vector.as_ptr() };
    (@address mut $vector:expr) => { $vector.as_mut_ptr() };
}

macro_rules! bandwidth {
    ($($rest:tt)*) => {
        function!(BandwidthBuffers [record active configured used counters events waiters] $($rest)*);
    };
}

macro_rules! capacity {
    ($($rest:tt)*) => { function!(CapacityBuffers [record masks counters events owners] $($rest)*); };
}

bandwidth!(mut cbqri_bandwidth_reset(nbwblks, mrbwb, nr, na, nm, q, w;));
bandwidth!(const cbqri_bandwidth_read(; size: u64, offset: u64, value: &mut u64));
bandwidth!(mut cbqri_bandwidth_write(; size: u64, offset: u64, value: u64));
bandwidth!(mut cbqri_bandwidth_request(; rcid: u64, mcid: u64, at: u64, kind: u64, bytes: u32,
    reserved: &mut u64, pool: &mut u64));
bandwidth!(mut cbqri_bandwidth_device_request(; mode: u64, word: u64, at: u64, kind: u64,
    bytes: u32, reserved: &mut u64, pool: &mut u64));
bandwidth!(mut cbqri_bandwidth_wait(; rcid: u64, mcid: u64, at: u64, kind: u64, bytes: u32));
bandwidth!(const cbqri_bandwidth_need(; rcid: u64, need: &mut u64));
bandwidth!(mut cbqri_bandwidth_end_window(;));

capacity!(mut cbqri_capacity_reset(ncblks, nr, na, nm, w, u;));
capacity!(const cbqri_capacity_read(; size: u64, offset: u64, value: &mut u64));
capacity!(mut cbqri_capacity_write(; size: u64, offset: u64, value: u64));
capacity!(mut cbqri_capacity_fill(; rcid: u64, mcid: u64, at: u64, unit: u64,
    allowed: &mut u64));
capacity!(mut cbqri_capacity_evict(; unit: u64));
