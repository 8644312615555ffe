//! Refusal 3: one word of a good state is changed, and the state is well formed or not.

use super::case::{bandwidth_setup, capacity_setup};
use super::case::{BandwidthCase, CapacityCase, Case};
use super::Report;
use crate::controller::{Bandwidth, Controller};
use crate::model::bandwidth::slices::*;
use crate::model::{bandwidth, capacity, CommonCall};

const TWO_TYPES: [u64; 7] = [100, 80, 4, 2, 4, 64, 24];
const ONE_TYPE: [u64; 7] = [100, 80, 4, 1, 4, 64, 24];
const CAPACITY: [u64; 6] = [8, 4, 2, 4, 24, 3];

pub fn run(report: &mut Report) {
    bandwidth_forms(report);
    bandwidth_one_type(report);
    capacity_forms(report);
}

/// Slice, index, value, and the refusal that the next call gives.
type Form = (&'static str, usize, usize, u64, u64);

// Configured and in force, as after P1 to P7: RCID 0 has 30 blocks, and its AT 1 shares AT 0;
// RCID 1 has 30 blocks with weight 5, and its AT 1 shares AT 0; RCID 2 has 20 blocks; all else is unset.
// All of MRBWB, 80 blocks, is reserved, and the pool has 1,280 bytes.
const RECORD_FORMS: [Form; 13] = [
    ("STATUS 127 of mon_ctl", RECORD, 7, 0x7F_0000_0000, 0),
    ("every field of mon_ctl", RECORD, 7, 0x7F_1FFF_FFFF, 0),
    ("BUSY of mon_ctl", RECORD, 7, 0x80_0000_0000, 3),
    ("bit 29 of mon_ctl", RECORD, 7, 1 << 29, 3),
    ("any mon_ctr_val", RECORD, 8, u64::MAX, 0),
    ("every field of alloc_ctl", RECORD, 9, 0x7F_000F_FFFF, 0),
    ("BUSY of alloc_ctl", RECORD, 9, 0x80_0000_0001, 3),
    ("bit 20 of alloc_ctl", RECORD, 9, 1 << 20, 3),
    ("every field of bw_alloc", RECORD, 10, 0xFFF0_FFFF, 0),
    ("bit 16 of bw_alloc", RECORD, 10, 1 << 16, 3),
    ("bit 32 of bw_alloc", RECORD, 10, 1 << 32, 3),
    ("the pool gave all", RECORD, 11, 1_280, 0),
    ("the pool gave more", RECORD, 11, 1_281, 3),
];

const TABLE_FORMS: [Form; 25] = [
    ("all of a reservation used", USED, 2, 1_920, 0),
    ("one byte more", USED, 2, 1_921, 3),
    ("used at a sharer", USED, 3, 1, 3),
    ("used at an unset pair", USED, 7, 1, 3),
    ("2^24 - 1 with both flags", COUNTERS, 1, 0xC000_0000_00FF_FFFF, 0),
    ("2^24", COUNTERS, 1, 0x0100_0000, 3),
    ("bit 61", COUNTERS, 3, 1 << 61, 3),
    ("event 3, ATV 1, AT 1", EVENTS, 0, 0x0903, 0),
    ("event 1, ATV 1, AT 0", EVENTS, 0, 0x0801, 0),
    ("event 4", EVENTS, 0, 0x0004, 3),
    ("AT without ATV", EVENTS, 0, 0x0101, 3),
    ("ATV without an event", EVENTS, 3, 0x0800, 3),
    ("AT 2 of 2", EVENTS, 3, 0x0A01, 3),
    ("bit 12", EVENTS, 3, 0x1001, 3),
    ("a waiter", WAITERS, 0, 1, 0),
    ("every field of a waiter", WAITERS, 3, 0x0903_FFFF_FFFF, 0),
    ("a waiter's MCID 4 of 4", WAITERS, 3, 0x0004_0000_0001, 3),
    ("a waiter's MCID 128", WAITERS, 0, 0x0080_0000_0001, 3),
    ("a waiter's AT 2 of 2", WAITERS, 3, 0x0200_0000_0001, 3),
    ("a waiter's AT 4", WAITERS, 1, 0x0400_0000_0001, 3),
    ("a write without a need", WAITERS, 1, 0x0800_0000_0000, 3),
    ("an MCID without a need", WAITERS, 2, 0x0003_0000_0000, 3),
    ("an AT without a need", WAITERS, 2, 0x0100_0000_0000, 3),
    ("bit 44 of a waiter", WAITERS, 2, 0x1000_0000_0001, 3),
    ("bit 63 of a waiter", WAITERS, 3, 1 << 63 | 1, 3),
];

/// Word, and whether a settings table may have it at RCID 2 AT 0, and at RCID 2 AT 1.
const SETTING_FORMS: [(&str, u64, u64, u64); 13] = [
    ("unset", 0, 0, 0),
    ("20 blocks", 20, 0, 3),
    ("20 blocks, weight 255", 0x0FF0_0014, 0, 3),
    ("21 blocks", 21, 3, 3),
    ("only a weight", 0x0010_0000, 3, 3),
    ("bit 16", 0x0001_0001, 3, 3),
    ("bit 19", 0x0008_0001, 3, 3),
    ("a holder's sharedAT", 0x1000_0001, 3, 3),
    ("shares AT 0", 0x8000_0000, 3, 0),
    ("shares AT 1", 0x9000_0000, 3, 3),
    ("shares AT 2 of 2", 0xA000_0000, 3, 3),
    ("a sharer's Rbwb", 0x8000_0001, 3, 3),
    ("a sharer's Mweight", 0x8010_0000, 3, 3),
];

pub fn good_state(report: &mut Report) -> BandwidthCase<'_> {
    let mut c = BandwidthCase::after_reset(report, TWO_TYPES);
    c.configure("RCID 0", (0, 0), 30, 1);
    c.configure("RCID 1", (1, 0), 0x0050_001E, 1);
    c.configure("RCID 2", (2, 0), 20, 1);
    c.configure("RCID 1 AT 1", (1, 1), 0x8000_0000, 1);
    c.end_window();
    c
}

fn bandwidth_forms(report: &mut Report) {
    let mut c = good_state(report);
    let tried = try_bandwidth(TWO_TYPES);
    let mut try_form = |form: Form| tried.form(&mut c, form);
    RECORD_FORMS.into_iter().chain(TABLE_FORMS).for_each(&mut try_form);
    for (name, word, at_0, at_1) in SETTING_FORMS {
        for table in [ACTIVE, CONFIGURED] {
            try_form((name, table, 4, word, at_0));
            try_form((name, table, 5, word, at_1));
        }
    }
    // rules over several words
    for table in [ACTIVE, CONFIGURED] {
        try_form(("a shared pair is unset", table, 2, 0, 3));
        try_form(("a shared pair shares", table, 2, 0x9000_0000, 3));
        try_form(("81 blocks in all", table, 2, 0x0050_001F, 3));
        try_form(("79 blocks in all", table, 2, 0x0050_001D, 0));
        try_form(("65,535 blocks", table, 6, 65_535, 3));
    }
}

fn bandwidth_one_type(report: &mut Report) {
    let mut c = BandwidthCase::after_reset(report, ONE_TYPE);
    let forms: [Form; 8] = [
        ("AT of alloc_ctl is held as 0", RECORD, 9, 0x20, 3),
        ("AT of mon_ctl is held as 0", RECORD, 7, 0x80, 3),
        ("ATV of mon_ctl is held as 0", RECORD, 7, 1 << 28, 3),
        ("useShared of bw_alloc is not", RECORD, 10, 0x9000_0000, 0),
        ("no operation stores ATV 1", EVENTS, 0, 0x0801, 3),
        ("event 1", EVENTS, 0, 0x0001, 0),
        ("a waiter's AT 0", WAITERS, 0, 0x0800_0000_0001, 0),
        ("a waiter's AT 1 of 1", WAITERS, 0, 0x0100_0000_0001, 3),
    ];
    let tried = try_bandwidth(ONE_TYPE);
    forms.into_iter().for_each(|form| tried.form(&mut c, form));
}

/// What a case does with each form: a call that hands nothing back, and a reset to a set-up.
struct Try<C: Controller> {
    setup: C::Setup,
    capabilities: u64,
    call: C::Call,
}

impl<C: Controller> Try<C> {
    /// A read and the call both judge the state; a reset does not.
    fn form(&self, c: &mut Case<C>, (name, region, index, value, number): Form) {
        c.aside(|c| {
            c.store(region, index, value);
            let read = C::Call::read(8, 0);
            if number == 0 {
                c.answers(name, &read, self.capabilities);
                c.answers(name, &self.call, 0);
            } else {
                c.refuses(name, &read, number);
                c.refuses(name, &self.call, number);
            }
            c.answers("a reset takes any record", &C::Call::reset(self.setup), 0);
            c.read("and all is well", 8, 0x18, 0);
        });
    }
}

fn try_bandwidth(numbers: [u64; 7]) -> Try<Bandwidth> {
    let (setup, call) = (bandwidth_setup(numbers), bandwidth::Call::EndWindow);
    Try { setup, capabilities: 0x0000_0050_0000_6401, call }
}

fn capacity_forms(report: &mut Report) {
    use super::case::capacity_record::*;
    use capacity::slices::*;
    let forms: [Form; 30] = [
        ("every field of mon_ctl", RECORD, MON_CTL_WORD, 0x7F_1FFF_FFFF, 0),
        ("BUSY of mon_ctl", RECORD, MON_CTL_WORD, 0x80_0000_0000, 3),
        ("any mon_ctr_val", RECORD, MON_CTR_VAL_WORD, u64::MAX, 0),
        ("every field of alloc_ctl", RECORD, ALLOC_CTL_WORD, 0x7F_000F_FFFF, 0),
        ("BUSY of alloc_ctl", RECORD, ALLOC_CTL_WORD, 0x80_0000_0000, 3),
        ("every block", RECORD, BLOCK_MASK_WORD, 0xFF, 0),
        ("block 8 of block_mask", RECORD, BLOCK_MASK_WORD, 0x100, 3),
        ("a mask of 0 is an unset pair", MASKS, 0, 0, 0),
        ("any blocks", MASKS, 7, 0xA5, 0),
        ("block 8 of a mask", MASKS, 7, 0x1FF, 3),
        ("bit 63 of a mask", MASKS, 3, 1 << 63, 3),
        ("2^24 - 1 and INVALID", COUNTERS, 3, 0x8000_0000_00FF_FFFF, 0),
        ("2^24", COUNTERS, 3, 0x0100_0000, 3),
        ("bit 62", COUNTERS, 0, 1 << 62, 3),
        ("event 1, ATV 1, AT 1", EVENTS, 2, 0x0901, 0),
        ("event 2", EVENTS, 2, 0x0002, 3),
        ("AT without ATV", EVENTS, 2, 0x0101, 3),
        ("ATV without an event", EVENTS, 2, 0x0800, 3),
        ("AT 2 of 2", EVENTS, 2, 0x0A01, 3),
        ("an owner of RCID, MCID and AT 0", OWNERS, 0, 0x0008_0000, 0),
        ("the highest of each field", OWNERS, 23, 0x0009_0303, 0),
        ("RCID 4 of 4", OWNERS, 23, 0x0008_0004, 3),
        ("RCID 128", OWNERS, 0, 0x0008_0080, 3),
        ("MCID 4 of 4", OWNERS, 1, 0x0008_0400, 3),
        ("MCID 128", OWNERS, 22, 0x0008_8000, 3),
        ("AT 2 of 2", OWNERS, 12, 0x000A_0000, 3),
        ("AT 4", OWNERS, 12, 0x000C_0000, 3),
        ("an RCID, not owned", OWNERS, 23, 0x0000_0001, 3),
        ("bit 20 of an owner", OWNERS, 2, 0x0018_0000, 3),
        ("bit 31 alone", OWNERS, 2, 0x8000_0000, 3),
    ];
    let mut c = CapacityCase::after_reset(report, CAPACITY);
    let (setup, call) = (capacity_setup(CAPACITY), capacity::Call::Evict { unit: 0 });
    let tried = Try { setup, capabilities: 0x0100_0801, call };
    forms.into_iter().for_each(|form| tried.form(&mut c, form));
}
