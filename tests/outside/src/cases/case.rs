//! One case: a controller with lent memory, and calls with what they must give.

use super::{Report, Side};
use crate::controller::{Bandwidth, Capacity, Controller};
use crate::image::Image;
use crate::memory::Memory;
use crate::model::access::{ALLOC_CTL, MON_CTL, OPERAND};
use crate::model::registers::{CONFIG_LIMIT, FLUSH_RCID, READ_LIMIT, STATUS};
use crate::model::{bandwidth, capacity, Answer, Checked, CommonCall, Performs};

pub struct Case<'a, C: Controller> {
    report: &'a mut Report,
    memory: Memory,
    marker: std::marker::PhantomData<C>,
}

pub type BandwidthCase<'a> = Case<'a, Bandwidth>;
pub type CapacityCase<'a> = Case<'a, Capacity>;

/// Words of the bandwidth controller's record, by number.
pub mod bandwidth_record {
    pub const W: usize = 6;
    pub const ALLOC_CTL_WORD: usize = 9;
    pub const POOL: usize = 11;
}

/// Words of the capacity controller's record, by number.
pub mod capacity_record {
    pub const MON_CTL_WORD: usize = 6;
    pub const MON_CTR_VAL_WORD: usize = 7;
    pub const ALLOC_CTL_WORD: usize = 8;
    pub const BLOCK_MASK_WORD: usize = 9;
}

/// What lent memory holds before the first reset.
const OLD_BYTE: u8 = 0xA5;

/// How far from a whole word's address it begins.
const SKEW: usize = 1;

impl<'a, C: Controller> Case<'a, C> {
    /// A case on memory of these lengths.
    pub fn new(report: &'a mut Report, lengths: &[usize]) -> Case<'a, C> {
        let contents: Vec<Vec<u8>> = lengths.iter().map(|&n| vec![OLD_BYTE; n]).collect();
        Case { report, memory: Memory::new(&contents, SKEW), marker: std::marker::PhantomData }
    }

    /// A case on memory that fits a set-up, after a reset to it.
    fn reset_to(report: &'a mut Report, setup: C::Setup) -> Case<'a, C> {
        let mut case = Case::new(report, &C::State::lengths(&setup));
        case.answers("reset", &C::Call::reset(setup), 0);
        case
    }

    pub fn call(&mut self, call: &C::Call) -> Answer {
        match self.report.side {
            Side::Model => self.on_model(call),
            Side::Library => self.on_library(call),
        }
    }

    fn on_model(&mut self, call: &C::Call) -> Answer {
        let mut state = C::State::of(&self.memory.contents());
        let answer = state.perform(&self.memory.lengths(), call);
        if answer.refusal == 0 {
            self.memory = Memory::new(&state.bytes(), SKEW);
        }
        answer
    }

    fn on_library(&mut self, call: &C::Call) -> Answer {
        let answer = C::on_library(&mut self.memory, call);
        self.report.expect("guards", self.memory.guards_are_intact() as u64, 1);
        answer
    }

    /// A call, and all that it hands back.
    fn expect(&mut self, name: &str, call: &C::Call, expected: Answer) {
        let got = self.call(call);
        let mut number = |what, got, expected| {
            self.report.expect(&format!("{name}, {what}"), got, expected);
        };
        number("refusal", got.refusal, expected.refusal);
        number("value", got.value, expected.value);
        number("reserved bytes", got.grant.reserved, expected.grant.reserved);
        number("pool bytes", got.grant.pool, expected.grant.pool);
    }

    /// An accepted call, and the value that it hands back.
    pub fn answers(&mut self, name: &str, call: &C::Call, value: u64) {
        self.expect(name, call, Answer::value(value));
    }

    /// A refused call: its number, 0 in all that is handed back, and no byte changed.
    pub fn refuses(&mut self, name: &str, call: &C::Call, number: u64) {
        let before = self.memory.clone();
        self.expect(name, call, Answer::refused(number));
        self.report.expect(&format!("{name}, unchanged"), (self.memory == before) as u64, 1);
    }

    pub fn read(&mut self, name: &str, size: u64, offset: u64, value: u64) {
        self.answers(name, &C::Call::read(size, offset), value);
    }

    pub fn write(&mut self, size: u64, offset: u64, value: u64) {
        self.answers("write", &C::Call::write(size, offset, value), 0);
    }

    /// A write that changes these words of the record and nothing else, each to the value given.
    pub fn write_changes(&mut self, name: &str, write: [u64; 3], changes: &[(usize, u64)]) {
        let [size, offset, value] = write;
        let changes: Vec<_> = changes.iter().map(|&(word, value)| (0, word, value)).collect();
        self.changes(name, &C::Call::write(size, offset, value), &changes);
    }

    /// An accepted call that changes these words, by slice and index, and nothing else.
    pub fn changes(&mut self, name: &str, call: &C::Call, changes: &[(usize, usize, u64)]) {
        let mut expected = self.memory.contents();
        for &(region, word, value) in changes {
            let width = C::REGIONS[region].1;
            let part = &mut expected[region][width * word..width * (word + 1)];
            part.copy_from_slice(&value.to_le_bytes()[..width]);
        }
        self.refusal(name, call, 0);
        let same = self.memory.contents() == expected;
        self.report.expect(&format!("{name}, these words and no others"), same as u64, 1);
    }

    /// Writes alloc_ctl and expects its STATUS.
    pub fn alloc(&mut self, name: &str, value: u64, status: u64) {
        self.operation(name, ALLOC_CTL, value, status);
    }

    /// Writes mon_ctl and expects its STATUS.
    pub fn mon(&mut self, name: &str, value: u64, status: u64) {
        self.operation(name, MON_CTL, value, status);
    }

    /// Writes a control register and expects its STATUS.
    pub fn operation(&mut self, name: &str, offset: u64, value: u64, status: u64) {
        self.write(8, offset, value);
        let answer = self.call(&C::Call::read(8, offset));
        self.report.expect(name, STATUS.get(answer.value), status);
    }

    /// Writes an operand and alloc_ctl, and expects what alloc_ctl then reads.
    pub fn operates(&mut self, name: &str, operand: u64, control: u64, word: u64) {
        self.write(8, OPERAND, operand);
        self.write(8, ALLOC_CTL, control);
        self.read(name, 8, ALLOC_CTL, word);
    }

    /// Writes an operand and CONFIG_LIMIT for a pair, and expects its STATUS.
    pub fn configure(&mut self, name: &str, pair: (u64, u64), operand: u64, status: u64) {
        self.write(8, OPERAND, operand);
        self.alloc(name, pair.0 << 8 | pair.1 << 5 | CONFIG_LIMIT, status);
    }

    /// READ_LIMIT of a pair, which always ends in 1, and the operand register after it.
    pub fn read_limit(&mut self, name: &str, pair: (u64, u64), value: u64) {
        self.alloc(name, pair.0 << 8 | pair.1 << 5 | READ_LIMIT, 1);
        self.read(name, 8, OPERAND, value);
    }

    /// A call's refusal, whatever else it does.
    pub fn refusal(&mut self, name: &str, call: &C::Call, number: u64) {
        let answer = self.call(call);
        self.report.expect(name, answer.refusal, number);
    }

    /// A word of the record or of a table, and what it must be.
    pub fn word(&mut self, name: &str, region: usize, index: usize, expected: u64) {
        let word = self.load(region, index);
        self.report.expect(name, word, expected);
    }

    /// Reads a word of the memory, as its owner may.
    pub fn load(&self, region: usize, index: usize) -> u64 {
        let width = C::REGIONS[region].1;
        let mut bytes = [0; 8];
        let part = &self.memory.region(region)[width * index..width * (index + 1)];
        bytes[..width].copy_from_slice(part);
        u64::from_le_bytes(bytes)
    }

    /// Writes a word of the memory, as its owner may.
    pub fn store(&mut self, region: usize, index: usize, value: u64) {
        let width = C::REGIONS[region].1;
        let part = &mut self.memory.region_mut(region)[width * index..width * (index + 1)];
        part.copy_from_slice(&value.to_le_bytes()[..width]);
    }

    /// Runs a part of the case, then puts the memory back as it was.
    pub fn aside(&mut self, part: impl FnOnce(&mut Self)) {
        let kept = self.memory.clone();
        part(self);
        self.memory = kept;
    }

    /// Lends a slice with another length from here on.
    pub fn lend_length(&mut self, region: usize, length: usize) {
        self.memory = self.memory.with_length(region, length);
    }

    pub fn lengths(&self) -> Vec<usize> {
        self.memory.lengths()
    }
}

impl<'a> Case<'a, Bandwidth> {
    /// NBWBLKS, MRBWB, NR, NA, NM, Q, W, as in the paper's line `s`; the memory fits and is reset.
    pub fn after_reset(report: &'a mut Report, numbers: [u64; 7]) -> BandwidthCase<'a> {
        Case::reset_to(report, bandwidth_setup(numbers))
    }

    /// RCID, MCID, AT, kind and bytes, as in the paper's line `q`; reserved bytes and pool bytes.
    pub fn request(&mut self, name: &str, arguments: [u64; 5], grant: (u64, u64)) {
        let call = bandwidth::Call::Request(request_of(arguments));
        self.expect(name, &call, Answer::granted(grant.0, grant.1));
    }

    /// Mode, word, AT, kind and bytes of a device's request; reserved bytes and pool bytes.
    pub fn device_request(&mut self, name: &str, arguments: [u64; 5], grant: (u64, u64)) {
        self.expect(name, &device_request(arguments), Answer::granted(grant.0, grant.1));
    }

    /// RCID, MCID, AT, kind and bytes of a request that is put to wait.
    pub fn wait(&mut self, name: &str, arguments: [u64; 5]) {
        self.answers(name, &wait(arguments), 0);
    }

    /// The bytes that the request of an RCID waits for.
    pub fn need(&mut self, name: &str, rcid: u64, need: u64) {
        self.answers(name, &bandwidth::Call::Need { rcid }, need);
    }

    pub fn end_window(&mut self) {
        self.answers("end of a window", &bandwidth::Call::EndWindow, 0);
    }
}

pub fn bandwidth_setup(numbers: [u64; 7]) -> bandwidth::Setup {
    let [nbwblks, mrbwb, nr, na, nm, q, w] = numbers;
    bandwidth::Setup { nbwblks, mrbwb, nr, na, nm, q, w }
}

fn request_of([rcid, mcid, at, kind, bytes]: [u64; 5]) -> bandwidth::Request {
    bandwidth::Request { rcid, mcid, at, kind, bytes: bytes as u32 }
}

pub fn wait(arguments: [u64; 5]) -> bandwidth::Call {
    bandwidth::Call::Wait(request_of(arguments))
}

pub fn device_request([mode, word, at, kind, bytes]: [u64; 5]) -> bandwidth::Call {
    let bytes = bytes as u32;
    bandwidth::Call::DeviceRequest(bandwidth::DeviceRequest { mode, word, at, kind, bytes })
}

impl<'a> Case<'a, Capacity> {
    /// NCBLKS, NR, NA, NM, W, U; the memory fits and is reset.
    pub fn after_reset(report: &'a mut Report, numbers: [u64; 6]) -> CapacityCase<'a> {
        Case::reset_to(report, capacity_setup(numbers))
    }

    /// A fill by RCID, MCID, AT and unit; 1 is allowed.
    pub fn fill(&mut self, name: &str, arguments: [u64; 4], allowed: u64) {
        self.answers(name, &fill(arguments), allowed);
    }

    pub fn evict(&mut self, unit: u64) {
        self.answers("eviction", &capacity::Call::Evict { unit }, 0);
    }

    /// FLUSH_RCID of an RCID that exists.
    pub fn flush(&mut self, name: &str, rcid: u64) {
        self.alloc(name, rcid << 8 | FLUSH_RCID, 1);
    }
}

pub fn capacity_setup(numbers: [u64; 6]) -> capacity::Setup {
    let [ncblks, nr, na, nm, w, u] = numbers;
    capacity::Setup { ncblks, nr, na, nm, w, u }
}

pub fn fill([rcid, mcid, at, unit]: [u64; 4]) -> capacity::Call {
    capacity::Call::Fill(capacity::Fill { rcid, mcid, at, unit })
}
