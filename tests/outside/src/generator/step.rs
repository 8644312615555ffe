//! One step of a list: a call, or what happens to the lent memory between calls.

use crate::memory::Memory;
use crate::model::CommonCall;

#[derive(Clone, Debug)]
pub enum Step<C> {
    Call(C),
    /// A call with one slice lent with another length.
    WrongLength {
        region: usize,
        length: usize,
        call: C,
    },
    /// A call on changed memory; if it is refused, the change is undone.
    Damaged {
        changes: Vec<Change>,
        call: C,
    },
    /// A change that stays.
    Change(Vec<Change>),
    /// Other memory is lent from here on.
    Lend {
        contents: Vec<Vec<u8>>,
        skew: usize,
    },
}

impl<C: CommonCall> Step<C> {
    /// A write, by size, offset and value.
    pub fn write((size, offset, value): (u64, u64, u64)) -> Step<C> {
        Step::Call(C::write(size, offset, value))
    }

    pub fn read(size: u64, offset: u64) -> Step<C> {
        Step::Call(C::read(size, offset))
    }
}

/// A change of a lent slice, at a byte of it.
#[derive(Clone, Copy, Debug)]
pub struct Change {
    pub region: usize,
    pub at: usize,
    pub kind: Kind,
}

#[derive(Clone, Copy, Debug)]
pub enum Kind {
    FlipBit(u32),
    Store { width: usize, value: u64 },
}

impl Change {
    /// Stores a word by its index in a slice whose words have this width.
    pub fn word(region: usize, width: usize, index: usize, value: u64) -> Change {
        Change { region, at: index * width, kind: Kind::Store { width, value } }
    }

    /// Makes the change; one beyond the slice does nothing.
    pub fn apply(&self, memory: &mut Memory) {
        let slice = memory.region_mut(self.region);
        match self.kind {
            Kind::FlipBit(bit) if self.at < slice.len() => slice[self.at] ^= 1 << bit,
            Kind::Store { width, value } if self.at + width <= slice.len() => {
                slice[self.at..self.at + width].copy_from_slice(&value.to_le_bytes()[..width]);
            }
            _ => {}
        }
    }
}
