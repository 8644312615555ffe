//! One list of calls, each made on the model and through the C interface, and compared.

use crate::controller::Controller;
use crate::coverage::{labels, wrong_length, Coverage};
use crate::generator::{Change, Step};
use crate::image::Image;
use crate::ledger::{follow, Ledger};
use crate::memory::Memory;
use crate::model::{Answer, CommonCall, Performs};

pub struct Session<C: Controller> {
    memory: Memory,
    state: C::State,
    /// None from a change of the memory by others until the next accepted reset.
    ledger: Option<C::Ledger>,
}

impl<C: Controller> Session<C> {
    /// A list begins with memory that is lent; an empty record stands for none.
    pub fn new() -> Session<C> {
        let contents = vec![Vec::new(); C::REGIONS.len()];
        let state = C::State::of(&contents);
        Session { memory: Memory::new(&contents, 0), state, ledger: None }
    }

    pub fn state(&self) -> &C::State {
        &self.state
    }

    /// Whether the ledger follows the calls.
    pub fn is_followed(&self) -> bool {
        self.ledger.is_some()
    }

    pub fn lengths(&self) -> Vec<usize> {
        self.memory.lengths()
    }

    /// Takes one step; the error says what differed.
    pub fn take(&mut self, step: &Step<C::Call>, coverage: &mut Coverage) -> Result<(), String> {
        match step {
            Step::Call(call) => self.call(call, coverage).map(|_| ()),
            Step::WrongLength { region, length, call } => {
                self.call_with_length(*region, *length, call, coverage)
            }
            Step::Damaged { changes, call } => self.damaged_call(changes, call, coverage),
            Step::Change(changes) => {
                self.change(changes);
                Ok(())
            }
            Step::Lend { contents, skew } => {
                self.replace(Memory::new(contents, *skew));
                Ok(())
            }
        }
    }

    /// Other memory, whose contents no call of the list has left.
    fn replace(&mut self, memory: Memory) {
        self.state = C::State::of(&memory.contents());
        self.memory = memory;
        self.ledger = None;
    }

    fn change(&mut self, changes: &[Change]) {
        let mut memory = self.memory.clone();
        changes.iter().for_each(|change| change.apply(&mut memory));
        self.replace(memory);
    }

    fn call(&mut self, call: &C::Call, coverage: &mut Coverage) -> Result<Answer, String> {
        let before = self.state.clone();
        let contents = self.memory.contents();
        let expected = self.state.perform(&self.memory.lengths(), call);
        let contents = if expected.refusal == 0 { self.state.bytes() } else { contents };
        compare::<C>(&mut self.memory, call, expected, &contents)?;
        coverage.note(labels::<C>(&before, call, expected, &self.state));
        follow(&mut self.ledger, call, expected, &self.state)?;
        coverage.calls += 1;
        if let Some(ledger) = &self.ledger {
            coverage.claimed += 1;
            if expected.refusal == 0 {
                coverage.note(ledger.shown(call));
            }
        }
        Ok(expected)
    }

    /// Lends one slice with another length for this call; if it is refused, the memory stays.
    fn call_with_length(
        &mut self,
        region: usize,
        length: usize,
        call: &C::Call,
        coverage: &mut Coverage,
    ) -> Result<(), String> {
        let kept = (self.memory.clone(), self.state.clone(), self.ledger.take());
        self.replace(self.memory.with_length(region, length));
        let answer = self.call_and_restore(kept, call, coverage)?;
        if answer.refusal != 0 && call.as_reset().is_none() {
            coverage.note(vec![wrong_length(C::REGIONS[region].0, answer.refusal)]);
        }
        Ok(())
    }

    /// Changes the memory for this call; if it is refused, the change is undone.
    fn damaged_call(
        &mut self,
        changes: &[Change],
        call: &C::Call,
        coverage: &mut Coverage,
    ) -> Result<(), String> {
        let kept = (self.memory.clone(), self.state.clone(), self.ledger.take());
        self.change(changes);
        self.call_and_restore(kept, call, coverage).map(|_| ())
    }

    fn call_and_restore(
        &mut self,
        kept: (Memory, C::State, Option<C::Ledger>),
        call: &C::Call,
        coverage: &mut Coverage,
    ) -> Result<Answer, String> {
        let answer = self.call(call, coverage)?;
        if answer.refusal != 0 {
            (self.memory, self.state, self.ledger) = kept;
        }
        Ok(answer)
    }
}

/// Makes the call through the C interface; what it answers and leaves must be what is expected.
fn compare<C: Controller>(
    memory: &mut Memory,
    call: &C::Call,
    expected: Answer,
    contents: &[Vec<u8>],
) -> Result<(), String> {
    let got = C::on_library(memory, call);
    if expected != got {
        return Err(format!("the model answers {expected:x?}, the library {got:x?}"));
    }
    compare_memory::<C>(contents, memory)
}

/// Every byte of the record and of every table, and the bytes around them.
fn compare_memory<C: Controller>(expected: &[Vec<u8>], memory: &Memory) -> Result<(), String> {
    if !memory.guards_are_intact() {
        return Err("the library wrote outside its slices".into());
    }
    for (index, bytes) in expected.iter().enumerate() {
        let got = memory.region(index);
        if bytes == got {
            continue;
        }
        let (name, width) = C::REGIONS[index];
        let word = bytes.iter().zip(got).position(|(a, b)| a != b).unwrap_or(0) / width;
        let part = word * width..(word + 1) * width;
        return Err(format!(
            "{name}, word {word}: the model has {}, the library {}",
            hexadecimal(&bytes[part.clone()]),
            hexadecimal(&got[part])
        ));
    }
    Ok(())
}

/// A little-endian word, highest digit first.
pub fn hexadecimal(bytes: &[u8]) -> String {
    bytes.iter().rev().fold("0x".to_string(), |text, byte| text + &format!("{byte:02x}"))
}
