//! Many lists of calls on one controller, from a seed.

use std::collections::VecDeque;

use crate::controller::Controller;
use crate::coverage::Coverage;
use crate::generator::{another_reset, opening, Random, Step};
use crate::model::Checked;
use crate::session::{hexadecimal, Session};

/// The first difference of a list: the steps up to it, and what differed.
pub struct Failure<C: Controller> {
    pub seed: u64,
    pub setup: C::Setup,
    pub steps: Vec<Step<C::Call>>,
    pub text: String,
}

/// Makes at least this many calls, in lists whose seeds come from the given one.
pub fn run<C: Controller>(
    seed: u64,
    calls: u64,
    coverage: &mut Coverage,
) -> Result<(), Failure<C>> {
    let mut seeds = Random::new(seed);
    let end = coverage.calls + calls;
    while coverage.calls < end {
        run_list::<C>(seeds.next(), coverage)?;
    }
    Ok(())
}

fn run_list<C: Controller>(seed: u64, coverage: &mut Coverage) -> Result<(), Failure<C>> {
    let mut random = Random::new(seed);
    let mut session = Session::<C>::new();
    let mut waiting = VecDeque::from(opening::<C>(&mut random));
    let mut steps = Vec::new();
    let quiet = random.percent(50);
    let mut budget = random.between(20, 400) as f64;
    while budget > 0.0 {
        let step = match waiting.pop_front() {
            Some(step) => step,
            None => {
                waiting.extend(further_steps(&mut random, &session, quiet));
                continue;
            }
        };
        // a call on the largest tables costs as much as many on small ones
        budget -= 1.0 + session.lengths().iter().sum::<usize>() as f64 / 2000.0;
        let outcome = session.take(&step, coverage);
        steps.push(step);
        if let Err(text) = outcome {
            let setup = *session.state().setup();
            return Err(Failure { seed, setup, steps, text });
        }
    }
    coverage.lists += 1;
    Ok(())
}

fn further_steps<C: Controller>(
    random: &mut Random,
    session: &Session<C>,
    quiet: bool,
) -> Vec<Step<C::Call>> {
    // without a reset the ledger would not follow the calls again
    if !session.is_followed() && random.percent(20) {
        return another_reset::<C>(random, session.state().setup());
    }
    C::scenario(random, session.state(), &session.lengths(), quiet)
}

/// The error of a list, if it has one.
fn replay<C: Controller>(steps: &[Step<C::Call>]) -> Option<String> {
    let mut session = Session::<C>::new();
    let mut coverage = Coverage::default();
    steps.iter().find_map(|step| session.take(step, &mut coverage).err())
}

impl<C: Controller> Failure<C> {
    /// Prints the seed, the place in its list, and a shorter list that differs too.
    pub fn print(&self) {
        let (name, index) = (C::NAME, self.steps.len() - 1);
        println!("{name}: the list of seed {:#x} differs at step {index}", self.seed);
        println!("  {:?}", self.setup);
        println!("  {}", self.text);
        let steps = self.shortened();
        println!("the shortest list found, of {} steps:", steps.len());
        for (index, step) in steps.iter().enumerate() {
            print_step::<C>(index, step);
        }
        println!("  {}", replay::<C>(&steps).unwrap_or_default());
    }

    /// Leaves out each step without which the rest still differs.
    fn shortened(&self) -> Vec<Step<C::Call>> {
        let mut steps = self.steps.clone();
        for index in (0..steps.len()).rev() {
            let mut fewer = steps.clone();
            fewer.remove(index);
            if replay::<C>(&fewer).is_some() {
                steps = fewer;
            }
        }
        steps
    }
}

fn print_step<C: Controller>(index: usize, step: &Step<C::Call>) {
    let (contents, skew) = match step {
        Step::Lend { contents, skew } => (contents, skew),
        _ => return println!("  {index}: {step:x?}"),
    };
    println!("  {index}: lend, skew {skew}");
    for ((name, width), bytes) in C::REGIONS.iter().zip(contents) {
        let words: Vec<String> = bytes.chunks(*width).take(24).map(hexadecimal).collect();
        println!("     {name}, {} bytes: {}", bytes.len(), words.join(" "));
    }
}
