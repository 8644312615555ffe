//! Cases whose expected numbers were written by hand from the papers. Each is run on the model, so
//! that the model is tested too, and through the C interface.

mod bandwidth;
mod capacity;
mod case;
mod codes;
mod devices;
mod flush;
mod forms;
mod grants;
mod paper;
mod published;
mod refusals;
mod served;
mod sweep;
mod units;
mod waiters;
mod weights;

/// Who answers the calls of a case.
#[derive(Clone, Copy, Debug, PartialEq, Eq)]
pub enum Side {
    Model,
    Library,
}

/// How many unmet expectations are printed on each side.
const PRINTED: u64 = 20;

/// Counts expectations and prints the first that are not met.
pub struct Report {
    side: Side,
    expectations: u64,
    failed: u64,
}

impl Report {
    fn new(side: Side) -> Report {
        Report { side, expectations: 0, failed: 0 }
    }

    fn expect(&mut self, name: &str, got: u64, expected: u64) {
        self.expectations += 1;
        if got != expected {
            self.failed += 1;
        }
        if got != expected && self.failed <= PRINTED {
            println!("FAILED on {:?}: {name}: {got:#x}, expected {expected:#x}", self.side);
        }
    }
}

/// Runs every case on one side.
fn all(side: Side) -> Report {
    let mut report = Report::new(side);
    paper::run(&mut report);
    published::run(&mut report);
    bandwidth::run(&mut report);
    grants::run(&mut report);
    weights::run(&mut report);
    devices::run(&mut report);
    waiters::run(&mut report);
    served::run(&mut report);
    capacity::run(&mut report);
    units::run(&mut report);
    flush::run(&mut report);
    codes::run(&mut report);
    forms::run(&mut report);
    refusals::run(&mut report);
    sweep::run(&mut report);
    report
}

/// Runs every case on each side.
pub fn run() -> bool {
    let reports = [Side::Model, Side::Library].map(all);
    for report in &reports {
        let Report { side, expectations, failed } = report;
        println!("cases on {side:?}: {expectations} expectations, {failed} not met");
    }
    reports.iter().all(|report| report.failed == 0)
}

#[cfg(test)]
mod tests {
    use super::*;

    #[test]
    fn the_model_meets_every_case() {
        assert_eq!(all(Side::Model).failed, 0);
    }
}
