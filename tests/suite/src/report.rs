//! Counting: every case passes or prints a line of its own, every group prints one line.

use std::fmt::Debug;
use std::panic::{catch_unwind, AssertUnwindSafe};

/// The outcome of one case; a failure says what was expected and what came.
pub type Outcome = Result<(), String>;

/// The cases of one group.
pub struct Group {
    name: String,
    passed: usize,
    failed: usize,
}

impl Group {
    pub fn new(name: impl Into<String>) -> Group {
        Group {
            name: name.into(),
            passed: 0,
            failed: 0,
        }
    }

    /// Runs and counts a case; a panic in it is a failure.
    pub fn case(&mut self, name: &str, case: impl FnOnce() -> Outcome) {
        let outcome = catch_unwind(AssertUnwindSafe(case));
        match outcome.unwrap_or_else(|_| Err("panicked".to_string())) {
            Ok(()) => self.passed += 1,
            Err(text) => {
                self.failed += 1;
                println!("FAILED {}: {name}: {text}", self.name);
            }
        }
    }

    /// Prints the group's line and adds it to the sums.
    pub fn finish(self, sums: &mut Sums) {
        match self.failed {
            0 => println!("{}: {} passed", self.name, self.passed),
            failed => println!("{}: {} passed, {failed} failed", self.name, self.passed),
        }
        sums.passed += self.passed;
        sums.failed += self.failed;
    }
}

/// The sums over all groups.
#[derive(Default)]
pub struct Sums {
    pub passed: usize,
    pub failed: usize,
}

/// Compares what came with what was expected.
pub fn equal<T: PartialEq + Debug>(what: &str, expected: &T, got: &T) -> Outcome {
    match expected == got {
        true => Ok(()),
        false => Err(format!("{what}: expected {expected:?}, got {got:?}")),
    }
}

/// Demands that something holds.
pub fn demand(holds: bool, otherwise: &str) -> Outcome {
    match holds {
        true => Ok(()),
        false => Err(otherwise.to_string()),
    }
}
