//! A group of comparisons, which counts as one test.

use crate::compare::Compared;
use crate::judge::Fault;
use std::collections::BTreeMap;

/// How many differences of a group are told.
const TOLD: u64 = 3;

#[derive(Default)]
pub struct Group {
    compared: u64,
    differing: u64,
    /// How often each number was due, 0 for success.
    due: BTreeMap<u64, u64>,
}

impl Group {
    /// Counts a compared call; hands on what it gave on success.
    pub fn take<T>(&mut self, compared: Compared<T>) -> Option<T> {
        self.verdict(compared).and_then(Result::ok)
    }

    /// Counts a compared call; hands on its success or its refusal, unless the call differed from
    /// what was due.
    pub fn verdict<T>(&mut self, compared: Compared<T>) -> Option<Result<T, Fault>> {
        self.compared += 1;
        match compared {
            Ok(outcome) => {
                let number = outcome.as_ref().err().map_or(0, |fault| fault.number);
                *self.due.entry(number).or_default() += 1;
                Some(outcome)
            }
            Err(what) => {
                self.differ(&what);
                None
            }
        }
    }

    /// Counts one more comparison, told by `what` if it fails.
    pub fn agree(&mut self, holds: bool, what: impl FnOnce() -> String) {
        self.compared += 1;
        if !holds {
            self.differ(&what());
        }
    }

    /// Inputs that miss what they are made for would show nothing: each of these numbers must have
    /// been due `times` at least.
    pub fn must_have_seen(&mut self, numbers: &[u64], times: u64) {
        for number in numbers {
            let seen = self.due.get(number).copied().unwrap_or(0);
            self.agree(seen >= times, || format!("{number} was due {seen} times only"));
        }
    }

    fn differ(&mut self, what: &str) {
        self.differing += 1;
        if self.differing <= TOLD {
            println!("difference: {what}");
        }
    }

    pub fn passed(&self) -> bool {
        self.differing == 0
    }

    pub fn summary(&self) -> String {
        format!("{} comparisons, {} differences", self.compared, self.differing)
    }
}
