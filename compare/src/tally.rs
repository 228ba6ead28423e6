//! Counts what passed and what failed, and ends a program with the line that says so; and what inputs were met.

use std::collections::BTreeMap;
use std::fmt::Debug;
use std::process::ExitCode;

/// So many failures are told in full; the rest is only counted.
const TOLD: u64 = 20;

#[derive(Default)]
pub struct Tally {
    passed: u64,
    failed: u64,
}

impl Tally {
    /// Counts one check; `what` is made only when it failed.
    pub fn check(&mut self, good: bool, what: impl FnOnce() -> String) {
        if good {
            self.passed += 1;
            return;
        }
        self.failed += 1;
        if self.failed <= TOLD {
            println!("FAILED: {}", what());
        }
    }

    pub fn equal<Value: PartialEq + Debug>(&mut self, what: &str, got: Value, wanted: Value) {
        let good = got == wanted;
        self.check(good, || format!("{what}: got {got:?}, wanted {wanted:?}"));
    }

    /// With what another counted.
    pub fn add(&mut self, other: Tally) {
        self.passed += other.passed;
        self.failed += other.failed;
    }

    /// The last line.
    pub fn print(&self) {
        println!("{} passed, {} failed", self.passed, self.failed);
    }

    /// The last line and the exit status: non-zero where anything failed or nothing was checked.
    pub fn finish(self) -> ExitCode {
        self.print();
        if self.failed == 0 && self.passed > 0 {
            ExitCode::SUCCESS
        } else {
            ExitCode::FAILURE
        }
    }
}

/// How many inputs had what a program is to meet.
#[derive(Default)]
pub struct Met(BTreeMap<&'static str, u64>);

impl Met {
    /// Notes whether an input has it. What is asked about is to be met, so it is noted too where it is not.
    pub fn note(&mut self, what: &'static str, is: bool) {
        *self.0.entry(what).or_default() += u64::from(is);
    }

    /// With what another noted.
    pub fn add(&mut self, other: Met) {
        for (what, times) in other.0 {
            *self.0.entry(what).or_default() += times;
        }
    }

    /// Prints the counts, if any, and checks that each is at least so many.
    pub fn finish(self, inputs: &str, tally: &mut Tally, at_least: u64) {
        if self.0.is_empty() {
            return;
        }
        let counts: Vec<String> = self.0.iter().map(|(what, times)| format!("{what}: {times}")).collect();
        println!("{inputs} with {}", counts.join(", "));
        for (what, times) in self.0 {
            tally.check(times >= at_least, || format!("{inputs} with {what} were met {times} times"));
        }
    }
}
