//! The second program's tests of itself. The last line is `N passed, M failed`; the exit status is non-zero when
//! something failed. Expected answers are document 01's own, or worked out by hand and written down here.

mod conflicts;
mod counts;
mod forms;
mod generated;
mod trainer;
mod walks;

use std::process::ExitCode;

use by_listing::form::{parts_bytes, Counter, Parts};
use by_listing::rows::RowEntry;
use by_listing::tally::Tally;

fn main() -> ExitCode {
    let mut tally = Tally::default();
    trainer::run(&mut tally);
    counts::run(&mut tally);
    forms::run(&mut tally);
    conflicts::run(&mut tally);
    walks::run(&mut tally);
    generated::run(&mut tally);
    tally.finish()
}

/// A counter with three iterations.
fn three_iterations() -> Counter {
    Counter { initial: 0, step: 1, relation: by_listing::conflict::LESS, limit: 3 }
}

/// The entry of a set of open edges with one tail, which is the heaviest and the lightest: jump set, fall set, weight, set
/// left by jump or go, set left by fall.
fn one_tail(words: &[u64; 5]) -> RowEntry {
    let [jumps, falls, weight, jumped, fallen] = *words;
    RowEntry::of_words([jumps, falls, weight, jumped, fallen, weight, jumped, fallen])
}

/// The form of a body with three iterations.
fn form_of(parts: &Parts) -> Vec<u8> {
    parts_bytes(&three_iterations(), parts)
}
