//! Compares the proved reader and writer with the second program's: verdicts, places, and bytes read and written back.
//!
//!     compare_form [SEED [INPUTS]] -- PROGRAM WORD..
//!
//! Every input is asked for its verdict, and written back into memory that is not there, too short, exact and longer.

use std::process::ExitCode;

use by_listing::calls::Listing;
use by_listing::driver::{Comparison, Form};
use by_listing::generate::mixed;
use by_listing::random::Random;
use by_listing::served::{Call, Question};

const INPUTS: u64 = 30_000;

fn main() -> ExitCode {
    let mut comparison = Comparison::start("compare_form", INPUTS, &[Call::Verdict, Call::Rewrite]);
    for form in comparison.forms(mixed) {
        compare(&mut comparison, form);
    }
    let of_the_reader = [0, 10, 11, 12, 13, 14, 15, 16, 17, 18, 19];
    let of_the_writer = [&of_the_reader[..], &[42]].concat();
    comparison.finish(&[(Call::Verdict, &of_the_reader), (Call::Rewrite, &of_the_writer)])
}

fn compare(comparison: &mut Comparison, Form { what, bytes: form, seed }: Form) {
    let mut random = Random::new(seed);
    let shorter = random.below(form.len().max(1));
    let longer = form.len() + 1 + random.below(40);
    let lent = [None, Some(0), Some(shorter), form.len().checked_sub(1), Some(form.len()), Some(longer)];
    let mut questions = vec![Question::on(Call::Verdict, &form)];
    questions.extend(lent.map(|lent| Question::on(Call::Rewrite, &form).out(lent)));
    comparison.compare(what, &Listing::of(&form), questions);
}
