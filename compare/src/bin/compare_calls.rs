//! Drives all calls for C that take a form, each on the same generated inputs: accepted forms of every kind, faulty and
//! damaged ones, noise, and forms at the limits and just past them.
//!
//!     compare_calls [SEED [INPUTS]] -- PROGRAM WORD..
//!
//! Of every input the verdict, the form written back, the conflict list, the full walk and both sweeps are asked, each with
//! lent memory that is not there, too short, exact or longer, by chance, and with a pattern in it. Answers, routes, lists,
//! rows and untouched bytes are held to the second program's. Then the two ways are held to each other: wherever both answer,
//! iterations, weight, bound, least, least total and both routes are the same (`compare_ways` does it where there are too many
//! ways to list).

use std::process::ExitCode;

use by_listing::calls::Listing;
use by_listing::driver::{agree, Comparison, Form};
use by_listing::form::MOST_BLOCKS;
use by_listing::generate::mixed;
use by_listing::random::Random;
use by_listing::report::BUDGET;
use by_listing::rows::ROW_ENTRIES;
use by_listing::served::{Call, Question};

const INPUTS: u64 = 50_000;

/// What `somniaret.h` says that a call needs at most.
const STATED_STACK: u64 = 176 << 10;

fn main() -> ExitCode {
    let calls = [Call::Verdict, Call::Rewrite, Call::Conflicts, Call::Walk, Call::Sweep, Call::SweepTable];
    let mut comparison = Comparison::start("compare_calls", INPUTS, &calls);
    for form in comparison.forms(mixed) {
        compare(&mut comparison, form);
    }
    let stack = vec![Question::of(Call::Stack, [0; 4])];
    comparison.ask("the stack that the calls took".to_string(), stack, |_, answers, _| {
        let [bytes, ..] = answers[0].numbers;
        println!("the calls took at most {bytes} bytes of stack");
        let is_stated = bytes > 0 && bytes <= STATED_STACK;
        is_stated.then_some(()).ok_or_else(|| format!("{bytes} bytes, and the header says at most {STATED_STACK}"))
    });
    let of_a_form = [10, 11, 12, 13, 14, 15, 16, 17, 18, 19, 0];
    comparison.finish(&[
        (Call::Verdict, &of_a_form),
        (Call::Rewrite, &[&of_a_form[..], &[42]].concat()),
        (Call::Conflicts, &[&of_a_form[..], &[42]].concat()),
        (Call::Walk, &[&of_a_form[..], &[20, 41, 42]].concat()),
        (Call::Sweep, &[&of_a_form[..], &[20, 40, 42, 44]].concat()),
        (Call::SweepTable, &[&of_a_form[..], &[20, 40, 42, 44]].concat()),
    ])
}

/// So much lent, where so much is needed: nothing, too little, exactly enough or more.
fn lent(random: &mut Random, needed: usize) -> Option<usize> {
    match random.below(8) {
        0 => None,
        1 => Some(random.below(needed.max(1))),
        2 => needed.checked_sub(1),
        3 | 4 => Some(needed),
        _ => Some(needed + 1 + random.below(64)),
    }
}

fn compare(comparison: &mut Comparison, form: Form) {
    let Form { what, bytes: form, seed } = form;
    let mut random = Random::new(seed);
    let listing = Listing::of(&form);
    let blocks = listing.body().map_or(0, |body| body.block_count);
    let listed = listing.list().map_or(0, |list| 5 * list.len());
    let walked = listing.walked().unwrap_or(0) as u32;
    let budget = match random.below(4) {
        0 => walked.saturating_sub(1),
        1 => walked,
        2 => BUDGET,
        _ => random.below(walked as usize + 2) as u32,
    };
    let random = &mut random;
    let questions = vec![
        Question::on(Call::Verdict, &form),
        Question::on(Call::Rewrite, &form).out(lent(random, form.len())),
        Question::on(Call::Conflicts, &form).out(lent(random, listed)),
        Question::on(Call::Walk, &form).budget(budget).out(lent(random, 2 * blocks)),
        Question::on(Call::Sweep, &form).out(lent(random, 2 * blocks)),
        Question::on(Call::SweepTable, &form)
            .table(lent(random, ROW_ENTRIES * blocks))
            .out(lent(random, 2 * blocks)),
    ];
    comparison.compare(what.clone(), &listing, questions);

    let walk = Question::on(Call::Walk, &form).budget(BUDGET).out(Some(2 * MOST_BLOCKS));
    let sweep = Question::on(Call::Sweep, &form).out(Some(2 * MOST_BLOCKS));
    comparison.ask(what, vec![walk, sweep], move |_, answers, met| {
        let [walk, sweep] = answers else { panic!("two were asked") };
        met.note("an answer both ways", walk.numbers[0] == 0 && sweep.numbers[0] == 0);
        agree("walk and sweep", [walk, sweep], blocks, 7, &[40, 41, 44])
    });
}
