//! Compares the proved full walk with the second program's: iterations, weight, bound, least, least total, walked, the bytes
//! of both routes, refusals.
//!
//!     compare_walk [SEED [INPUTS]] -- PROGRAM WORD..
//!
//! Every body is walked with budgets of one less than is walked, as much, one more, none, the most and others; the bytes lent
//! for the routes are not there, too few, enough for one route alone, exact and more. Bodies of 99,999, 100,000 and 100,001
//! beginnings, and a crowded one of more, are walked with the report's budget too.

use std::process::ExitCode;

use by_listing::calls::Listing;
use by_listing::driver::{Comparison, Form};
use by_listing::example::trainer_counter;
use by_listing::form::{parts_bytes, MOST_BLOCKS};
use by_listing::generate::mostly_small;
use by_listing::made::{open_tests_and_a_way_round, with_beginnings};
use by_listing::random::Random;
use by_listing::report::BUDGET;
use by_listing::served::{Call, Question};
use by_listing::shapes::note_routes;

const INPUTS: u64 = 28_000;

fn main() -> ExitCode {
    let mut comparison = Comparison::start("compare_walk", INPUTS, &[Call::Walk]);
    compare_at_the_budget(&mut comparison);
    for form in comparison.forms(mostly_small) {
        compare(&mut comparison, form);
    }
    let of_the_walk = [0, 10, 11, 12, 13, 14, 15, 16, 17, 18, 19, 20, 41, 42];
    comparison.finish(&[(Call::Walk, &of_the_walk)])
}

/// The report's budget exactly met and passed by one: the report itself sweeps no body of so many beginnings.
fn compare_at_the_budget(comparison: &mut Comparison) {
    let over = [41, BUDGET as u64, 0, 0, 0, 0, 0, 0];
    let bodies = [
        ("99,999 beginnings", with_beginnings(99_999), None),
        ("100,000 beginnings", with_beginnings(100_000), None),
        ("100,001 beginnings", with_beginnings(100_001), Some(over)),
        ("16 tests open at once", open_tests_and_a_way_round(16), Some(over)),
    ];
    for (what, parts, refused) in bodies {
        let form = parts_bytes(&trainer_counter(), &parts);
        let question = Question::on(Call::Walk, &form).budget(BUDGET).out(Some(2 * MOST_BLOCKS));
        let answers = comparison.compare(what.to_string(), &Listing::of(&form), vec![question]);
        let is_wanted = answers.first().is_some_and(|numbers| match refused {
            Some(refused) => *numbers == refused,
            None => numbers[0] == 0,
        });
        comparison.tally.check(is_wanted, || format!("{what}, by the second program: {answers:?}"));
    }
}

fn compare(comparison: &mut Comparison, form: Form) {
    let Form { what, bytes: form, seed } = form;
    let mut random = Random::new(seed);
    let listing = Listing::of(&form);
    let blocks = listing.body().map_or(0, |body| body.block_count);
    let walked = listing.walked().unwrap_or(0) as u32;
    comparison.met.note("1 to 9 blocks", (1..10).contains(&blocks));
    comparison.met.note("10 to 24 blocks", (10..=24).contains(&blocks));
    comparison.met.note("25 to 64 blocks", blocks > 24);
    comparison.met.note("more than 100 beginnings", walked > 100);

    if let (Ok(body), Ok(_)) = (listing.body(), listing.walked()) {
        note_routes(&mut comparison.met, body);
    }

    let bytes = 2 * blocks;
    let fewer_bytes = random.below(bytes.max(1));
    let more_bytes = bytes + 1 + random.below(2 * MOST_BLOCKS);
    let enough = random.pick(&[bytes, more_bytes]);
    let any_budget = random.draw() as u32;
    let fewer = random.below(walked.max(1) as usize) as u32;
    let asked = [
        (walked.saturating_sub(1), Some(enough)),
        (walked, Some(bytes)),
        (walked, Some(more_bytes)),
        (walked + 1, Some(enough)),
        (0, Some(bytes)),
        (fewer, Some(more_bytes)),
        (any_budget, Some(enough)),
        (random.pick(&[1 << 8, 1 << 16, 1 << 24, 1 << 31]), Some(enough)),
        (BUDGET, Some(2 * MOST_BLOCKS)),
        (u32::MAX, Some(enough)),
        (u32::MAX, None),
        (fewer, Some(0)),
        (walked, bytes.checked_sub(1)),
        (walked, Some(blocks)),
        (any_budget, Some(fewer_bytes)),
    ];
    let question = |(budget, lent)| Question::on(Call::Walk, &form).budget(budget).out(lent);
    comparison.compare(what, &listing, asked.map(question).to_vec());
}
