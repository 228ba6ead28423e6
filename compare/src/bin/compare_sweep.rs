//! Compares the proved sweep with the second program's: both extremes of every row, iterations, weight, bound, least, least
//! total, kept, both routes, refusals.
//!
//!     compare_sweep [SEED [INPUTS]] -- PROGRAM WORD..
//!
//! Every body is swept over a lent table that is exact and one that is longer, both with a pattern in them beforehand, and
//! over the library's own; and over tables that are not there or too small, by one entry or more, with bytes for the routes
//! that are not there, too few, enough for one route alone, exact and more.

use std::collections::BTreeMap;
use std::process::ExitCode;

use by_listing::calls::Listing;
use by_listing::driver::{Comparison, Form};
use by_listing::form::MOST_BLOCKS;
use by_listing::generate::mostly_small;
use by_listing::random::Random;
use by_listing::rows::ROW_ENTRIES;
use by_listing::served::{Call, Question};
use by_listing::shapes::{note_routes, note_rows};

const INPUTS: u64 = 28_000;

/// What the sweeps of bodies of 10 to 24 blocks were answered with.
#[derive(Default)]
struct Larger {
    kept: BTreeMap<u64, u64>,
    crowded: BTreeMap<u64, u64>,
}

fn main() -> ExitCode {
    let mut comparison = Comparison::start("compare_sweep", INPUTS, &[Call::Sweep, Call::SweepTable]);
    let mut larger = Larger::default();
    for form in comparison.forms(mostly_small) {
        compare(&mut comparison, &mut larger, form);
    }
    let Larger { kept, crowded } = larger;
    println!("bodies of 10 to 24 blocks by kept: {kept:?}");
    println!("bodies of 10 to 24 blocks by crowded block: {crowded:?}");
    comparison.tally.check(kept.contains_key(&64), || "no longest row of 64 was met".to_string());
    comparison.tally.check(kept.len() >= 20, || "few lengths of the longest row were met".to_string());
    comparison.tally.check(crowded.len() >= 4, || "few crowded blocks were met".to_string());
    let of_the_sweep = [0, 10, 11, 12, 13, 14, 15, 16, 17, 18, 19, 20, 40, 42, 44];
    comparison.finish(&[(Call::SweepTable, &of_the_sweep), (Call::Sweep, &of_the_sweep)])
}

fn compare(comparison: &mut Comparison, larger: &mut Larger, form: Form) {
    let Form { what, bytes: form, seed } = form;
    let mut random = Random::new(seed);
    let listing = Listing::of(&form);
    let blocks = listing.body().map_or(0, |body| body.block_count);
    let (entries, bytes) = (ROW_ENTRIES * blocks, 2 * blocks);
    let fewer_bytes = if random.percent(50) { blocks } else { random.below(bytes.max(1)) };
    let more_bytes = bytes + 1 + random.below(2 * MOST_BLOCKS);
    let less = random.below(entries.max(1));
    let more = entries + 1 + random.below(2 * ROW_ENTRIES);

    let lent = |table, routes| Question::on(Call::SweepTable, &form).table(table).out(routes);
    let own = |routes| Question::on(Call::Sweep, &form).out(routes);
    let mut questions = vec![
        lent(Some(entries), Some(more_bytes)),
        lent(Some(more), Some(bytes)),
        own(Some(random.pick(&[bytes, more_bytes]))),
    ];
    let refused = random.below(8);
    questions.push(match refused {
        0 => lent(entries.checked_sub(1), Some(bytes)),
        1 => lent(Some(less), Some(more_bytes)),
        2 => lent(None, Some(bytes)),
        3 => lent(None, None),
        4 => lent(Some(entries), bytes.checked_sub(1)),
        5 => lent(Some(less), Some(fewer_bytes)),
        6 => own(Some(fewer_bytes)),
        _ => own(None),
    });
    let answers = comparison.compare(what, &listing, questions);

    comparison.met.note("1 to 9 blocks", (1..10).contains(&blocks));
    comparison.met.note("10 to 24 blocks", (10..=24).contains(&blocks));
    comparison.met.note("25 to 64 blocks", blocks > 24);
    comparison.met.note("16 blocks", blocks == 16);
    comparison.met.note("17 blocks", blocks == 17);
    comparison.met.note("44 at 1088", answers.iter().any(|numbers| numbers[..2] == [44, 1_088]));
    let bytes_of_one = matches!(refused, 5 | 6) && fewer_bytes == blocks;
    let is_42 = answers.last().is_some_and(|numbers| numbers[..2] == [42, bytes as u64]);
    comparison.met.note("42 where one route's bytes are lent", bytes_of_one && is_42);
    if let (Ok(body), Ok(list)) = (listing.body(), listing.list()) {
        note_routes(&mut comparison.met, body);
        note_rows(&mut comparison.met, body, list);
    }
    if let (10..=24, Some([number, place, .., kept])) = (blocks, answers.first()) {
        match number {
            0 => *larger.kept.entry(*kept).or_default() += 1,
            40 => *larger.crowded.entry(*place).or_default() += 1,
            _ => {}
        }
    }
}
