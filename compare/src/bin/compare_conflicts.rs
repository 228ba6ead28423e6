//! Compares the proved conflict list and pair test with the second program's.
//!
//!     compare_conflicts [SEED [INPUTS]] -- PROGRAM WORD..
//!
//! Figure 1 of document 003 comes first: the bytes of the proved list of `examples/figure1.form` are those of
//! `examples/figure1.list`. The list of every input is written into memory that is not there, too short, exact and longer.
//! Pairs are all those of two relations and two constants within 3 of each other, around zero and at both ends of i32, and
//! from one end to the other.

use std::process::ExitCode;

use by_listing::calls::Listing;
use by_listing::conflict::{ASSIGNMENT_PAIR, EDGE_PAIR};
use by_listing::driver::{Comparison, Form, RELATIONS};
use by_listing::example::example_file;
use by_listing::generate::mostly_small;
use by_listing::random::Random;
use by_listing::served::{Call, Question};
use by_listing::tally::Met;

const INPUTS: u64 = 28_000;

fn main() -> ExitCode {
    let mut comparison = Comparison::start("compare_conflicts", INPUTS, &[Call::Conflicts, Call::Pair]);
    compare_figure_1(&mut comparison);
    for form in comparison.forms(mostly_small) {
        compare_list(&mut comparison, form);
    }
    compare_pairs(&mut comparison);
    let of_the_list = [0, 10, 11, 12, 13, 14, 15, 16, 17, 18, 19, 42];
    comparison.finish(&[(Call::Conflicts, &of_the_list), (Call::Pair, &[0, 1])])
}

/// Where a file of the example is missing, or its list is another, it is a failure.
fn compare_figure_1(comparison: &mut Comparison) {
    let files = example_file("figure1.form").and_then(|form| Ok((form, example_file("figure1.list")?)));
    let (form, list) = match files {
        Ok(both) => both,
        Err(why) => return comparison.tally.check(false, || format!("figure 1: {why}")),
    };
    let whole = Question::on(Call::Conflicts, &form).out(Some(list.len()));
    comparison.ask("figure 1".to_string(), vec![whole], move |_, answers, _| {
        let [number, place, entries, ..] = answers[0].numbers;
        let written = answers[0].memory.out();
        let same = (number, place, 5 * entries) == (0, 0, list.len() as u64) && written == list;
        same.then_some(()).ok_or_else(|| {
            format!(
                "answered {number} at {place}, {entries} entries, {written:?}; examples/figure1.list has {list:?}"
            )
        })
    });
    let figure = Form { what: "figure 1, by the second program".to_string(), bytes: form, seed: comparison.seed };
    compare_list(comparison, figure);
}

fn compare_list(comparison: &mut Comparison, form: Form) {
    let Form { what, bytes: form, seed } = form;
    let mut random = Random::new(seed);
    let listing = Listing::of(&form);
    let needed = note(&mut comparison.met, &listing);
    let shorter = random.below(needed.max(1));
    let longer = needed + 1 + random.below(40);
    let lent = [None, Some(0), Some(shorter), needed.checked_sub(1), Some(needed), Some(longer)];
    let questions = lent.map(|lent| Question::on(Call::Conflicts, &form).out(lent));
    comparison.compare(what, &listing, questions.to_vec());
}

/// Notes what an accepted body and its list have. Returns the bytes of the list.
fn note(met: &mut Met, listing: &Listing) -> usize {
    let (Ok(body), Ok(list)) = (listing.body(), listing.list()) else { return 0 };
    met.note("1 to 9 blocks", body.block_count < 10);
    met.note("10 to 24 blocks", (10..=24).contains(&body.block_count));
    met.note("25 to 64 blocks", body.block_count > 24);
    met.note("no conflict", list.is_empty());
    met.note("an assignment pair", list.iter().any(|entry| entry.kind == ASSIGNMENT_PAIR));
    met.note("an edge pair", list.iter().any(|entry| entry.kind == EDGE_PAIR));
    met.note("a pair in one block", list.iter().any(|entry| entry.first_block == entry.second_block));
    met.note("20 pairs or more", list.len() >= 20);
    5 * list.len()
}

fn compare_pairs(comparison: &mut Comparison) {
    let nothing = Listing::of(&[]);
    for (one, other) in pairs_of_constants() {
        for relation in RELATIONS {
            let given = |other_relation: u8| [relation as u64, one as u64, other_relation as u64, other as u64];
            let questions = RELATIONS.map(|other_relation| Question::of(Call::Pair, given(other_relation)));
            comparison.compare("pairs".to_string(), &nothing, questions.to_vec());
        }
    }
}

fn pairs_of_constants() -> Vec<(i32, i32)> {
    let lowest: Vec<i32> = (i32::MIN..=i32::MIN + 7).collect();
    let highest: Vec<i32> = (i32::MAX - 7..=i32::MAX).collect();
    let of = |ones: &[i32], others: &[i32]| -> Vec<(i32, i32)> {
        ones.iter().flat_map(|one| others.iter().map(move |other| (*one, *other))).collect()
    };
    let around_zero: Vec<i32> = (-7..=7).collect();
    let mut pairs =
        [&lowest[..], &around_zero, &highest].iter().flat_map(|near| of(near, near)).collect::<Vec<_>>();
    pairs.retain(|(one, other)| one.abs_diff(*other) <= 3);
    pairs.extend(of(&lowest, &highest));
    pairs.extend(of(&highest, &lowest));
    pairs.extend(of(&[0], &[i32::MIN, i32::MAX]));
    pairs.extend(of(&[i32::MIN, i32::MAX], &[0]));
    pairs
}
