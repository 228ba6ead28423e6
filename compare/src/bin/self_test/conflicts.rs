//! The pair test, and conflict lists worked out by hand, among them the cases where trainees go wrong.

use by_listing::calls::{conflicts, Listing, NoAnswer};
use by_listing::conflict::{
    conditions_conflict, edge_condition, meets, opposite, Condition, ASSIGNMENT_PAIR, AT_LEAST, AT_MOST,
    EDGE_PAIR, EQUAL, GREATER, LESS, NOT_EQUAL,
};
use by_listing::example::example_file;
use by_listing::form::{Block, Effect, Parts, Refusal};
use by_listing::tally::Tally;
use by_listing::ways::Way;

use crate::form_of;

pub fn run(tally: &mut Tally) {
    pairs(tally);
    edges(tally);
    lists(tally);
    lent_bytes(tally);
    figure_1(tally);
}

fn condition(relation: u8, constant: i32) -> Condition {
    Condition { variable: 4, relation, constant }
}

fn pairs(tally: &mut Tally) {
    const LOWEST: i32 = i32::MIN;
    const HIGHEST: i32 = i32::MAX;
    let cases = [
        // The trainer's four.
        ((GREATER, 2), (LESS, 3), true),
        ((GREATER, 2), (LESS, 4), false),
        ((EQUAL, 5), (NOT_EQUAL, 5), true),
        ((AT_LEAST, 2), (AT_MOST, 2), false),
        // Whole numbers go on past both ends of i32.
        ((LESS, LOWEST), (AT_MOST, LOWEST), false),
        ((GREATER, HIGHEST), (AT_LEAST, 0), false),
        ((GREATER, HIGHEST - 1), (NOT_EQUAL, HIGHEST), false),
        ((LESS, LOWEST), (AT_LEAST, LOWEST), true),
        ((LESS, LOWEST), (GREATER, HIGHEST), true),
        ((AT_MOST, LOWEST), (NOT_EQUAL, LOWEST), false),
        ((EQUAL, LOWEST), (EQUAL, HIGHEST), true),
        ((EQUAL, LOWEST), (NOT_EQUAL, HIGHEST), false),
        ((NOT_EQUAL, 1), (NOT_EQUAL, 2), false),
        ((AT_LEAST, 2), (LESS, 2), true),
        ((AT_LEAST, 3), (AT_MOST, 2), true),
        ((EQUAL, 3), (LESS, 3), true),
        ((EQUAL, 3), (AT_MOST, 3), false),
    ];
    for ((relation, constant), (other_relation, other_constant), wanted) in cases {
        let (one, other) = (condition(relation, constant), condition(other_relation, other_constant));
        tally.equal(&format!("{one:?} with {other:?}"), conditions_conflict(&one, &other), wanted);
        tally.equal(&format!("{other:?} with {one:?}"), conditions_conflict(&other, &one), wanted);
        let elsewhere = Condition { variable: 5, ..other };
        tally.equal("two variables", conditions_conflict(&one, &elsewhere), false);
    }
    let constants: Vec<i32> = (-4..=4).chain(LOWEST..=LOWEST + 4).chain(HIGHEST - 4..=HIGHEST).collect();
    for (one, other) in all_pairs(&constants) {
        let far = |constant: i32| constant as i64 - 50..=constant as i64 + 50;
        let shared =
            far(one.constant).chain(far(other.constant)).any(|value| one.met_by(value) && other.met_by(value));
        tally.equal(&format!("{one:?} with {other:?}, tried far"), conditions_conflict(&one, &other), !shared);
    }
}

fn all_pairs(constants: &[i32]) -> Vec<(Condition, Condition)> {
    let conditions: Vec<Condition> = (0..=5)
        .flat_map(|relation| constants.iter().map(move |constant| condition(relation, *constant)))
        .collect();
    conditions.iter().flat_map(|one| conditions.iter().map(move |other| (*one, *other))).collect()
}

fn edges(tally: &mut Tally) {
    for relation in 0..=5 {
        for value in -3..=3 {
            let opposes = meets(value, relation, 0) != meets(value, opposite(relation), 0);
            tally.check(opposes, || format!("relation {relation} and its opposite at {value}"));
        }
    }
    let test = Block::test(1, 7, AT_LEAST, 40, 2, 1);
    let jump = Condition { variable: 7, relation: AT_LEAST, constant: 40 };
    tally.equal("the jump's condition", edge_condition(&test, Way::Jump), Some(jump));
    let fall = Condition { variable: 7, relation: LESS, constant: 40 };
    tally.equal("the fall's condition", edge_condition(&test, Way::Fall), Some(fall));
    tally.equal("a go has none", edge_condition(&Block::go(1, 2), Way::Jump), None);
    tally.equal("an open branch has none", edge_condition(&Block::open(1, 2, 3), Way::Fall), None);
}

/// A test on variable 0 whose targets are both the next block.
fn test(relation: u8, constant: i32, next: u8) -> Block {
    Block::test(1, 0, relation, constant, next, next)
}

fn set(constant: i32) -> Vec<Effect> {
    vec![Effect::constant(0, constant)]
}

fn unknown() -> Vec<Effect> {
    vec![Effect::unknown(0)]
}

const NONE: Vec<Effect> = vec![];

fn lists(tally: &mut Tally) {
    let end = || (Block::end(1), NONE);
    let cases: Vec<(&str, Parts, Vec<[u8; 5]>)> = vec![
        ("no test", vec![(Block::go(1, 1), set(1)), end()], vec![]),
        (
            "an assignment and its own block's edge",
            vec![(test(EQUAL, 5, 1), set(5)), end()],
            vec![[1, 0, 0, 0, 2]],
        ),
        (
            "only the last effect counts",
            vec![(test(EQUAL, 5, 1), [set(5), set(6)].concat()), end()],
            vec![[1, 0, 0, 0, 1]],
        ),
        ("the last effect is unknown", vec![(test(EQUAL, 5, 1), [set(5), unknown()].concat()), end()], vec![]),
        (
            "the first effect is unknown",
            vec![(test(EQUAL, 5, 1), [unknown(), set(5)].concat()), end()],
            vec![[1, 0, 0, 0, 2]],
        ),
        (
            "an effect on another variable between",
            vec![(Block::go(1, 1), set(5)), (test(EQUAL, 5, 2), vec![Effect::unknown(1)]), end()],
            vec![[1, 0, 0, 1, 2]],
        ),
        (
            "an unknown effect between two tests",
            vec![(test(AT_LEAST, 40, 1), NONE), (Block::go(1, 2), unknown()), (test(LESS, 20, 3), NONE), end()],
            vec![],
        ),
        (
            "an effect in the second test's own block",
            vec![(test(AT_LEAST, 40, 1), NONE), (test(LESS, 20, 2), unknown()), end()],
            vec![],
        ),
        (
            "an effect in the first test's own block",
            vec![(test(AT_LEAST, 40, 1), unknown()), (test(LESS, 20, 2), NONE), end()],
            vec![[2, 0, 1, 1, 1]],
        ),
        (
            "a constant between takes the test's place",
            vec![(test(AT_LEAST, 40, 1), NONE), (Block::go(1, 2), set(7)), (test(LESS, 20, 3), NONE), end()],
            vec![[1, 1, 0, 2, 2]],
        ),
        ("some path is clean, not every one", some_clean_path(), vec![[2, 0, 1, 3, 1]]),
        (
            "an edge's own path is not clean",
            vec![
                (Block::test(1, 0, AT_LEAST, 40, 1, 2), NONE),
                (Block::go(1, 3), NONE),
                (Block::go(1, 3), unknown()),
                (test(LESS, 40, 4), NONE),
                end(),
            ],
            vec![[2, 0, 1, 3, 1]],
        ),
        (
            "a block not reached",
            vec![(Block::go(1, 2), NONE), (Block::go(1, 2), set(1)), (test(EQUAL, 0, 3), NONE), end()],
            vec![[1, 1, 0, 2, 1]],
        ),
        (
            "equal targets, both edges",
            vec![(test(LESS, 5, 1), NONE), (test(AT_LEAST, 5, 2), NONE), end()],
            vec![[2, 0, 1, 1, 1], [2, 0, 2, 1, 2]],
        ),
        (
            "x ≥ 2, x ≤ 2 and x ≠ 2 clash only as three",
            three_clash(),
            vec![[2, 0, 2, 1, 2], [2, 0, 2, 2, 2], [2, 1, 2, 2, 2]],
        ),
        (
            "the list's order",
            vec![
                (Block::go(1, 1), set(1)),
                (test(EQUAL, 5, 2), NONE),
                (test(NOT_EQUAL, 0, 3), NONE),
                (test(EQUAL, 0, 4), NONE),
                end(),
            ],
            vec![
                [1, 0, 0, 1, 1],
                [1, 0, 0, 2, 2],
                [2, 1, 1, 2, 2],
                [1, 0, 0, 3, 1],
                [2, 1, 1, 3, 1],
                [2, 2, 1, 3, 1],
                [2, 2, 2, 3, 2],
            ],
        ),
        (
            "a path that has a conflict itself still joins",
            // From 0's jump to 2 only by 1's jump, which conflicts with it.
            vec![
                (Block::test(1, 0, EQUAL, 1, 1, 3), NONE),
                (Block::test(1, 0, EQUAL, 2, 2, 3), NONE),
                (test(EQUAL, 2, 3), NONE),
                end(),
            ],
            vec![[2, 0, 1, 1, 1], [2, 0, 1, 2, 1], [2, 1, 1, 2, 2]],
        ),
        (
            "open branches and goes carry nothing",
            vec![(Block::open(1, 1, 1), set(1)), (Block::go(1, 2), NONE), end()],
            vec![],
        ),
    ];
    for (what, parts, wanted) in cases {
        let mut out = [0; 100];
        let written = conflicts(&form_of(&parts), &mut out).expect("an accepted form");
        let entries: Vec<[u8; 5]> = out[..written].chunks(5).map(|entry| entry.try_into().unwrap()).collect();
        tally.equal(what, entries, wanted);
    }
}

/// 0's condition on variable 0 reaches 3 past block 2 or through it, where the variable becomes unknown.
pub fn some_clean_path() -> Parts {
    vec![
        (test(AT_LEAST, 40, 1), NONE),
        (Block::open(1, 2, 3), NONE),
        (Block::go(1, 3), unknown()),
        (test(LESS, 20, 4), NONE),
        (Block::end(1), NONE),
    ]
}

pub fn three_clash() -> Parts {
    vec![
        (test(AT_LEAST, 2, 1), NONE),
        (test(AT_MOST, 2, 2), NONE),
        (test(NOT_EQUAL, 2, 3), NONE),
        (Block::end(1), NONE),
    ]
}

fn lent_bytes(tally: &mut Tally) {
    let form = form_of(&three_clash());
    for lent in 0..20 {
        let mut out = vec![7; lent];
        let answer = conflicts(&form, &mut out);
        if lent < 15 {
            tally.equal("42", answer, Err(NoAnswer::Refused(Refusal { number: 42, place: 15 })));
            tally.check(out.iter().all(|byte| *byte == 7), || "42 wrote bytes".to_string());
        } else {
            tally.equal("the list's bytes", answer, Ok(15));
            tally
                .check(out[15..].iter().all(|byte| *byte == 7), || "bytes past the list were written".to_string());
        }
    }
    let no_count = by_listing::form::Counter { initial: 5, step: 0, relation: EQUAL, limit: 5 };
    let form = by_listing::form::parts_bytes(&no_count, &three_clash());
    tally.equal("the list asks for no count", conflicts(&form, &mut [0; 15]), Ok(15));
    let refused = NoAnswer::Refused(Refusal { number: 17, place: 0 });
    tally.equal("the reader's refusals come first", conflicts(&[], &mut []), Err(refused));
}

/// Figure 1 of document 003: an assignment conflicts with one edge of a test, an earlier edge with the other, and nothing
/// else conflicts. The example's form and list must be there, and the list's bytes are those of the example's.
fn figure_1(tally: &mut Tally) {
    let files = example_file("figure1.form").and_then(|form| Ok((form, example_file("figure1.list")?)));
    let (form, wanted) = match files {
        Ok(both) => both,
        Err(why) => return tally.check(false, || format!("figure 1: {why}")),
    };
    let mut bytes = vec![0; wanted.len()];
    tally.equal("figure 1: the list's length", conflicts(&form, &mut bytes), Ok(wanted.len()));
    tally.equal("figure 1: the list's bytes", bytes, wanted);
    let listing = Listing::of(&form);
    let Ok(list) = listing.list() else {
        return tally.check(false, || "figure 1: the form has no list".to_string());
    };
    let mut kinds: Vec<u8> = list.iter().map(|entry| entry.kind).collect();
    kinds.sort();
    tally.equal("figure 1: kinds of pairs", kinds, vec![ASSIGNMENT_PAIR, EDGE_PAIR]);
    let mut seconds: Vec<(u8, u8)> = list.iter().map(|entry| (entry.second_block, entry.second_outcome)).collect();
    seconds.sort();
    let test = seconds.first().map_or(0, |(block, _)| *block);
    tally.equal("figure 1: the second edges", seconds, vec![(test, 1), (test, 2)]);
}
