//! Compares the proved counter, asked with four numbers, with the second program's.
//!
//!     compare_counter [SEED [INPUTS]] -- PROGRAM WORD..
//!
//! First the trainer's counts, then every counter whose initial value and limit lie at or within 3 of an end of i32 or of
//! zero, with steps by name, then as many by chance as there are to be inputs.

use std::process::ExitCode;

use by_listing::calls::Listing;
use by_listing::driver::{Comparison, RELATIONS};
use by_listing::form::{Counter, HIGHEST_RELATION};
use by_listing::generate::generate_counter;
use by_listing::random::Random;
use by_listing::served::{Call, Question};

const INPUTS: u64 = 100_000;

/// The trainer's counts of document 01.
const TRAINERS: [(i32, i32, u8, i32); 9] = [
    (0, 1, 2, 10),
    (0, 3, 1, 100),
    (0, 3, 1, 99),
    (5, 0, 2, 5),
    (5, 0, 0, 5),
    (7, 1, 0, 8),
    (2147483646, 1, 5, 2147483647),
    (2147483646, 1, 2, 2147483647),
    (-2147483648, 1, 2, 2147483647),
];

const STEPS: [i32; 13] =
    [0, 1, -1, 2, -2, 3, -3, i32::MAX, i32::MIN, i32::MIN + 1, 1 << 30, -(1 << 30), 1_000_003];

fn main() -> ExitCode {
    let mut comparison = Comparison::start("compare_counter", INPUTS, &[Call::Count]);
    for (initial, step, relation, limit) in TRAINERS {
        compare(&mut comparison, &Counter { initial, step, relation, limit });
    }
    for counter in counters_at_the_ends() {
        compare(&mut comparison, &counter);
    }
    let mut near_an_end = 0;
    for place in 0..comparison.inputs {
        let mut random = Random::new(comparison.seed ^ Random::new(place).draw());
        let mut counter = generate_counter(random.draw());
        if random.percent(3) {
            counter.relation = random.within(HIGHEST_RELATION as i64 + 1, u8::MAX as i64) as u8;
        }
        near_an_end += u64::from(is_near_an_end(counter.initial) || is_near_an_end(counter.limit));
        compare(&mut comparison, &counter);
    }
    println!("by chance, with initial value or limit at or within 3 of an end of i32: {near_an_end}");
    let half = comparison.inputs / 2;
    comparison.tally.check(near_an_end >= half, || format!("only {near_an_end} are near an end of i32"));
    comparison.finish(&[(Call::Count, &[0, 15, 20])])
}

fn counters_at_the_ends() -> Vec<Counter> {
    let values: Vec<i32> =
        [i32::MIN..=i32::MIN + 3, -3..=3, i32::MAX - 3..=i32::MAX].into_iter().flatten().collect();
    let mut counters = Vec::new();
    for initial in &values {
        for limit in &values {
            for step in STEPS {
                let of = |relation| Counter { initial: *initial, step, relation, limit: *limit };
                counters.extend(RELATIONS.map(of));
            }
        }
    }
    counters
}

fn is_near_an_end(value: i32) -> bool {
    value <= i32::MIN + 3 || value >= i32::MAX - 3
}

fn compare(comparison: &mut Comparison, counter: &Counter) {
    let Counter { initial, step, relation, limit } = *counter;
    let given = [initial, step, relation as i32, limit].map(|number| number as u64);
    let questions = vec![Question::of(Call::Count, given)];
    let answers = comparison.compare("counter".to_string(), &Listing::of(&[]), questions);
    let count = answers[0][2];
    let met = &mut comparison.met;
    met.note("step 0", step == 0);
    met.note("step 1 or -1", step.unsigned_abs() == 1);
    met.note("step 2 or -2", step.unsigned_abs() == 2);
    met.note("step 3 or -3", step.unsigned_abs() == 3);
    met.note("a step of more than 65,535 either way", step.unsigned_abs() > 65_535);
    met.note("the smallest step", step == i32::MIN);
    met.note("relation =", relation == 0);
    met.note("relation ≠", relation == 1);
    met.note("relation <", relation == 2);
    met.note("relation ≥", relation == 3);
    met.note("relation >", relation == 4);
    met.note("relation ≤", relation == 5);
    met.note("a relation above 5", relation > HIGHEST_RELATION);
    met.note("count 1", count == 1);
    met.note("a count of more than a million", count > 1_000_000);
    met.note("the largest count", count == u32::MAX as u64);
}
