//! Counted loops: the trainer's nine counts, and the search held to plain stepping.

use by_listing::conflict::{AT_LEAST, AT_MOST, EQUAL, GREATER, LESS, NOT_EQUAL};
use by_listing::counter::{count, Counting, Stepped};
use by_listing::form::{Counter, Refusal};
use by_listing::generate::generate_counter;
use by_listing::tally::Tally;

pub fn run(tally: &mut Tally) {
    handmade(tally);
    search_is_stepping_in_a_narrow_range(tally);
    long_counts_stepped(tally);
    generated_counters(tally);
}

fn handmade(tally: &mut Tally) {
    const LOWEST: i32 = i32::MIN;
    const HIGHEST: i32 = i32::MAX;
    let cases = [
        // The trainer's nine.
        ((0, 1, LESS, 10), Some(10)),
        ((0, 3, NOT_EQUAL, 100), None),
        ((0, 3, NOT_EQUAL, 99), Some(33)),
        ((5, 0, LESS, 5), Some(1)),
        ((5, 0, EQUAL, 5), None),
        ((7, 1, EQUAL, 8), Some(2)),
        ((2147483646, 1, AT_MOST, 2147483647), None),
        ((2147483646, 1, LESS, 2147483647), Some(1)),
        ((-2147483648, 1, LESS, 2147483647), Some(4_294_967_295)),
        // Our own, at both ends and down.
        ((HIGHEST, -1, GREATER, LOWEST), Some(4_294_967_295)),
        ((HIGHEST, -1, AT_LEAST, LOWEST), None),
        ((LOWEST, 1, NOT_EQUAL, HIGHEST), Some(4_294_967_295)),
        ((LOWEST, 2, NOT_EQUAL, HIGHEST), None),
        ((LOWEST + 1, 2, NOT_EQUAL, HIGHEST), Some(2_147_483_647)),
        ((HIGHEST, 1, LESS, 0), None),
        ((HIGHEST - 1, 1, LESS, 0), Some(1)),
        ((LOWEST, -1, GREATER, 0), None),
        ((0, LOWEST, AT_LEAST, LOWEST), None),
        ((0, LOWEST, GREATER, LOWEST), Some(1)),
        ((HIGHEST, LOWEST, AT_LEAST, 0), Some(1)),
        ((HIGHEST, LOWEST, LESS, 0), None),
        ((0, -1, LESS, 10), None),
        ((0, -1, GREATER, -10), Some(10)),
        ((0, -3, AT_LEAST, -9), Some(4)),
        ((0, 0, NOT_EQUAL, 0), Some(1)),
        ((0, 0, NOT_EQUAL, 1), None),
        ((0, 5, NOT_EQUAL, 0), None),
        ((9, 1, LESS, 3), Some(1)),
        ((0, 1, EQUAL, 0), Some(1)),
        ((HIGHEST - 1, 1, EQUAL, HIGHEST), None),
    ];
    for ((initial, step, relation, limit), wanted) in cases {
        let counter = Counter { initial, step, relation, limit };
        let wanted = wanted.ok_or(Refusal { number: 20, place: 0 });
        tally.equal(&format!("the count of {counter:?}"), count(&counter), wanted);
    }
    for relation in [6, 255] {
        let counter = Counter { initial: 0, step: 1, relation, limit: 10 };
        tally.equal("a relation above 5", count(&counter), Err(Refusal { number: 15, place: 0 }));
    }
}

/// Every counter over the values -9 to 8, stepped until it must have come to an end or never will.
fn search_is_stepping_in_a_narrow_range(tally: &mut Tally) {
    let (lowest, highest) = (-9, 8);
    let enough_steps = 2 * (highest - lowest) as u64 + 4;
    for initial in lowest..=highest {
        for limit in lowest..=highest {
            for step in lowest..=highest {
                for relation in 0..=5 {
                    let counting = Counting { initial, step, relation, limit, lowest, highest };
                    let stepped = match counting.stepped(enough_steps) {
                        Stepped::Count(count) => Some(count),
                        Stepped::NoCount | Stepped::StillRunning => None,
                    };
                    tally.equal(&format!("{counting:?} searched"), counting.searched(), stepped);
                }
            }
        }
    }
}

/// Long loops over a wide range, one step after the other. (All 32 bits would take a minute in all.)
fn long_counts_stepped(tally: &mut Tally) {
    let (lowest, highest) = (-(1 << 23), (1 << 23) - 1);
    let cases = [
        (lowest, 1, LESS, highest, Some((1 << 24) - 1)),
        (lowest, 1, AT_MOST, highest, None),
        (lowest, 3, NOT_EQUAL, highest, Some(((1 << 24) - 1) / 3)),
        (lowest, 2, NOT_EQUAL, highest, None),
        (highest, -1, GREATER, lowest, Some((1 << 24) - 1)),
        (highest, -5, AT_LEAST, 7, Some(((1 << 23) - 8) / 5 + 1)),
        (highest, -5, NOT_EQUAL, lowest, Some(((1 << 24) - 1) / 5)),
    ];
    for (initial, step, relation, limit, wanted) in cases {
        let counting = Counting { initial, step, relation, limit, lowest, highest };
        let wanted_stepped = wanted.map_or(Stepped::NoCount, Stepped::Count);
        tally.equal(&format!("{counting:?} stepped"), counting.stepped(u64::MAX), wanted_stepped);
        tally.equal(&format!("{counting:?} searched"), counting.searched(), wanted);
    }
}

/// Counters from seeds: search and stepping agree wherever stepping ends soon; each relation has counts and refusals.
fn generated_counters(tally: &mut Tally) {
    let mut counts = [0; 6];
    let mut refusals = [0; 6];
    let mut long = 0;
    for seed in 0..20_000 {
        let counter = generate_counter(seed);
        let counting = Counting::of(&counter);
        match count(&counter) {
            Ok(count) => {
                counts[counter.relation as usize] += 1;
                long += u64::from(count > 1_000_000);
            }
            Err(_) => refusals[counter.relation as usize] += 1,
        }
        match counting.stepped(1_000) {
            Stepped::Count(count) => tally.equal(&format!("{counter:?}"), counting.searched(), Some(count)),
            Stepped::NoCount => tally.equal(&format!("{counter:?}"), counting.searched(), None),
            Stepped::StillRunning => {}
        }
    }
    println!(
        "20000 counters: counts by relation {counts:?}, refused 20 {refusals:?}, counts over 1000000: {long}"
    );
    tally.check(counts.iter().chain(&refusals).all(|met| *met > 100), || {
        "some relation's counts or refusals were hardly met".to_string()
    });
    tally.check(long > 100, || "long counts were hardly met".to_string());
}
