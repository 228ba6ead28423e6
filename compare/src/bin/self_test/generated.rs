//! The generator: what its inputs are met by, and facts that must hold of the answers to all of them.

use std::cmp::Reverse;
use std::collections::{BTreeMap, HashSet};

use by_listing::calls::{conflicts, sweep, walk, NoAnswer, MOST_WAYS};
use by_listing::conflict::{conflict_list, events, has_conflict, Entry, Happening, ASSIGNMENT_PAIR};
use by_listing::form::{read, write, Body, GO, MOST_BLOCKS, OPEN, TEST};
use by_listing::generate::{generate, mixed, mixed_accepted, Kind, KINDS};
use by_listing::report::LONGEST_LIST;
use by_listing::routes::{routes, Route};
use by_listing::rows::{row, OpenSet, RowEntry, Tail};
use by_listing::shapes::{note_routes, note_rows};
use by_listing::tally::{Met, Tally};
use by_listing::ways::{for_each_way, left_by, ways_to_list, weight, Step, Way};

const SEED: u64 = 1;
const INPUTS: u64 = 20_000;
const BODIES: u64 = 4_000;
const WIDE: u64 = 400;

pub fn run(tally: &mut Tally) {
    println!("generated inputs: seed {SEED}, {INPUTS} inputs of all kinds, {BODIES} accepted bodies");
    verdicts(tally);
    wide(tally);
    bodies(tally);
}

/// Every kind of input is met by every refusal it is made for; each of 10 to 19 is met often.
fn verdicts(tally: &mut Tally) {
    let mut met: BTreeMap<(&str, u32), u64> = BTreeMap::new();
    for place in 0..INPUTS {
        let (kind, seed) = mixed(SEED, place);
        let form = generate(kind, seed);
        tally.check(generate(kind, seed) == form, || format!("{kind:?} {seed} came out twice differently"));
        let verdict = read(&form);
        let number = verdict.as_ref().err().map_or(0, |refusal| refusal.number);
        *met.entry((kind.name(), number)).or_default() += 1;
        match verdict {
            Ok(body) => check_written(tally, &body, &form, &format!("{kind:?} {seed}")),
            Err(_) => tally.check(!kind.is_accepted(), || format!("{kind:?} {seed} is refused")),
        }
    }
    println!("verdicts (0 is accepted):");
    for kind in KINDS.into_iter().filter(|kind| *kind != Kind::Wide) {
        let of_kind: Vec<String> = met
            .iter()
            .filter(|((name, _), _)| *name == kind.name())
            .map(|((_, number), times)| format!("{number}: {times}"))
            .collect();
        println!("  {:9} {}", kind.name(), of_kind.join(", "));
        tally.check(!of_kind.is_empty(), || format!("no input was {}", kind.name()));
    }
    for number in [0, 10, 11, 12, 13, 14, 15, 16, 17, 18, 19] {
        let times: u64 = met.iter().filter(|((_, other), _)| *other == number).map(|(_, times)| times).sum();
        tally.check(times >= 50, || format!("verdict {number} was met {times} times"));
    }
    let made_for: [(&str, &[u32]); 4] = [
        ("faulty", &[0, 11, 12, 13, 15, 16, 17, 18, 19]),
        ("damaged", &[0, 10, 11, 12, 13, 15, 16, 17, 18, 19]),
        ("noise", &[10, 11, 12, 13, 15, 17]),
        ("limit", &[0, 10, 12, 14, 17, 19]),
    ];
    for (name, numbers) in made_for {
        for number in numbers {
            tally.check(met.contains_key(&(name, *number)), || format!("no {name} input gave {number}"));
        }
    }
}

/// Wide bodies are accepted, and often have more ways than can be listed.
fn wide(tally: &mut Tally) {
    let ways = |seed| read(&generate(Kind::Wide, seed)).map(|body| ways_to_list(&body));
    let past_listing = (0..WIDE).filter(|seed| ways(*seed).is_ok_and(|ways| ways > MOST_WAYS)).count() as u64;
    println!("of {WIDE} wide bodies {past_listing} have too many ways to list");
    tally.check((0..WIDE).all(|seed| ways(seed).is_ok()), || "a wide body is refused".to_string());
    tally.check(past_listing >= WIDE / 10, || format!("{past_listing} wide bodies have too many ways to list"));
}

/// What is read is written back, also with litter past the counts.
fn check_written(tally: &mut Tally, body: &Body, form: &[u8], what: &str) {
    let mut littered = body.clone();
    for block in littered.blocks[body.block_count..].iter_mut() {
        block.ending = 200;
    }
    for effect in littered.effects[body.effect_count..].iter_mut() {
        effect.how = 200;
    }
    for body in [body, &littered] {
        let mut out = vec![0x33; form.len() + 1];
        let written = write(body, &mut out);
        let good = written == Ok(form.len()) && out[..form.len()] == *form && out[form.len()] == 0x33;
        tally.check(good, || format!("{what} is not written back"));
    }
}

fn bodies(tally: &mut Tally) {
    let mut met = Met::default();
    let mut answers: BTreeMap<u32, u64> = BTreeMap::new();
    let mut lengths_of_rows: BTreeMap<u64, u64> = BTreeMap::new();
    let mut crowded_blocks = HashSet::new();
    for place in 0..BODIES {
        let (kind, seed) = mixed_accepted(SEED, place);
        let form = generate(kind, seed);
        let body = read(&form).expect("an accepted kind");
        let what = format!("{kind:?} {seed}");
        tally.check(ways_to_list(&body) <= MOST_WAYS / 16, || format!("{what} has too many ways"));
        note_shape(&mut met, kind, &body);
        check_list(tally, &body, &form, &what);
        check_routes(tally, &mut met, &body, &form, &what);
        note_routes(&mut met, &body);
        note_rows(&mut met, &body, &conflict_list(&body));
        let mut table = vec![RowEntry::default(); 64 * MOST_BLOCKS];
        match sweep(&form, &mut table, &mut [0; 2 * MOST_BLOCKS]) {
            Ok(answer) => {
                *answers.entry(0).or_default() += 1;
                *lengths_of_rows.entry(answer.kept).or_default() += 1;
            }
            Err(NoAnswer::Refused(refusal)) => {
                *answers.entry(refusal.number).or_default() += 1;
                if refusal.number == 40 {
                    crowded_blocks.insert(refusal.place);
                }
            }
            Err(NoAnswer::TooManyWays) => tally.check(false, || format!("{what} has too many ways")),
        }
        check_first_row(tally, &body, &what);
    }
    println!("sweeps of accepted bodies (0 is an answer): {answers:?}");
    println!("longest rows: {lengths_of_rows:?}");
    met.finish("bodies", tally, 20);
    for number in [0, 20, 40] {
        let times = answers.get(&number).copied().unwrap_or(0);
        tally.check(times >= 20, || format!("sweep answer {number} was met {times} times"));
    }
    tally.equal("43 was never met", answers.get(&43), None);
    tally.check(lengths_of_rows.contains_key(&64), || "no longest row of 64 was met".to_string());
    tally.check(crowded_blocks.len() >= 4, || format!("crowded blocks met: {crowded_blocks:?}"));
}

/// What the generator is to bring about in the bodies themselves.
fn note_shape(met: &mut Met, kind: Kind, body: &Body) {
    let blocks = &body.blocks[..body.block_count];
    let mut reached = vec![false; body.block_count];
    for_each_way(body, 0, |way, _| way.iter().for_each(|step| reached[step.block] = true));
    let ends = [i32::MIN, i32::MAX];
    met.note("a block not reached", reached.contains(&false));
    met.note("equal targets", blocks.iter().any(|block| block.ending >= OPEN && block.jump == block.fall));
    met.note("an open branch", blocks.iter().any(|block| block.ending == OPEN));
    met.note("a go", blocks.iter().any(|block| block.ending == GO));
    met.note("a test", blocks.iter().any(|block| block.ending == TEST));
    met.note("a constant at an end of i32", blocks.iter().any(|block| ends.contains(&block.constant)));
    met.note("two effects of a block on a variable", (0..body.block_count).any(|block| sets_twice(body, block)));
    met.note("one block", body.block_count == 1);
    met.note("nine blocks", body.block_count == 9);
    met.note("10 to 15 blocks", (10..16).contains(&body.block_count));
    met.note("16 blocks", body.block_count == 16);
    met.note("17 blocks", body.block_count == 17);
    met.note("more than 17 blocks", body.block_count > 17);
    met.note("a small body", kind == Kind::Small);
}

fn sets_twice(body: &Body, block: usize) -> bool {
    let variables: Vec<u8> = body.effects_of(block).iter().map(|effect| effect.variable).collect();
    variables.iter().collect::<HashSet<_>>().len() < variables.len()
}

/// A route has a conflict exactly when some entry of the list stands on it with no effect between. The list ascends.
fn check_list(tally: &mut Tally, body: &Body, form: &[u8], what: &str) {
    let list = conflict_list(body);
    let mut out = vec![0; LONGEST_LIST];
    tally.equal(what, conflicts(form, &mut out), Ok(5 * list.len()));
    tally.check(list.windows(2).all(|two| two[0] < two[1]), || format!("{what}: the list does not ascend"));
    for_each_way(body, 0, |way, _| {
        let by_list = list.iter().any(|entry| stands_on(body, way, entry));
        let by_events = has_conflict(&events(body, way));
        tally.check(by_list == by_events, || format!("{what}: by list {by_list}, by events {by_events}: {way:?}"));
    });
}

/// Do the entry's two stand on the way in order, with no effect on the variable in a block after the first's, up to
/// and with the second's?
fn stands_on(body: &Body, way: &[Step], entry: &Entry) -> bool {
    let place_of = |block: u8| way.iter().position(|step| step.block == block as usize);
    let (Some(first), Some(second)) = (place_of(entry.first_block), place_of(entry.second_block)) else {
        return false;
    };
    let left_so = |step: &Step, outcome: u8| step.left.is_some_and(|left| left as u8 == outcome);
    let variable = body.blocks[entry.second_block as usize].variable;
    let has_effect = |step: &Step| body.effects_of(step.block).iter().any(|effect| effect.variable == variable);
    left_so(&way[second], entry.second_outcome)
        && (entry.kind == ASSIGNMENT_PAIR || left_so(&way[first], entry.third))
        && !way[first + 1..=second].iter().any(has_effect)
}

/// Walked, the heaviest and the lightest route once more, with all beginnings and all routes held at once.
fn check_routes(tally: &mut Tally, met: &mut Met, body: &Body, form: &[u8], what: &str) {
    let mut beginnings: HashSet<Vec<Step>> = HashSet::new();
    let mut ways: Vec<Vec<Step>> = Vec::new();
    for_each_way(body, 0, |way, _| {
        ways.push(way.to_vec());
        for arrival in 0..way.len() {
            let mut beginning = way[..=arrival].to_vec();
            beginning[arrival].left = None;
            beginnings.insert(beginning);
        }
    });
    tally.check(ways.windows(2).all(|two| comes_before(&two[0], &two[1])), || format!("{what}: the ways' order"));
    let free = |way: &[Step]| !has_conflict(&events(body, way));
    let walked = beginnings.iter().filter(|beginning| free(beginning)).count() as u64;
    let all = ways.len();
    ways.retain(|way| free(way));
    // The heaviest last, and of equal weights the first last: then the last is the heaviest. Likewise the lightest.
    ways.sort_by_key(|way| (weight(body, way), Reverse(way_order(way))));
    let heaviest = ways.last().expect("some route is conflict-free").clone();
    ways.sort_by_key(|way| (Reverse(weight(body, way)), Reverse(way_order(way))));
    let lightest = ways.last().expect("some route is conflict-free").clone();
    met.note("routes struck out", beginnings.len() as u64 > walked && all > 1);
    met.note("an effect between", has_an_effect_between(body, &heaviest));

    let mut bytes = [0; 2 * MOST_BLOCKS];
    match walk(form, walked as u32, &mut bytes) {
        Ok(answer) => {
            let (weight, least) = (weight(body, &heaviest), weight(body, &lightest));
            tally.equal(what, (answer.walked, answer.weight, answer.least), (walked, weight, least));
            tally.equal(what, answer.bound, answer.count * weight);
            tally.equal(what, answer.least_total, answer.count * least);
            for (bytes, route) in bytes.chunks(body.block_count).zip([&heaviest, &lightest]) {
                tally.equal(what, left_so(1, bytes), left_by(Way::Jump, route));
                tally.equal(what, left_so(2, bytes), left_by(Way::Fall, route));
                tally.equal(what, left_so(3, bytes), 1 << body.last());
            }
            let over = walk(form, walked as u32 - 1, &mut bytes).err();
            tally.check(matches!(over, Some(NoAnswer::Refused(refusal)) if refusal.number == 41), || {
                what.to_string()
            });
        }
        Err(NoAnswer::Refused(refusal)) => tally.equal(what, (refusal.number, refusal.place), (20, 0)),
        Err(NoAnswer::TooManyWays) => tally.check(false, || format!("{what} has too many ways")),
    }
}

/// The blocks with this byte, as a set.
fn left_so(byte: u8, bytes: &[u8]) -> u64 {
    (0..bytes.len()).filter(|block| bytes[*block] == byte).map(|block| 1u64 << block).sum()
}

/// Where two ways part, jump comes before fall.
fn comes_before(one: &[Step], other: &[Step]) -> bool {
    let parting = (0..one.len()).find(|at| one[*at] != other[*at]).expect("two different ways part");
    one[parting].block == other[parting].block
        && (one[parting].left, other[parting].left) == (Some(Way::Jump), Some(Way::Fall))
}

fn way_order(way: &[Step]) -> Vec<Option<Way>> {
    way.iter().map(|step| step.left).collect()
}

/// Is there an effect on a tested variable after a test on it and before another?
fn has_an_effect_between(body: &Body, way: &[Step]) -> bool {
    let events = events(body, way);
    let tests = |from: usize, to: usize, on: u8| {
        events[from..to]
            .iter()
            .any(|event| matches!(event.what, Happening::Edge { condition, .. } if condition.variable == on))
    };
    (0..events.len()).any(|at| match events[at].what {
        Happening::Effect { variable, .. } => tests(0, at, variable) && tests(at, events.len(), variable),
        _ => false,
    })
}

/// Nothing stands below block 0, so its row has one entry: the first heaviest and the first lightest route.
fn check_first_row(tally: &mut Tally, body: &Body, what: &str) {
    let entries = row(body, &conflict_list(body), 0);
    tally.equal(what, entries.len(), 1);
    let found = routes(body).expect("some route is conflict-free");
    let tail = |route: &Route| Tail {
        weight: route.weight,
        left_by_jump: left_by(Way::Jump, &route.steps),
        left_by_fall: left_by(Way::Fall, &route.steps),
    };
    let open = OpenSet::default();
    let wanted = RowEntry { open, heaviest: tail(&found.heaviest), lightest: tail(&found.lightest) };
    tally.equal(what, entries[0], wanted);
}
