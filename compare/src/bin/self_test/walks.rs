//! Routes, walked, rows and the report on bodies worked out by hand; lent memory and the order of refusals.

use by_listing::calls::{sweep, walk, NoAnswer, SweepAnswer, WalkAnswer};
use by_listing::conflict::{AT_LEAST, EQUAL, LESS};
use by_listing::form::{parts_bytes, read, Block, Counter, Effect, Parts, Refusal};
use by_listing::made::{chain, open_chain, with_beginnings};
use by_listing::report::report;
use by_listing::rows::{OpenSet, RowEntry, Tail};
use by_listing::tally::Tally;
use by_listing::ways::{for_each_way, ways_to_list, Step, Way};

use crate::conflicts::{some_clean_path, three_clash};
use crate::{form_of, one_tail, three_iterations};

pub fn run(tally: &mut Tally) {
    ways(tally);
    routes(tally);
    rows(tally);
    crowded(tally);
    order_of_refusals(tally);
    reports(tally);
    many_ways(tally);
}

const NONE: Vec<Effect> = vec![];

/// What a refusal's lent memory is filled with beforehand.
const PATTERN: RowEntry = RowEntry {
    open: OpenSet { jumps: 1, falls: 2 },
    heaviest: Tail { weight: 3, left_by_jump: 4, left_by_fall: 5 },
    lightest: Tail { weight: 6, left_by_jump: 7, left_by_fall: 8 },
};

fn refused<Answer>(number: u32, place: u64) -> Result<Answer, NoAnswer> {
    Err(NoAnswer::Refused(Refusal { number, place }))
}

fn ways(tally: &mut Tally) {
    let parts = vec![
        (Block::open(1, 2, 1), NONE),
        (Block::go(1, 2), NONE),
        (Block::open(1, 3, 3), NONE),
        (Block::end(1), NONE),
    ];
    let body = read(&form_of(&parts)).unwrap();
    let jump = |block| Step { block, left: Some(Way::Jump) };
    let fall = |block| Step { block, left: Some(Way::Fall) };
    let end = Step { block: 3, left: None };
    let wanted = vec![
        (vec![jump(0), jump(2), end], 0),
        (vec![jump(0), fall(2), end], 2),
        (vec![fall(0), jump(1), jump(2), end], 1),
        (vec![fall(0), jump(1), fall(2), end], 3),
    ];
    let mut listed = Vec::new();
    for_each_way(&body, 0, |way, first_new| listed.push((way.to_vec(), first_new)));
    tally.equal("the ways from block 0, in order", listed, wanted);
    tally.equal("how many ways from all blocks", ways_to_list(&body), 4 + 2 + 2 + 1);
}

fn routes(tally: &mut Tally) {
    let end = || (Block::end(1), NONE);
    let open = |jump_cost, fall_cost| -> Parts {
        vec![(Block::open(1, 2, 1), NONE), (Block::go(fall_cost, 3), NONE), (Block::go(jump_cost, 3), NONE), end()]
    };
    // What, the body, the heaviest route's weight and bytes, the lightest's, and walked.
    type Weighed = (u64, Vec<u8>);
    let cases: Vec<(&str, Parts, Weighed, Weighed, u64)> = vec![
        ("one block", vec![end()], (1, vec![3]), (1, vec![3]), 1),
        ("the first of equal weights jumps", open(5, 5), (7, vec![1, 0, 1, 3]), (7, vec![1, 0, 1, 3]), 5),
        ("the heaviest falls, the lightest jumps", open(5, 6), (8, vec![2, 1, 0, 3]), (7, vec![1, 0, 1, 3]), 5),
        ("the heaviest jumps, the lightest falls", open(6, 5), (8, vec![1, 0, 1, 3]), (7, vec![2, 1, 0, 3]), 5),
        (
            "two equal targets give two routes",
            vec![(Block::open(1, 1, 1), NONE), (Block::open(1, 2, 2), NONE), end()],
            (3, vec![1, 1, 3]),
            (3, vec![1, 1, 3]),
            7,
        ),
        (
            "equal targets with opposite tests",
            vec![(Block::test(1, 0, LESS, 5, 1, 1), NONE), (Block::test(1, 0, AT_LEAST, 5, 2, 2), NONE), end()],
            (3, vec![1, 2, 3]),
            (3, vec![1, 2, 3]),
            5,
        ),
        (
            "two lightest routes, neither of them first",
            vec![
                (Block::open(1, 1, 2), NONE),
                (Block::go(9, 5), NONE),
                (Block::open(1, 3, 4), NONE),
                (Block::go(2, 5), NONE),
                (Block::go(2, 5), NONE),
                end(),
            ],
            (11, vec![1, 1, 0, 0, 0, 3]),
            (5, vec![2, 0, 1, 1, 0, 3]),
            8,
        ),
        (
            "nothing costs anything",
            vec![
                (Block::open(0, 1, 2), NONE),
                (Block::go(0, 3), NONE),
                (Block::go(0, 3), NONE),
                (Block::end(0), NONE),
            ],
            (0, vec![1, 1, 0, 3]),
            (0, vec![1, 1, 0, 3]),
            5,
        ),
        (
            "the lightest way has a conflict",
            vec![
                (Block::go(1, 1), vec![Effect::constant(0, 1)]),
                (Block::test(1, 0, EQUAL, 0, 4, 2), NONE),
                (Block::open(10, 3, 4), NONE),
                (Block::go(100, 4), NONE),
                end(),
            ],
            (113, vec![1, 2, 1, 1, 3]),
            (13, vec![1, 2, 2, 0, 3]),
            6,
        ),
        (
            "the first of two that weigh the same has a conflict",
            vec![
                (Block::go(1, 1), vec![Effect::constant(0, 1)]),
                (Block::test(1, 0, EQUAL, 0, 2, 3), NONE),
                (Block::go(2, 4), NONE),
                (Block::go(2, 4), NONE),
                end(),
            ],
            (5, vec![1, 2, 0, 1, 3]),
            (5, vec![1, 2, 0, 1, 3]),
            4,
        ),
        (
            "an assignment bars its own block's fall",
            vec![
                (Block::test(1, 0, EQUAL, 5, 2, 1), vec![Effect::constant(0, 5)]),
                (Block::go(9, 2), NONE),
                end(),
            ],
            (2, vec![1, 0, 3]),
            (2, vec![1, 0, 3]),
            2,
        ),
        (
            "an unknown effect lets both ways go on",
            vec![(Block::test(1, 0, EQUAL, 5, 2, 1), vec![Effect::unknown(0)]), (Block::go(9, 2), NONE), end()],
            (11, vec![2, 1, 3]),
            (2, vec![1, 0, 3]),
            4,
        ),
        (
            "a reassigning route uses a listed pair",
            some_clean_path(),
            (5, vec![1, 1, 1, 1, 3]),
            (4, vec![1, 2, 0, 2, 3]),
            16,
        ),
        ("three that clash only together", three_clash(), (4, vec![1, 1, 1, 3]), (4, vec![1, 1, 1, 3]), 10),
    ];
    for (what, parts, (weight, heaviest), (least, lightest), walked) in cases {
        let form = form_of(&parts);
        let wanted = [heaviest, lightest].concat();
        let (blocks, bytes) = (parts.len(), wanted.len());
        let (bound, least_total) = (3 * weight, 3 * least);
        for more in [0, 3] {
            let mut routes = vec![9; bytes + more];
            let answer = WalkAnswer { count: 3, weight, bound, least, least_total, walked };
            tally.equal(what, walk(&form, walked as u32, &mut routes), Ok(answer));
            tally.equal(what, &routes[..bytes], &wanted[..]);
            tally
                .check(routes[bytes..].iter().all(|byte| *byte == 9), || format!("{what}: bytes past the routes"));
        }
        let mut routes = vec![9; bytes];
        let budget = walked as u32 - 1;
        tally.equal(what, walk(&form, budget, &mut routes), refused(41, budget as u64));
        tally.equal(what, walk(&form, 0, &mut routes), refused(41, 0));
        tally.equal(what, routes, vec![9; bytes]);

        let mut routes = vec![9; bytes];
        let mut table = vec![PATTERN; 64 * blocks];
        let swept = sweep(&form, &mut table, &mut routes);
        let kept = swept.map_or(0, |answer| answer.kept);
        tally.equal(what, swept, Ok(SweepAnswer { count: 3, weight, bound, least, least_total, kept }));
        tally.equal(what, routes, wanted);
    }
}

/// Some rows of a body (block, entries), its longest row, and that all else in a row is zero and past the rows unchanged.
fn check_rows(tally: &mut Tally, what: &str, parts: &Parts, kept: u64, rows: &[(usize, Vec<RowEntry>)]) {
    let blocks = parts.len();
    let mut table = vec![PATTERN; 64 * blocks + 5];
    let answer = sweep(&form_of(parts), &mut table, &mut vec![0; 2 * blocks]);
    tally.equal(what, answer.map(|answer| answer.kept), Ok(kept));
    for (block, entries) in rows {
        let row = &table[64 * block..64 * (block + 1)];
        tally.equal(&format!("{what}: row {block}"), &row[..entries.len()], &entries[..]);
        let rest_is_zero = row[entries.len()..].iter().all(|entry| *entry == RowEntry::default());
        tally.check(rest_is_zero, || format!("{what}: row {block} is not zero after its entries"));
    }
    tally.check(table[64 * blocks..].iter().all(|entry| *entry == PATTERN), || format!("{what}: past the rows"));
}

fn rows(tally: &mut Tally) {
    let end = || (Block::end(1), NONE);
    let single = |entries: &[[u64; 5]]| -> Vec<RowEntry> { entries.iter().map(one_tail).collect() };
    let two_tests = vec![
        (Block::go(1, 1), NONE),
        (Block::test(1, 0, LESS, 5, 2, 2), NONE),
        (Block::test(1, 0, AT_LEAST, 5, 3, 3), NONE),
        end(),
    ];
    // Row 1: the firsts of block 2's edges stand in block 1, which is not below block 1.
    check_rows(
        tally,
        "a first at the row's own block opens nothing",
        &two_tests,
        2,
        &[
            (0, single(&[[0, 0, 4, 0b0011, 0b0100]])),
            (1, single(&[[0, 0, 3, 0b0010, 0b0100]])),
            (2, single(&[[0, 0b0100, 2, 0, 0b0100], [0b0100, 0, 2, 0b0100, 0]])),
            (3, single(&[[0, 0, 1, 0, 0]])),
        ],
    );
    let mut with_effect = two_tests;
    with_effect[2].1 = vec![Effect::unknown(0)];
    check_rows(
        tally,
        "an effect in the edge's own block closes it",
        &with_effect,
        1,
        &[(2, single(&[[0, 0, 2, 0b0100, 0]])), (1, single(&[[0, 0, 3, 0b0110, 0]]))],
    );
    check_rows(
        tally,
        "the heaviest tail is not kept alone, nor is the lightest",
        &vec![
            (Block::go(1, 1), vec![Effect::constant(0, 0)]),
            (Block::open(1, 2, 3), NONE),
            (Block::go(100, 4), NONE),
            (Block::test(1, 0, EQUAL, 0, 4, 4), NONE),
            end(),
        ],
        2,
        &[
            (0, vec![RowEntry::of_words([0, 0, 103, 0b00111, 0, 4, 0b01001, 0b00010])]),
            (
                1,
                vec![
                    RowEntry::of_words([0, 0, 102, 0b00110, 0, 3, 0b01000, 0b00010]),
                    one_tail(&[0, 0b01000, 3, 0, 0b01010]),
                ],
            ),
            (2, single(&[[0, 0, 101, 0b00100, 0]])),
            (3, single(&[[0, 0, 2, 0b01000, 0], [0, 0b01000, 2, 0, 0b01000]])),
        ],
    );
    check_rows(
        tally,
        "the first of the lightest tails, and the first of the heaviest",
        &vec![
            (Block::open(1, 1, 2), NONE),
            (Block::open(0, 3, 4), NONE),
            (Block::open(0, 4, 3), NONE),
            (Block::go(7, 5), NONE),
            (Block::go(2, 5), NONE),
            end(),
        ],
        1,
        &[
            (0, vec![RowEntry::of_words([0, 0, 9, 0b01011, 0, 4, 0b10001, 0b00010])]),
            (1, vec![RowEntry::of_words([0, 0, 8, 0b01010, 0, 3, 0b10000, 0b00010])]),
            (2, vec![RowEntry::of_words([0, 0, 8, 0b01000, 0b00100, 3, 0b10100, 0])]),
        ],
    );
    check_rows(
        tally,
        "a block not reached has a row, and a first there opens an edge",
        &vec![
            (Block::go(1, 2), NONE),
            (Block::go(1, 2), vec![Effect::constant(0, 1)]),
            (Block::test(1, 0, EQUAL, 0, 3, 3), NONE),
            end(),
        ],
        2,
        &[
            (0, single(&[[0, 0, 3, 0b0101, 0]])),
            (1, single(&[[0, 0, 3, 0b0010, 0b0100]])),
            (2, single(&[[0, 0, 2, 0, 0b0100], [0b0100, 0, 2, 0b0100, 0]])),
        ],
    );
    check_rows(
        tally,
        "a last block that costs nothing",
        &vec![(Block::end(0), NONE)],
        1,
        &[(0, single(&[[0; 5]]))],
    );
}

/// Seven variables are set to 0 in block 0. Row 3 has the 64 sets of six tests; block 2 tests the seventh variable,
/// so that row 1 has 65 sets, or 64 where the seventh variable is not set. Then comes the end, block 9.
fn sixty_five_sets(set: u8) -> Parts {
    let assignments = (0..set).map(|variable| Effect::constant(variable, 0)).collect();
    let mut parts = vec![
        (Block::go(1, 1), assignments),
        (Block::open(1, 3, 2), NONE),
        (Block::test(1, 6, EQUAL, 0, 9, 9), NONE),
    ];
    parts.extend((0..6).map(|variable| (Block::test(1, variable, EQUAL, 0, variable + 4, variable + 4), NONE)));
    parts.push((Block::end(1), NONE));
    parts
}

fn crowded(tally: &mut Tally) {
    let mut table = vec![PATTERN; 640];
    let answer = sweep(&form_of(&sixty_five_sets(6)), &mut table, &mut [0; 20]);
    let wanted = SweepAnswer { count: 3, weight: 9, bound: 27, least: 4, least_total: 12, kept: 64 };
    tally.equal("64 sets", answer, Ok(wanted));
    let complete = table;

    let mut table = vec![PATTERN; 640];
    let mut routes = [9; 20];
    tally.equal("65 sets", sweep(&form_of(&sixty_five_sets(7)), &mut table, &mut routes), refused(40, 1));
    tally.equal("40 leaves the routes", routes, [9; 20]);
    tally.check(table[..128].iter().all(|entry| *entry == PATTERN), || "40: rows 0 and 1 changed".to_string());
    tally.check(table[192..] == complete[192..], || "40: rows 3 to 9 are not complete".to_string());
    let row_2: Vec<(u64, u64)> =
        table[128..130].iter().map(|entry| (entry.open.jumps, entry.open.falls)).collect();
    tally.equal("40: row 2 is complete", row_2, vec![(0, 0), (0, 0b100)]);
    tally.check(table[130..192].iter().all(|entry| *entry == RowEntry::default()), || "40: row 2".to_string());
    let walked =
        walk(&form_of(&sixty_five_sets(7)), 1_000, &mut routes).map(|answer| (answer.weight, answer.least));
    tally.equal("the walk knows no crowd", walked, Ok((9, 4)));
}

fn order_of_refusals(tally: &mut Tally) {
    let crowded = sixty_five_sets(7);
    let no_count = Counter { initial: 5, step: 0, relation: EQUAL, limit: 5 };
    let endless = parts_bytes(&no_count, &crowded);
    let form = form_of(&crowded);
    // A form, entries and bytes lent, number, place.
    let cases = [
        (&endless[..30], 0, 0, 10, 17),
        (&endless[..], 0, 0, 20, 0),
        (&endless[..], 640, 20, 20, 0),
        (&form[..], 0, 0, 42, 20),
        (&form[..], 0, 10, 42, 20),
        (&form[..], 640, 19, 42, 20),
        (&form[..], 0, 20, 44, 640),
        (&form[..], 639, 20, 44, 640),
        (&form[..], 640, 20, 40, 1),
    ];
    for (form, entries, bytes, number, place) in cases {
        let mut table = vec![PATTERN; entries];
        let mut routes = vec![9; bytes];
        tally.equal("the sweep's order", sweep(form, &mut table, &mut routes), refused(number, place));
        if number != 40 {
            tally.check(table.iter().all(|entry| *entry == PATTERN), || "a refusal changed the table".to_string());
        }
        tally.check(routes.iter().all(|byte| *byte == 9), || "a refusal changed the routes".to_string());
    }
    // A form, budget and bytes lent, number, place.
    let cases = [
        (&endless[..30], 0, 0, 10, 17),
        (&endless[..], 0, 0, 20, 0),
        (&endless[..], 0, 20, 20, 0),
        (&form[..], 0, 19, 42, 20),
        (&form[..], u32::MAX, 0, 42, 20),
        (&form[..], u32::MAX, 10, 42, 20),
        (&form[..], 0, 20, 41, 0),
        (&form[..], 1, 20, 41, 1),
    ];
    for (form, budget, bytes, number, place) in cases {
        let mut routes = vec![9; bytes];
        tally.equal("the walk's order", walk(form, budget, &mut routes), refused(number, place));
        tally.check(routes.iter().all(|byte| *byte == 9), || "a refusal changed the routes".to_string());
    }
}

fn reports(tally: &mut Tally) {
    let printed = |form: &[u8]| report(form).expect("few ways");
    let no_count = Counter { relation: EQUAL, limit: -1, ..three_iterations() };
    let route = "0J 1J 2J 3J 4J 5J 6J 7J 8J 9J 10J 11J 12J 13J 14J 15E";
    let text = format!(
        "blocks 16\niterations 3\nconflicts 0\nweight 16\nbound 48\nroute {route}\nleast 16\nleast route {route}\n\
         kept 1\nwalked 16\n"
    );
    tally.equal("16 blocks are swept", printed(&form_of(&chain(16))), text);
    tally.equal("17 blocks", printed(&form_of(&chain(17))), "refused 44 at 1088\n".to_string());
    tally.equal("64 open blocks", printed(&form_of(&open_chain(64, 63))), "refused 44 at 4096\n".to_string());
    let no_count_but = Counter { initial: -2, ..no_count };
    tally.equal(
        "a count of 2",
        printed(&parts_bytes(&no_count_but, &chain(1))).lines().nth(1),
        Some("iterations 2"),
    );
    let endless = Counter { step: 0, limit: 0, ..no_count };
    tally.equal("no count", printed(&parts_bytes(&endless, &chain(17))), "refused 20 at 0\n".to_string());
    tally.equal("nothing", printed(&[]), "refused 17 at 0\n".to_string());
    tally.equal("crowded", printed(&form_of(&sixty_five_sets(7))), "refused 40 at 1\n".to_string());
    // 15 open branches in a row and a way to the end: 2^16 - 1 beginnings, the most that the report can walk.
    let last_line = |blocks, open| printed(&form_of(&open_chain(blocks, open))).lines().last().map(str::to_string);
    tally.equal("49151 beginnings", last_line(16, 14), Some("walked 49151".to_string()));
    tally.equal("65535 beginnings", last_line(16, 15), Some("walked 65535".to_string()));
}

fn many_ways(tally: &mut Tally) {
    for many in [1, 2, 13, 99_999, 100_000, 100_001] {
        let walked = walk(&form_of(&with_beginnings(many)), u32::MAX, &mut [0; 128]).map(|answer| answer.walked);
        tally.equal(&format!("{many} beginnings"), walked, Ok(many));
    }
    let many = form_of(&open_chain(24, 23));
    tally.equal("too many ways to list", walk(&many, u32::MAX, &mut [0; 128]), Err(NoAnswer::TooManyWays));
    tally.equal("and too few bytes", walk(&many, u32::MAX, &mut [0; 47]), refused(42, 48));
}
