//! The trainer's cases of document 01 that are about its body; its counts and pairs stand in `counts` and `conflicts`.

use by_listing::calls::{conflicts, sweep, walk, NoAnswer, SweepAnswer, WalkAnswer};
use by_listing::example::trainer_form;
use by_listing::form::{read, Refusal};
use by_listing::report::{report, TABLE_ENTRIES};
use by_listing::rows::{EntryWords, RowEntry};
use by_listing::tally::Tally;

use crate::one_tail;

const REPORT: &str = "\
blocks 8
iterations 10
conflicts 3
weight 43
bound 430
route 0J 2J 3F 5F 6J 7E
least 17
least route 0F 1J 3F 5J 7E
kept 4
walked 13
";

/// The heaviest route's bytes, then the lightest's.
const ROUTES: [u8; 16] = [1, 0, 1, 2, 0, 2, 1, 3, 2, 1, 0, 2, 0, 1, 0, 3];

/// The trainer's row 0, worked out by hand: nothing is open, and the first of the heaviest is another tail than the first
/// of the lightest.
const ROW_0: EntryWords =
    [0, 0, 43, 1 << 0 | 1 << 2 | 1 << 6, 1 << 3 | 1 << 5, 17, 1 << 1 | 1 << 5, 1 << 0 | 1 << 3];

/// Its other rows, in which a set of open edges has one tail only, which is the heaviest and the lightest: edge 3J stands
/// second to 0J; 5J and 5F stand second to the assignments of blocks 2 and 1, which close them.
const ROWS_FROM_1: [(usize, &[[u64; 5]]); 7] = [
    (
        1,
        &[
            [0, 0, 3 + 2 + 4 + 1, 1 << 1 | 1 << 5, 1 << 3],
            [1 << 3, 0, 3 + 2 + 25 + 4 + 1, 1 << 1 | 1 << 3 | 1 << 4 | 1 << 5, 0],
        ],
    ),
    (
        2,
        &[
            [0, 0, 11 + 2 + 4 + 18 + 1, 1 << 2 | 1 << 6, 1 << 3 | 1 << 5],
            [1 << 3, 0, 11 + 2 + 25 + 4 + 18 + 1, 1 << 2 | 1 << 3 | 1 << 4 | 1 << 6, 1 << 5],
        ],
    ),
    (
        3,
        &[
            [0, 1 << 5, 2 + 4 + 18 + 1, 1 << 6, 1 << 3 | 1 << 5],
            [1 << 3, 1 << 5, 2 + 25 + 4 + 18 + 1, 1 << 3 | 1 << 4 | 1 << 6, 1 << 5],
            [1 << 5, 0, 2 + 4 + 1, 1 << 5, 1 << 3],
            [1 << 3 | 1 << 5, 0, 2 + 25 + 4 + 1, 1 << 3 | 1 << 4 | 1 << 5, 0],
        ],
    ),
    (4, &[[0, 1 << 5, 25 + 4 + 18 + 1, 1 << 4 | 1 << 6, 1 << 5], [1 << 5, 0, 25 + 4 + 1, 1 << 4 | 1 << 5, 0]]),
    (5, &[[0, 1 << 5, 4 + 18 + 1, 1 << 6, 1 << 5], [1 << 5, 0, 4 + 1, 1 << 5, 0]]),
    (6, &[[0, 0, 18 + 1, 1 << 6, 0]]),
    (7, &[[0, 0, 1, 0, 0]]),
];

pub fn run(tally: &mut Tally) {
    let form = trainer_form();
    tally.equal("the trainer's form has 173 bytes", form.len(), 173);
    let kept_example = include_bytes!("../../../../examples/trainer.form");
    tally.equal("examples/trainer.form is the trainer's form", &kept_example[..], &form[..]);
    tally.equal("the trainer's report", report(&form), Ok(REPORT.to_string()));

    let mut list = [9; 16];
    tally.equal("the trainer's list has 15 bytes", conflicts(&form, &mut list), Ok(15));
    let entries = [2, 0, 1, 3, 1, 1, 2, 1, 5, 1, 1, 1, 1, 5, 2, 9];
    tally.equal("the trainer's list, and the byte past it unchanged", list, entries);

    let mut routes = [9; 17];
    let refused = Err(NoAnswer::Refused(Refusal { number: 41, place: 12 }));
    tally.equal("budget 12 is refused", walk(&form, 12, &mut routes), refused);
    tally.equal("budget 12 leaves the routes' bytes", routes, [9; 17]);
    let answer = WalkAnswer { count: 10, weight: 43, bound: 430, least: 17, least_total: 170, walked: 13 };
    tally.equal("budget 13 is enough", walk(&form, 13, &mut routes), Ok(answer));
    tally.equal("the walk's routes", &routes[..16], &ROUTES[..]);
    tally.equal("the byte past the walk's routes", routes[16], 9);

    let mut routes = [9; 17];
    let mut table = vec![RowEntry::default(); TABLE_ENTRIES];
    let answer = SweepAnswer { count: 10, weight: 43, bound: 430, least: 17, least_total: 170, kept: 4 };
    tally.equal("the trainer's sweep", sweep(&form, &mut table, &mut routes), Ok(answer));
    tally.equal("the sweep's routes", &routes[..16], &ROUTES[..]);
    tally.equal("the byte past the sweep's routes", routes[16], 9);
    let row_0 = vec![RowEntry::of_words(ROW_0)];
    let others = ROWS_FROM_1.map(|(block, entries)| (block, entries.iter().map(one_tail).collect()));
    for (block, entries) in [(0, row_0)].into_iter().chain(others) {
        let row = &table[64 * block..64 * (block + 1)];
        tally.equal("the trainer's row", &row[..entries.len()], &entries[..]);
        let rest_is_zero = row[entries.len()..].iter().all(|entry| *entry == RowEntry::default());
        tally.check(rest_is_zero, || format!("row {block} is longer"));
    }

    let mut changed = form;
    tally.equal("block 1's target stands at 43", changed[34 + 9], 3);
    changed[34 + 9] = 1;
    tally.equal("block 1's target made 1", report(&changed), Ok("refused 16 at 34\n".to_string()));
    tally.equal("the reader says the same", read(&changed).err(), Some(Refusal { number: 16, place: 34 }));
}
