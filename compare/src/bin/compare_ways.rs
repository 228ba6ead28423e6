//! Holds the two proved ways, the full walk and the sweep, to each other, also on bodies that have more ways than the
//! second program can list.
//!
//!     compare_ways [SEED [INPUTS]] -- PROGRAM WORD..
//!
//! Where both ways answer, iterations, weight, bound, least, least total and both routes are the same; where one refuses for
//! a reason that both know, so does the other, at the same place. The sweep over a lent table and over the library's own give
//! the same altogether.

use std::process::ExitCode;

use by_listing::calls::MOST_WAYS;
use by_listing::driver::{agree, Comparison, Form};
use by_listing::form::{read, MOST_BLOCKS};
use by_listing::generate::mostly_wide;
use by_listing::rows::ROW_ENTRIES;
use by_listing::served::{Call, Question};
use by_listing::ways::ways_to_list;

const INPUTS: u64 = 5_000;

/// The walk's budget.
const BUDGET: u32 = 20_000;

fn main() -> ExitCode {
    let mut comparison = Comparison::start("compare_ways", INPUTS, &[Call::Walk, Call::Sweep, Call::SweepTable]);
    for Form { what, bytes: form, .. } in comparison.forms(mostly_wide) {
        let body = read(&form);
        let blocks = body.as_ref().map_or(0, |body| body.block_count);
        let too_many_ways = body.is_ok_and(|body| ways_to_list(&body) > MOST_WAYS);
        let questions = vec![
            Question::on(Call::Walk, &form).budget(BUDGET).out(Some(2 * MOST_BLOCKS)),
            Question::on(Call::SweepTable, &form).table(Some(ROW_ENTRIES * blocks)).out(Some(2 * MOST_BLOCKS)),
            Question::on(Call::Sweep, &form).out(Some(2 * MOST_BLOCKS)),
        ];
        comparison.ask(what, questions, move |_, answers, met| {
            let [walk, lent, own] = answers else { panic!("three were asked") };
            let both = walk.numbers[0] == 0 && lent.numbers[0] == 0;
            met.note("an answer both ways", both);
            met.note("an answer both ways and too many ways to list", both && too_many_ways);
            met.note("an answer both ways, over the own table too", both && own.numbers[0] == 0);
            met.note("an answer both ways and different weights", both && walk.numbers[3] > walk.numbers[5]);
            agree("walk and sweep", [walk, lent], blocks, 7, &[40, 41])?;
            agree("lent table and own", [lent, own], blocks, 8, &[44])
        });
    }
    let of_both = [0, 10, 12, 13, 14, 15, 17, 18, 19, 20];
    comparison.finish(&[
        (Call::Walk, &[&of_both[..], &[41]].concat()),
        (Call::SweepTable, &[&of_both[..], &[40]].concat()),
        (Call::Sweep, &[&of_both[..], &[40, 44]].concat()),
    ])
}
