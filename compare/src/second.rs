//! The second program's answer to a question that the proved code is asked: numbers, and what the memory then holds.

use crate::calls::{pair, Listing, NoAnswer, SweepAnswer, WalkAnswer};
use crate::counter;
use crate::form::Counter;
use crate::memory::Memory;
use crate::report::TABLE_ENTRIES;
use crate::rows::RowEntry;
use crate::served::{Answer, Call, Numbers, Question};

/// The answer, or none where there are too many ways to list. The listing is that of the question's form.
pub fn answer(listing: &Listing, question: &Question) -> Option<Answer> {
    let mut memory = question.memory.clone();
    match numbers(listing, question.call, question.numbers, &mut memory) {
        Ok(numbers) => Some(Answer { numbers, memory }),
        Err(NoAnswer::Refused(refusal)) => {
            Some(Answer { numbers: padded(&[refusal.number as u64, refusal.place]), memory })
        }
        Err(NoAnswer::TooManyWays) => None,
    }
}

/// With zeros for the numbers that a call does not give.
fn padded(given: &[u64]) -> Numbers {
    let mut numbers = Numbers::default();
    numbers[..given.len()].copy_from_slice(given);
    numbers
}

fn numbers(listing: &Listing, call: Call, given: [u64; 4], memory: &mut Memory) -> Result<Numbers, NoAnswer> {
    Ok(match call {
        Call::Verdict => {
            listing.body()?;
            padded(&[])
        }
        Call::Rewrite => {
            let written = listing.rewrite(memory.out_mut())?;
            padded(&[0, written as u64])
        }
        Call::Count => {
            let [initial, step, limit] = [given[0], given[1], given[3]].map(|number| number as i32);
            let count = counter::count(&Counter { initial, step, relation: given[2] as u8, limit })?;
            padded(&[0, 0, count])
        }
        Call::Conflicts => {
            let written = listing.conflicts(memory.out_mut())?;
            padded(&[0, 0, written as u64 / 5])
        }
        Call::Pair => {
            let conflict = pair(given[0] as u8, given[1] as i32, given[2] as u8, given[3] as i32);
            padded(&[conflict as u64])
        }
        Call::Walk => {
            let WalkAnswer { count, weight, bound, least, least_total, walked } =
                listing.walk(given[0] as u32, memory.out_mut())?;
            [0, 0, count, weight, bound, least, least_total, walked]
        }
        Call::Sweep => {
            let mut own_table = vec![RowEntry::default(); TABLE_ENTRIES];
            swept(listing.sweep(&mut own_table, memory.out_mut())?)
        }
        Call::SweepTable => {
            let mut table = memory.entries();
            let answer = listing.sweep(&mut table, memory.out_mut());
            memory.set_entries(&table);
            swept(answer?)
        }
        Call::Stack => panic!("the second program knows nothing of the library's stack"),
    })
}

fn swept(answer: SweepAnswer) -> Numbers {
    let SweepAnswer { count, weight, bound, least, least_total, kept } = answer;
    [0, 0, count, weight, bound, least, least_total, kept]
}
