//! The second program at the command line. A form on standard input; what is printed is in the README.

use std::env;
use std::io::{self, Read, Write};
use std::process::ExitCode;

use by_listing::calls::{conflicts, sweep, walk, NoAnswer, MOST_WAYS};
use by_listing::conflict::conflict_list;
use by_listing::counter;
use by_listing::example::trainer_form;
use by_listing::form::{self, Counter, Refusal, MOST_BLOCKS};
use by_listing::generate::{generate, Kind, KINDS};
use by_listing::report::{report, LONGEST_LIST};
use by_listing::rows::{swept, RowEntry, ROW_ENTRIES};

const USAGE: &str = "usage: compare [report | verdict | list | rows | walked] < FORM
       compare count INITIAL STEP RELATION LIMIT
       compare example > FORM
       compare generate KIND SEED > FORM";

fn main() -> ExitCode {
    let words: Vec<String> = env::args().skip(1).collect();
    let words: Vec<&str> = words.iter().map(String::as_str).collect();
    match words[..] {
        [] | ["report"] => answer(report),
        ["verdict"] => answer(verdict),
        ["list"] => answer(list),
        ["rows"] => answer(rows),
        ["walked"] => answer(walked),
        ["count", initial, step, relation, limit] => {
            match (initial.parse(), step.parse(), relation.parse(), limit.parse()) {
                (Ok(initial), Ok(step), Ok(relation), Ok(limit)) => {
                    count(&Counter { initial, step, relation, limit })
                }
                _ => usage(),
            }
        }
        ["example"] => print(&trainer_form()),
        ["generate", kind, seed] => match (Kind::named(kind), seed.parse()) {
            (Some(kind), Ok(seed)) => print(&generate(kind, seed)),
            _ => usage(),
        },
        _ => usage(),
    }
}

fn usage() -> ExitCode {
    let kinds: Vec<&str> = KINDS.iter().map(|kind| kind.name()).collect();
    eprintln!("{USAGE}\nkinds: {}; a seed is a whole number of 64 bits", kinds.join(", "));
    ExitCode::from(2)
}

fn print(bytes: &[u8]) -> ExitCode {
    match io::stdout().write_all(bytes) {
        Ok(()) => ExitCode::SUCCESS,
        Err(_) => ExitCode::from(2),
    }
}

/// The counter asked with four numbers.
fn count(counter: &Counter) -> ExitCode {
    match counter::count(counter) {
        Ok(count) => print(format!("{count}\n").as_bytes()),
        Err(refusal) => print(format!("{refusal}\n").as_bytes()),
    }
}

/// Prints what the request says of the form on standard input. A refusal is an answer too.
fn answer(request: fn(&[u8]) -> Result<String, NoAnswer>) -> ExitCode {
    let mut form = Vec::new();
    if let Err(error) = io::stdin().read_to_end(&mut form) {
        eprintln!("the form on standard input cannot be read: {error}");
        return ExitCode::from(2);
    }
    match request(&form) {
        Ok(text) => print(text.as_bytes()),
        Err(NoAnswer::Refused(refusal)) => print(format!("{refusal}\n").as_bytes()),
        Err(NoAnswer::TooManyWays) => {
            eprintln!("there are more than {MOST_WAYS} ways through this body: too many to list");
            ExitCode::from(3)
        }
    }
}

/// What the reader says.
fn verdict(form: &[u8]) -> Result<String, NoAnswer> {
    form::read(form)?;
    Ok("accepted\n".to_string())
}

/// The conflict list, an entry a line, its five bytes as numbers.
fn list(form: &[u8]) -> Result<String, NoAnswer> {
    let mut out = vec![0; LONGEST_LIST];
    let written = conflicts(form, &mut out)?;
    Ok(out[..written]
        .chunks(5)
        .map(|entry| line(&entry.iter().map(|byte| *byte as u64).collect::<Vec<_>>()))
        .collect())
}

/// Every row, from block 0 up, an entry a line: block, jump set, fall set; then of the heaviest tail weight, set left by
/// jump or go and set left by fall, and the same of the lightest. At 40 the complete rows, then the refusal.
fn rows(form: &[u8]) -> Result<String, NoAnswer> {
    let mut table = vec![RowEntry::default(); ROW_ENTRIES * MOST_BLOCKS];
    let refused = match sweep(form, &mut table, &mut [0; 2 * MOST_BLOCKS]) {
        Ok(_) => String::new(),
        Err(NoAnswer::Refused(refusal @ Refusal { number: 40 | 43, .. })) => format!("{refusal}\n"),
        Err(other) => return Err(other),
    };
    // The rows themselves, not the table: a last block that costs nothing has an entry of zeros.
    let body = form::read(form)?;
    let mut text = String::new();
    for (block, row) in swept(&body, &conflict_list(&body)).rows.iter().rev() {
        for entry in row {
            text += &line(&[&[*block as u64][..], &entry.words()].concat());
        }
    }
    Ok(text + &refused)
}

/// The number of conflict-free beginnings.
fn walked(form: &[u8]) -> Result<String, NoAnswer> {
    let answer = walk(form, u32::MAX, &mut [0; 2 * MOST_BLOCKS])?;
    Ok(format!("{}\n", answer.walked))
}

fn line(numbers: &[u64]) -> String {
    let numbers: Vec<String> = numbers.iter().map(u64::to_string).collect();
    numbers.join(" ") + "\n"
}
