//! The report program's text.

use crate::calls::{conflicts, sweep, walk, NoAnswer};
use crate::form::{self, Refusal, MOST_BLOCKS};
use crate::rows::{RowEntry, ROW_ENTRIES};

/// The report's walk budget and the entries of its sweep table.
pub const BUDGET: u32 = 100_000;
pub const TABLE_ENTRIES: usize = 1_024;

/// So many blocks the table has room for.
pub const OWN_TABLE_BLOCKS: usize = TABLE_ENTRIES / ROW_ENTRIES;

/// More bytes than any conflict list takes: 2 outcomes of 64 second blocks, each with 16 variables and 2 outcomes of 64
/// first blocks.
pub const LONGEST_LIST: usize = 5 * (2 * MOST_BLOCKS) * (18 * MOST_BLOCKS);

/// What the report program prints for these bytes, refusals too. No text where there are too many ways to list.
pub fn report(form: &[u8]) -> Result<String, NoAnswer> {
    match lines(form) {
        Err(NoAnswer::Refused(refusal)) => Ok(format!("{refusal}\n")),
        other => other,
    }
}

/// The blocks on a route with how they are left.
fn on_the_route(route: &[u8]) -> String {
    let named = |(block, byte): (usize, &u8)| match byte {
        0 => None,
        _ => Some(format!("{block}{}", ["J", "F", "E"][*byte as usize - 1])),
    };
    route.iter().enumerate().filter_map(named).collect::<Vec<String>>().join(" ")
}

/// The ten lines, or the refusal that is printed alone: any but 41.
fn lines(form: &[u8]) -> Result<String, NoAnswer> {
    let mut table = vec![RowEntry::default(); TABLE_ENTRIES];
    let mut routes = [0; 2 * MOST_BLOCKS];
    let mut list = vec![0; LONGEST_LIST];
    let swept = sweep(form, &mut table, &mut routes)?;
    let list_bytes = conflicts(form, &mut list)?;
    let walked = match walk(form, BUDGET, &mut [0; 2 * MOST_BLOCKS]) {
        Ok(answer) => answer.walked.to_string(),
        Err(NoAnswer::Refused(Refusal { number: 41, .. })) => "over".to_string(),
        Err(other) => return Err(other),
    };
    let block_count = form::read(form)?.block_count;
    let (heaviest, lightest) = routes[..2 * block_count].split_at(block_count);
    let lines = [
        ("blocks", block_count.to_string()),
        ("iterations", swept.count.to_string()),
        ("conflicts", (list_bytes / 5).to_string()),
        ("weight", swept.weight.to_string()),
        ("bound", swept.bound.to_string()),
        ("route", on_the_route(heaviest)),
        ("least", swept.least.to_string()),
        ("least route", on_the_route(lightest)),
        ("kept", swept.kept.to_string()),
        ("walked", walked),
    ];
    Ok(lines.into_iter().map(|(word, said)| format!("{word} {said}\n")).collect())
}
