//! The sweep's rows, from every tail of every block listed whole. No row is made from another row.

use std::collections::BTreeMap;

use crate::conflict::Entry;
use crate::form::{Body, TEST};
use crate::routes::is_free;
use crate::ways::{for_each_way, left_by, weight, Step, Way};

/// A row of the table has room for so many entries.
pub const ROW_ENTRIES: usize = 64;

/// A tail as the table holds it.
#[derive(Clone, Copy, Debug, Default, PartialEq, Eq)]
pub struct Tail {
    pub weight: u64,
    pub left_by_jump: u64,
    pub left_by_fall: u64,
}

/// A set of open edges: the blocks whose jump edge is open, and those whose fall edge is.
#[derive(Clone, Copy, Debug, Default, PartialEq, Eq, PartialOrd, Ord)]
pub struct OpenSet {
    pub jumps: u64,
    pub falls: u64,
}

/// An entry of the sweep's table: a set of open edges, and of the tails with exactly that set the first of the heaviest
/// and the first of the lightest.
#[derive(Clone, Copy, Debug, Default, PartialEq, Eq)]
pub struct RowEntry {
    pub open: OpenSet,
    pub heaviest: Tail,
    pub lightest: Tail,
}

/// The words of an entry, as they stand in the table.
pub type EntryWords = [u64; 8];

impl RowEntry {
    pub fn words(&self) -> EntryWords {
        let RowEntry { open, heaviest, lightest } = self;
        [
            open.jumps,
            open.falls,
            heaviest.weight,
            heaviest.left_by_jump,
            heaviest.left_by_fall,
            lightest.weight,
            lightest.left_by_jump,
            lightest.left_by_fall,
        ]
    }

    pub fn of_words(words: EntryWords) -> RowEntry {
        let [jumps, falls, tails @ ..] = words;
        let tail =
            |at: usize| Tail { weight: tails[at], left_by_jump: tails[at + 1], left_by_fall: tails[at + 2] };
        RowEntry { open: OpenSet { jumps, falls }, heaviest: tail(0), lightest: tail(3) }
    }
}

/// The edges that the list pairs as second with a first in a block below this one.
fn paired_from_below(list: &[Entry], block: usize) -> Vec<(usize, u8)> {
    list.iter()
        .filter(|entry| (entry.first_block as usize) < block)
        .map(|entry| (entry.second_block as usize, entry.second_outcome))
        .collect()
}

/// Is the edge of the tail's step at this place open? `paired` is what the list pairs from below the tail's block.
fn is_open(body: &Body, tail: &[Step], place: usize, paired: &[(usize, u8)]) -> bool {
    let Step { block, left: Some(way) } = tail[place] else { return false };
    let Some(test) = Some(&body.blocks[block]).filter(|block| block.ending == TEST) else { return false };
    let has_effect =
        |step: &Step| body.effects_of(step.block).iter().any(|effect| effect.variable == test.variable);
    paired.contains(&(block, way as u8)) && !tail[..=place].iter().any(has_effect)
}

/// The blocks whose edges in the tail are open and are left so, as a set.
fn open_set(body: &Body, tail: &[Step], left: Way, paired: &[(usize, u8)]) -> u64 {
    (0..tail.len())
        .filter(|place| tail[*place].left == Some(left) && is_open(body, tail, *place, paired))
        .map(|place| 1 << tail[place].block)
        .sum()
}

/// All tails of the block by their sets of open edges, those of one set in the document's order.
pub fn tails_by_set(body: &Body, list: &[Entry], block: usize) -> BTreeMap<OpenSet, Vec<Tail>> {
    let paired = paired_from_below(list, block);
    let mut by_set: BTreeMap<OpenSet, Vec<Tail>> = BTreeMap::new();
    for_each_way(body, block, |tail, _| {
        if is_free(body, tail) {
            let open = |left: Way| open_set(body, tail, left, &paired);
            let set = OpenSet { jumps: open(Way::Jump), falls: open(Way::Fall) };
            by_set.entry(set).or_default().push(Tail {
                weight: weight(body, tail),
                left_by_jump: left_by(Way::Jump, tail),
                left_by_fall: left_by(Way::Fall, tail),
            });
        }
    });
    by_set
}

fn first_of_weight(tails: &[Tail], weight: Option<u64>) -> Tail {
    *tails.iter().find(|tail| Some(tail.weight) == weight).expect("a set has a tail")
}

/// All entries that row `block` is owed, ascending by jump set, then fall set; more than `ROW_ENTRIES` if crowded.
pub fn row(body: &Body, list: &[Entry], block: usize) -> Vec<RowEntry> {
    let entry = |(open, tails): (OpenSet, Vec<Tail>)| {
        let weights = || tails.iter().map(|tail| tail.weight);
        RowEntry {
            open,
            heaviest: first_of_weight(&tails, weights().max()),
            lightest: first_of_weight(&tails, weights().min()),
        }
    };
    tails_by_set(body, list, block).into_iter().map(entry).collect()
}

/// What the sweep makes: the rows from the last block down, all of them or those above the highest crowded block.
pub struct Swept {
    /// Each block with its row, the last block first.
    pub rows: Vec<(usize, Vec<RowEntry>)>,
    pub crowded: Option<usize>,
}

pub fn swept(body: &Body, list: &[Entry]) -> Swept {
    let mut rows = Vec::new();
    for block in (0..body.block_count).rev() {
        let entries = row(body, list, block);
        if entries.len() > ROW_ENTRIES {
            return Swept { rows, crowded: Some(block) };
        }
        rows.push((block, entries));
    }
    Swept { rows, crowded: None }
}
