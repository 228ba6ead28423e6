//! What a body's routes and rows are like: what the inputs of a run must have, so that wrong answers would show.

use crate::conflict::Entry;
use crate::form::Body;
use crate::routes::is_free;
use crate::rows::tails_by_set;
use crate::tally::Met;
use crate::ways::{for_each_way, weight};

/// The weights of some routes, or of a set's tails; there is at least one.
struct Weights {
    all: Vec<u64>,
    least: u64,
    most: u64,
}

impl Weights {
    fn of(all: Vec<u64>) -> Option<Weights> {
        let (least, most) = (*all.iter().min()?, *all.iter().max()?);
        Some(Weights { all, least, most })
    }

    fn has_twice(&self, weight: u64) -> bool {
        self.all.iter().filter(|other| **other == weight).count() > 1
    }
}

/// Notes whether others could be taken for the heaviest and the lightest route: one of the same weight that comes later,
/// or a way beyond them that has a conflict.
pub fn note_routes(met: &mut Met, body: &Body) {
    let (mut free, mut struck_out) = (Vec::new(), Vec::new());
    for_each_way(body, 0, |way, _| {
        let kind = if is_free(body, way) { &mut free } else { &mut struck_out };
        kind.push(weight(body, way));
    });
    let Some(free) = Weights::of(free) else { return };
    met.note("two heaviest routes or more", free.has_twice(free.most));
    met.note("two lightest routes or more", free.has_twice(free.least));
    met.note("routes of different weights", free.least < free.most);
    met.note("a heavier way with a conflict", struck_out.iter().any(|weight| *weight > free.most));
    met.note("a lighter way with a conflict", struck_out.iter().any(|weight| *weight < free.least));
}

/// The same of the tails of a set of open edges, at any block.
pub fn note_rows(met: &mut Met, body: &Body, list: &[Entry]) {
    let sets = (0..body.block_count).flat_map(|block| tails_by_set(body, list, block).into_values());
    let sets: Vec<Weights> =
        sets.filter_map(|tails| Weights::of(tails.iter().map(|tail| tail.weight).collect())).collect();
    met.note("two heaviest tails of a set", sets.iter().any(|set| set.has_twice(set.most)));
    met.note("two lightest tails of a set", sets.iter().any(|set| set.has_twice(set.least)));
    met.note("tails of different weights in a set", sets.iter().any(|set| set.least < set.most));
}
