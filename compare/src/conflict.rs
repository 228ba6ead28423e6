//! Conflicts: the pair test by trying whole numbers, the conflict of a way by all pairs of its events, and the conflict
//! list by all paths.
//!
//! Nothing here compares the constants of two conditions with each other, and no set of variables or blocks is carried
//! along a path: a way is written out as its events, and the events are looked at pair by pair.

use std::collections::BTreeSet;

use crate::form::{Block, Body, CONSTANT, TEST};
use crate::ways::{for_each_way, Step, Way};

/// Relations.
pub const EQUAL: u8 = 0;
pub const NOT_EQUAL: u8 = 1;
pub const LESS: u8 = 2;
pub const AT_LEAST: u8 = 3;
pub const GREATER: u8 = 4;
pub const AT_MOST: u8 = 5;

/// Does the value stand in the relation to the constant?
pub fn meets<Number: PartialOrd>(value: Number, relation: u8, constant: Number) -> bool {
    match relation {
        EQUAL => value == constant,
        NOT_EQUAL => value != constant,
        LESS => value < constant,
        AT_LEAST => value >= constant,
        GREATER => value > constant,
        AT_MOST => value <= constant,
        _ => panic!("there is no relation {relation}"),
    }
}

/// The relation that holds exactly when this one does not.
pub fn opposite(relation: u8) -> u8 {
    match relation {
        EQUAL => NOT_EQUAL,
        NOT_EQUAL => EQUAL,
        LESS => AT_LEAST,
        AT_LEAST => LESS,
        GREATER => AT_MOST,
        AT_MOST => GREATER,
        _ => panic!("there is no relation {relation}"),
    }
}

#[derive(Clone, Copy, Debug, PartialEq, Eq)]
pub struct Condition {
    pub variable: u8,
    pub relation: u8,
    pub constant: i32,
}

impl Condition {
    pub fn met_by(&self, value: i64) -> bool {
        meets(value, self.relation, self.constant as i64)
    }
}

/// How far from a constant whole numbers are tried. Each condition's truth changes only at its constant, so where the
/// two conditions share a number they share one within two of a constant: one more for good measure. The numbers
/// tried may lie outside i32, as document 01's whole numbers may.
const NEAR: i64 = 3;

/// Two edge conditions on one variable conflict when no whole number meets both.
pub fn conditions_conflict(one: &Condition, other: &Condition) -> bool {
    let near = |constant: i32| constant as i64 - NEAR..=constant as i64 + NEAR;
    one.variable == other.variable
        && !near(one.constant).chain(near(other.constant)).any(|value| one.met_by(value) && other.met_by(value))
}

/// The condition that a block's edge carries, if it is a test's: its relation on the jump, the opposite on the fall.
pub fn edge_condition(block: &Block, way: Way) -> Option<Condition> {
    (block.ending == TEST).then(|| Condition {
        variable: block.variable,
        relation: if way == Way::Jump { block.relation } else { opposite(block.relation) },
        constant: block.constant,
    })
}

/// What happens on a way: an effect (its constant, or none when the value is unknown) or a test's edge.
#[derive(Clone, Copy, Debug)]
pub enum Happening {
    Effect { variable: u8, constant: Option<i32> },
    Edge { way: Way, condition: Condition },
}

#[derive(Clone, Copy, Debug)]
pub struct Event {
    pub block: usize,
    pub what: Happening,
}

impl Event {
    fn variable(&self) -> u8 {
        match self.what {
            Happening::Effect { variable, .. } => variable,
            Happening::Edge { condition, .. } => condition.variable,
        }
    }

    fn is_effect_on(&self, variable: u8) -> bool {
        matches!(self.what, Happening::Effect { variable: own, .. } if own == variable)
    }
}

/// The events of a way in order: each block's effects and then, where it is left and is a test, its edge.
pub fn events(body: &Body, way: &[Step]) -> Vec<Event> {
    let mut events = Vec::new();
    for step in way {
        for effect in body.effects_of(step.block) {
            let constant = (effect.how == CONSTANT).then_some(effect.constant);
            let what = Happening::Effect { variable: effect.variable, constant };
            events.push(Event { block: step.block, what });
        }
        let Some(way) = step.left else { continue };
        if let Some(condition) = edge_condition(&body.blocks[step.block], way) {
            events.push(Event { block: step.block, what: Happening::Edge { way, condition } });
        }
    }
    events
}

/// Would these two conflict, if nothing lay between? The second must be an edge, on the first's variable.
fn clash(first: &Event, second: &Event) -> bool {
    let Happening::Edge { condition, .. } = second.what else { return false };
    first.variable() == condition.variable
        && match first.what {
            Happening::Effect { constant: Some(constant), .. } => !condition.met_by(constant as i64),
            Happening::Effect { constant: None, .. } => false,
            Happening::Edge { condition: earlier, .. } => conditions_conflict(&earlier, &condition),
        }
}

/// Do the events at these places, in order, conflict, with no effect on the variable between? An earlier effect of the
/// same block on the variable has the later one between itself and any edge, so only the last one counts.
fn pair_conflicts(events: &[Event], first: usize, second: usize) -> bool {
    let variable = events[second].variable();
    clash(&events[first], &events[second])
        && !events[first + 1..second].iter().any(|event| event.is_effect_on(variable))
}

/// Does some pair of the events conflict?
pub fn has_conflict(events: &[Event]) -> bool {
    (0..events.len()).any(|second| (0..second).any(|first| pair_conflicts(events, first, second)))
}

/// Kinds of entries in the conflict list.
pub const ASSIGNMENT_PAIR: u8 = 1;
pub const EDGE_PAIR: u8 = 2;

/// An entry of the conflict list. The fields stand in the order that the list ascends by.
#[derive(Clone, Copy, Debug, PartialEq, Eq, PartialOrd, Ord)]
pub struct Entry {
    pub second_block: u8,
    pub second_outcome: u8,
    pub kind: u8,
    pub first_block: u8,
    /// The first's variable (an assignment) or outcome (an edge).
    pub third: u8,
}

impl Entry {
    pub fn bytes(&self) -> [u8; 5] {
        [self.kind, self.first_block, self.third, self.second_block, self.second_outcome]
    }

    fn of(first: &Event, second: &Event) -> Entry {
        let (kind, third) = match first.what {
            Happening::Effect { variable, .. } => (ASSIGNMENT_PAIR, variable),
            Happening::Edge { way, .. } => (EDGE_PAIR, way as u8),
        };
        let Happening::Edge { way, .. } = second.what else { panic!("only an edge stands second") };
        Entry {
            second_block: second.block as u8,
            second_outcome: way as u8,
            kind,
            first_block: first.block as u8,
            third,
        }
    }
}

/// The conflict list: every way from every block to the end is listed, reached from block 0 or not, and each conflict
/// between something of its first block and a later edge on it (or the first block's own edge) is noted once.
pub fn conflict_list(body: &Body) -> Vec<Entry> {
    let mut list = BTreeSet::new();
    for first_block in 0..body.block_count {
        for_each_way(body, first_block, |way, _| {
            let events = events(body, way);
            for first in (0..events.len()).filter(|first| events[*first].block == first_block) {
                for second in first + 1..events.len() {
                    if pair_conflicts(&events, first, second) {
                        list.insert(Entry::of(&events[first], &events[second]));
                    }
                }
            }
        });
    }
    list.into_iter().collect()
}

/// The list's bytes, five an entry.
pub fn list_bytes(list: &[Entry]) -> Vec<u8> {
    list.iter().flat_map(|entry| entry.bytes()).collect()
}
