//! Counted loops: the loop is run and looked at.
//!
//! "The count is the k of at least 1 such that the values after steps 1 to k all fit i32, the relation holds after each
//! step before the k-th and fails after the k-th."
//!
//! Short loops are stepped one by one. A long loop is searched by halving, which divides nothing and knows no formula:
//! it only asks what the value is after some number of steps. The definition is then asked again of what was found.
//! The range of the values is a field, so that the self-tests can step every loop of a narrow range and hold the
//! search to it.

use crate::conflict::{meets, opposite, GREATER, LESS, NOT_EQUAL};
use crate::form::{Counter, Refusal, HIGHEST_RELATION};

/// So many steps are run one by one before the search takes over.
const STEPPED: u64 = 2_000;

/// A counter over values from `lowest` to `highest`.
#[derive(Clone, Copy, Debug)]
pub struct Counting {
    pub initial: i64,
    pub step: i64,
    pub relation: u8,
    pub limit: i64,
    pub lowest: i64,
    pub highest: i64,
}

/// What running a loop for some steps showed.
#[derive(Clone, Copy, Debug, PartialEq, Eq)]
pub enum Stepped {
    Count(u64),
    NoCount,
    StillRunning,
}

impl Counting {
    pub fn of(counter: &Counter) -> Counting {
        Counting {
            initial: counter.initial as i64,
            step: counter.step as i64,
            relation: counter.relation,
            limit: counter.limit as i64,
            lowest: i32::MIN as i64,
            highest: i32::MAX as i64,
        }
    }

    /// The loop run step by step, at most so many.
    pub fn stepped(&self, most: u64) -> Stepped {
        let mut value = self.initial;
        for steps in 1..=most {
            value += self.step;
            if value < self.lowest || value > self.highest {
                return Stepped::NoCount;
            }
            if !meets(value, self.relation, self.limit) {
                return Stepped::Count(steps);
            }
        }
        Stepped::StillRunning
    }

    fn value_after(&self, steps: u64) -> i128 {
        self.initial as i128 + steps as i128 * self.step as i128
    }

    fn fits_after(&self, steps: u64) -> bool {
        (self.lowest as i128..=self.highest as i128).contains(&self.value_after(steps))
    }

    fn holds_after(&self, steps: u64, relation: u8) -> bool {
        meets(self.value_after(steps), relation, self.limit as i128)
    }

    /// The count found by halving, or none.
    ///
    /// From the first step on the values move one way or stand still. The values that fit and meet the relation lie
    /// side by side, for every relation but ≠; and for ≠ those on the side of the limit where the first value is. So
    /// `goes on` holds for the first steps, if for any, and once it has failed it holds no more: halving finds where.
    pub fn searched(&self) -> Option<u64> {
        if !self.fits_after(1) {
            return None;
        }
        if !self.holds_after(1, self.relation) {
            return Some(1);
        }
        if self.step == 0 {
            return None; // it held, and the value stays
        }
        let side = match self.relation {
            NOT_EQUAL if self.holds_after(1, LESS) => LESS,
            NOT_EQUAL => GREATER,
            other => other,
        };
        let goes_on = |steps: u64| self.fits_after(steps) && self.holds_after(steps, side);
        let certainly_outside = (self.highest - self.lowest) as u64 + 2;
        let (mut on, mut over) = (1, certainly_outside);
        while on + 1 < over {
            let middle = on + (over - on) / 2;
            if goes_on(middle) {
                on = middle;
            } else {
                over = middle;
            }
        }
        // For ≠ a step may have passed over the limit: the relation then holds for good, until a value does not fit.
        if !self.fits_after(over) || self.holds_after(over, self.relation) {
            return None;
        }
        assert!(self.is_the_count_at_its_ends(over), "the search found {over} for {self:?}");
        Some(over)
    }

    /// The definition, asked at the first step, at the last but one and at the last.
    fn is_the_count_at_its_ends(&self, count: u64) -> bool {
        let before = [1, count - 1];
        self.fits_after(count)
            && self.holds_after(count, opposite(self.relation))
            && before.iter().all(|steps| self.fits_after(*steps) && self.holds_after(*steps, self.relation))
    }
}

/// The counter asked with four numbers: the count, or 15 or 20 with place 0.
pub fn count(counter: &Counter) -> Result<u64, Refusal> {
    if counter.relation > HIGHEST_RELATION {
        return Err(Refusal::new(15, 0));
    }
    let counting = Counting::of(counter);
    let found = match counting.stepped(STEPPED) {
        Stepped::Count(count) => Some(count),
        Stepped::NoCount => None,
        Stepped::StillRunning => counting.searched(),
    };
    found.ok_or(Refusal::new(20, 0))
}
