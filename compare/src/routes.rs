//! Routes: ways from block 0, and their beginnings, each listed whole and judged alone.

use crate::conflict::{events, has_conflict};
use crate::form::Body;
use crate::ways::{for_each_way, weight, Step, Way};

/// A route byte of the last block.
pub const LAST: u8 = 3;

#[derive(Clone, Debug, PartialEq, Eq)]
pub struct Route {
    pub weight: u64,
    pub steps: Vec<Step>,
}

impl Route {
    /// One byte a block: 0 not on it, 1 left by jump or go, 2 by fall, 3 the last block.
    pub fn bytes(&self, body: &Body) -> Vec<u8> {
        let mut bytes = vec![0; body.block_count];
        for step in &self.steps {
            bytes[step.block] = match step.left {
                Some(Way::Jump) => 1,
                Some(Way::Fall) => 2,
                None => LAST,
            };
        }
        bytes
    }
}

/// The dearest and the cheapest iteration.
#[derive(Clone, Debug, PartialEq, Eq)]
pub struct Routes {
    pub heaviest: Route,
    pub lightest: Route,
}

impl Routes {
    /// The heaviest's bytes, then the lightest's.
    pub fn bytes(&self, body: &Body) -> Vec<u8> {
        [self.heaviest.bytes(body), self.lightest.bytes(body)].concat()
    }
}

/// The heaviest and the lightest conflict-free route, if there is one: what the routes weigh at most and at least, and
/// then the first of that weight.
pub fn routes(body: &Body) -> Option<Routes> {
    let mut least_and_most: Option<(u64, u64)> = None;
    for_each_way(body, 0, |way, _| {
        let weight = weight(body, way);
        let (least, most) = least_and_most.unwrap_or((u64::MAX, u64::MIN));
        // What weighs neither less nor more than what was met need not be judged.
        if (weight < least || weight > most) && is_free(body, way) {
            least_and_most = Some((least.min(weight), most.max(weight)));
        }
    });
    let (least, most) = least_and_most?;
    Some(Routes { heaviest: first_of_weight(body, most)?, lightest: first_of_weight(body, least)? })
}

/// The first conflict-free route of this weight: ways come in the document's order.
fn first_of_weight(body: &Body, wanted: u64) -> Option<Route> {
    let mut first = None;
    for_each_way(body, 0, |way, _| {
        if first.is_none() && weight(body, way) == wanted && is_free(body, way) {
            first = Some(Route { weight: wanted, steps: way.to_vec() });
        }
    });
    first
}

pub fn is_free(body: &Body, way: &[Step]) -> bool {
    !has_conflict(&events(body, way))
}

/// Walked: the number of conflict-free beginnings of routes, that of block 0 alone included. Each beginning is listed
/// once, with the first route that has it, and judged from its first event on.
pub fn walked(body: &Body) -> u64 {
    let mut walked = 0;
    for_each_way(body, 0, |way, first_new| {
        for arrival in first_new..way.len() {
            let mut beginning = way[..=arrival].to_vec();
            beginning[arrival].left = None;
            if is_free(body, &beginning) {
                walked += 1;
            }
        }
    });
    walked
}
