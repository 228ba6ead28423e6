//! Bodies made to be at a limit: of so many blocks, beginnings or sets of open edges.

use crate::conflict::AT_LEAST;
use crate::form::{Block, Effect, Parts};

/// So many blocks of cost 1, each of which goes to the next.
pub fn chain(blocks: u8) -> Parts {
    open_chain(blocks, 0)
}

/// The same with the first so many open branches, whose targets are both the next block.
pub fn open_chain(blocks: u8, open: u8) -> Parts {
    let branch_or_go = |block: u8| match block < open {
        true => Block::open(1, block + 1, block + 1),
        false => Block::go(1, block + 1),
    };
    let mut parts: Parts = (0..blocks - 1).map(|block| (branch_or_go(block), vec![])).collect();
    parts.push((Block::end(1), vec![]));
    parts
}

/// A body with exactly so many beginnings: one more than those of the next block, or than twice those.
pub fn with_beginnings(many: u64) -> Parts {
    let mut steps = Vec::new();
    let mut left = many;
    while left > 1 {
        steps.push(left % 2 == 1);
        left = if left % 2 == 1 { left / 2 } else { left - 1 };
    }
    let blocks = steps.into_iter().zip(1..);
    let mut parts: Parts = blocks
        .map(|(twice, next)| (if twice { Block::open(1, next, next) } else { Block::go(1, next) }, vec![]))
        .collect();
    parts.push((Block::end(1), vec![]));
    parts
}

/// Block 0 sets as many variables as there are tests; then a test of each. Every set of their edges is open in block 1:
/// jump edges conflict with block 0, fall edges do not.
pub fn open_tests(tests: u8) -> Parts {
    let effects = (0..tests).map(|variable| Effect::constant(variable, 0)).collect();
    let mut parts: Parts = vec![(Block::go(1, 1), effects)];
    parts.extend((0..tests).map(|test| (Block::test(1, test, AT_LEAST, 1, test + 2, test + 2), vec![])));
    parts.push((Block::end(1), vec![]));
    parts
}

/// The same with a way round the block that sets the variables, on which all edges of the tests can be taken: with 16 of
/// them there are more beginnings than the report's budget.
pub fn open_tests_and_a_way_round(tests: u8) -> Parts {
    let effects = (0..tests).map(|variable| Effect::constant(variable, 0)).collect();
    let mut parts: Parts = vec![(Block::open(1, 1, 2), vec![]), (Block::go(1, 2), effects)];
    parts.extend((0..tests).map(|test| (Block::test(1, test, AT_LEAST, 1, test + 3, test + 3), vec![])));
    parts.push((Block::end(1), vec![]));
    parts
}
