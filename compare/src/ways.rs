//! Ways from a block to the end, listed whole.
//!
//! They come as an odometer turns: the first way jumps everywhere; the next one falls where the last jump of a branch
//! stood and jumps from there on. This is the document's order, "where two part, jump comes before fall". Conflicts
//! play no part: every way of the graph comes up, and each is judged afterwards for itself.

use crate::form::{Block, Body, END, GO};

/// How a block is left; the numbers are those of route bytes and outcomes. A go counts as a jump.
#[derive(Clone, Copy, Debug, PartialEq, Eq, PartialOrd, Ord, Hash)]
pub enum Way {
    Jump = 1,
    Fall = 2,
}

/// A block on a way, and how it is left: not at all where the way stops.
#[derive(Clone, Copy, Debug, PartialEq, Eq, PartialOrd, Ord, Hash)]
pub struct Step {
    pub block: usize,
    pub left: Option<Way>,
}

fn is_branch(block: &Block) -> bool {
    block.ending != END && block.ending != GO
}

fn target(block: &Block, way: Way) -> usize {
    match way {
        Way::Jump => block.jump as usize,
        Way::Fall => block.fall as usize,
    }
}

/// Goes on from a block to the end, by jump (or go) all along.
fn jump_to_the_end(body: &Body, from: usize, way: &mut Vec<Step>) {
    let mut block = from;
    while body.blocks[block].ending != END {
        way.push(Step { block, left: Some(Way::Jump) });
        block = target(&body.blocks[block], Way::Jump);
    }
    way.push(Step { block, left: None });
}

/// Each way from the block to the end, in order, with the place of the first step that one arrives at anew: no earlier
/// way began with the same blocks, left the same way, up to that step.
pub fn for_each_way(body: &Body, from: usize, mut each: impl FnMut(&[Step], usize)) {
    let mut way = Vec::new();
    jump_to_the_end(body, from, &mut way);
    each(&way, 0);
    loop {
        let jumps_at_branch = |step: &Step| step.left == Some(Way::Jump) && is_branch(&body.blocks[step.block]);
        let Some(turn) = way.iter().rposition(jumps_at_branch) else { return };
        way.truncate(turn + 1);
        way[turn].left = Some(Way::Fall);
        let next = target(&body.blocks[way[turn].block], Way::Fall);
        jump_to_the_end(body, next, &mut way);
        each(&way, turn + 1);
    }
}

/// How many ways there are from all blocks together: what the listing costs. Nothing is answered with this number.
pub fn ways_to_list(body: &Body) -> u64 {
    let mut from = vec![1u64; body.block_count];
    for number in (0..body.last()).rev() {
        let block = &body.blocks[number];
        from[number] = from[target(block, Way::Jump)];
        if is_branch(block) {
            from[number] = from[number].saturating_add(from[target(block, Way::Fall)]);
        }
    }
    from.into_iter().fold(0, u64::saturating_add)
}

/// The sum of the costs on a way.
pub fn weight(body: &Body, way: &[Step]) -> u64 {
    way.iter().map(|step| body.blocks[step.block].cost as u64).sum()
}

/// The blocks of a way that are left so, as a set: bit k for block k.
pub fn left_by(left: Way, way: &[Step]) -> u64 {
    way.iter().filter(|step| step.left == Some(left)).map(|step| 1 << step.block).sum()
}
