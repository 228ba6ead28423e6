//! Bodies of a given number of blocks for the benchmark: nearly every block branches, most by a test, on up to 16 variables,
//! and effects close enough edges that rows are often long and not always crowded.

use by_listing::form::{parts_bytes, Block, Counter, Effect, Parts};
use by_listing::random::Random;

/// The body of this number; the same on every machine.
pub fn body(block_count: usize, seed: u64, number: u64) -> Vec<u8> {
    let random = &mut Random::new(seed ^ Random::new(number).draw());
    let variables = 4 + random.below(9);
    let effects_of_hundred = 25 + random.below(50);
    let tests_of_hundred = 40 + random.below(50);
    let reach = 1 + random.below(3);
    let last = block_count - 1;
    let mut parts = Parts::new();
    for block in 0..last {
        let target = |random: &mut Random| (block + 1 + random.below(reach)).min(last) as u8;
        let cost = random.below(1_000) as u32;
        let (jump, fall) = (target(random), target(random));
        let ending = match random.below(100) {
            point if point < tests_of_hundred => {
                let variable = random.below(variables) as u8;
                let relation = random.below(6) as u8;
                Block::test(cost, variable, relation, random.within(-3, 3) as i32, jump, fall)
            }
            point if point < 95 => Block::open(cost, jump, fall),
            _ => Block::go(cost, jump),
        };
        let mut effects = Vec::new();
        while effects.len() < 4 && random.percent(effects_of_hundred) {
            let variable = random.below(variables) as u8;
            effects.push(match random.percent(50) {
                true => Effect::unknown(variable),
                false => Effect::constant(variable, random.within(-3, 3) as i32),
            });
        }
        parts.push((ending, effects));
    }
    parts.push((Block::end(random.below(1_000) as u32), Vec::new()));
    parts_bytes(&Counter { initial: 0, step: 1, relation: 2, limit: 100 }, &parts)
}
