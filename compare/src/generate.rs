//! Inputs from a seed. The same kind and seed give the same bytes on every machine.

use crate::form::{
    block_bytes, counter_bytes, effect_bytes, parts_bytes, Block, Counter, Effect, Parts, BLOCK, COUNTER, EFFECT,
    GO, HIGHEST_COST, HIGHEST_RELATION, HIGHEST_VARIABLE, MOST_BLOCKS, MOST_EFFECTS,
};
use crate::random::Random;
use crate::report::OWN_TABLE_BLOCKS;

/// What an input is made to be.
#[derive(Clone, Copy, Debug, PartialEq, Eq)]
pub enum Kind {
    /// An accepted form of 1 to 9 blocks: few variables, constants close together.
    Small,
    /// An accepted form with about as many sets of open edges as a row holds, and more.
    Crowding,
    /// An accepted form of 4 to 16 blocks, in threes that part and meet again, with few different costs: of the heaviest
    /// routes and of the lightest there are often several.
    Tied,
    /// An accepted form of 10 to 16 blocks, seldom up to 64, with few branches.
    Long,
    /// An accepted form of 10 to 24 blocks with as many branches as can be listed well: rows of all lengths.
    Branching,
    /// An accepted form of 13 to 24 blocks, nearly all of which branch: often more ways than can be listed.
    Wide,
    /// An accepted form whose records were changed by field, order or number.
    Faulty,
    /// An accepted form whose bytes were cut, changed, added to or joined to another form's.
    Damaged,
    /// Bytes and records by chance.
    Noise,
    /// At a limit or just past it: none, 16 and 17, 64 and 65 blocks, 256 and 257 effects, the longest form and longer.
    Limit,
}

pub const KINDS: [Kind; 10] = [
    Kind::Small,
    Kind::Crowding,
    Kind::Tied,
    Kind::Long,
    Kind::Branching,
    Kind::Wide,
    Kind::Faulty,
    Kind::Damaged,
    Kind::Noise,
    Kind::Limit,
];

impl Kind {
    pub fn name(self) -> &'static str {
        match self {
            Kind::Small => "small",
            Kind::Crowding => "crowding",
            Kind::Tied => "tied",
            Kind::Long => "long",
            Kind::Branching => "branching",
            Kind::Wide => "wide",
            Kind::Faulty => "faulty",
            Kind::Damaged => "damaged",
            Kind::Noise => "noise",
            Kind::Limit => "limit",
        }
    }

    pub fn named(name: &str) -> Option<Kind> {
        KINDS.into_iter().find(|kind| kind.name() == name)
    }

    /// Is every input of this kind an accepted form?
    pub fn is_accepted(self) -> bool {
        !matches!(self, Kind::Faulty | Kind::Damaged | Kind::Noise | Kind::Limit)
    }
}

/// The input of this kind and seed.
pub fn generate(kind: Kind, seed: u64) -> Vec<u8> {
    let random = &mut Random::new(seed);
    match kind {
        Kind::Small => accepted_form(random, small_parts),
        Kind::Crowding => accepted_form(random, crowding_parts),
        Kind::Tied => accepted_form(random, tied_parts),
        Kind::Long => accepted_form(random, long_parts),
        Kind::Branching => accepted_form(random, branching_parts),
        Kind::Wide => accepted_form(random, wide_parts),
        Kind::Faulty => faulty(random),
        Kind::Damaged => damaged(random),
        Kind::Noise => noise(random),
        Kind::Limit => limit(random),
    }
}

/// What a driver compares at this place of its run, of all kinds but the wide: a kind and a seed of its own.
pub fn mixed(seed: u64, place: u64) -> (Kind, u64) {
    let shares = [
        (Kind::Small, 30),
        (Kind::Crowding, 4),
        (Kind::Tied, 5),
        (Kind::Long, 9),
        (Kind::Branching, 1),
        (Kind::Faulty, 22),
        (Kind::Damaged, 18),
        (Kind::Noise, 6),
        (Kind::Limit, 5),
    ];
    drawn(&shares, seed, place)
}

/// The same of accepted forms only.
pub fn mixed_accepted(seed: u64, place: u64) -> (Kind, u64) {
    let shares =
        [(Kind::Small, 66), (Kind::Crowding, 10), (Kind::Tied, 8), (Kind::Long, 14), (Kind::Branching, 2)];
    drawn(&shares, seed, place)
}

/// The same with ten small forms in fourteen, one crowding, one tied, one long or branching and one of all kinds.
pub fn mostly_small(seed: u64, place: u64) -> (Kind, u64) {
    match place % 14 {
        0..=9 => drawn(&[(Kind::Small, 1)], seed, place),
        10 => drawn(&[(Kind::Crowding, 1)], seed, place),
        11 => drawn(&[(Kind::Tied, 1)], seed, place),
        12 => drawn(&[(Kind::Long, 1), (Kind::Branching, 1)], seed, place),
        _ => mixed(seed, place),
    }
}

/// Mostly forms of 10 to 24 blocks with many branches, and some of the other kinds.
pub fn mostly_wide(seed: u64, place: u64) -> (Kind, u64) {
    let shares = [
        (Kind::Wide, 60),
        (Kind::Branching, 10),
        (Kind::Crowding, 10),
        (Kind::Long, 10),
        (Kind::Damaged, 5),
        (Kind::Limit, 5),
    ];
    drawn(&shares, seed, place)
}

fn drawn(shares: &[(Kind, usize)], seed: u64, place: u64) -> (Kind, u64) {
    let mut random = Random::new(seed ^ Random::new(place).draw());
    let mut point = random.below(shares.iter().map(|(_, share)| share).sum());
    for (kind, share) in shares {
        if point < *share {
            return (*kind, random.draw());
        }
        point -= share;
    }
    unreachable!("a point lies in some share")
}

/// The counter of this seed, asked with four numbers: half of initial values and limits lie at or within 3 of the ends
/// of i32; steps are 0, ±1, ±2, ±3, large and smallest; all relations.
pub fn generate_counter(seed: u64) -> Counter {
    any_counter(&mut Random::new(seed))
}

fn any_counter(random: &mut Random) -> Counter {
    let initial = near_an_end_or_not(random);
    let step = match random.below(4) {
        0 | 1 => random.within(-3, 3) as i32,
        2 => random.pick(&[i32::MIN, i32::MIN + 1, i32::MAX, i32::MAX - 1, 1 << 30, -(1 << 30), 65_536, -65_537]),
        _ => random.draw() as i32,
    };
    // A limit that the steps meet, so that = and ≠ end by meeting it and the others next to it; or any.
    let steps = if random.percent(50) { random.within(0, 5) } else { random.within(0, 1 << 32) };
    let met = (initial as i64).checked_add((step as i64).saturating_mul(steps));
    let limit = match met.and_then(|met| i32::try_from(met).ok()) {
        Some(met) if random.percent(60) => met.saturating_add(random.within(-1, 1) as i32),
        _ => near_an_end_or_not(random),
    };
    Counter { initial, step, relation: random.below(HIGHEST_RELATION as usize + 1) as u8, limit }
}

fn near_an_end_or_not(random: &mut Random) -> i32 {
    let away = random.within(0, 3) as i32;
    match random.below(8) {
        0 | 1 => i32::MIN + away,
        2 | 3 => i32::MAX - away,
        4 | 5 => random.within(-12, 12) as i32,
        _ => random.draw() as i32,
    }
}

/// A body's counter: mostly one with a small count, sometimes any.
fn body_counter(random: &mut Random) -> Counter {
    if random.percent(20) {
        return any_counter(random);
    }
    let step = random.pick(&[1, 1, 2, 3, -1, -2]);
    let passes = random.within(1, 40) as i32;
    let initial = random.within(-20, 20) as i32;
    let relation = random.pick(&if step > 0 { [2, 5] } else { [3, 4] });
    Counter { initial, step, relation, limit: initial + step * passes }
}

/// What the blocks of one body have in common.
struct Taste {
    variables: Vec<u8>,
    /// Constants lie around these.
    centres: Vec<i32>,
    lowest_cost: u32,
    highest_cost: u32,
}

impl Taste {
    /// One to `most` variables; small costs often, so that weights tie.
    fn drawn(random: &mut Random, most: usize) -> Taste {
        let mut variables: Vec<u8> = (0..=HIGHEST_VARIABLE).collect();
        let many = 1 + random.below(most);
        while variables.len() > many {
            variables.remove(random.below(variables.len()));
        }
        let anywhere = random.draw() as i32;
        let centres =
            (0..1 + random.below(2)).map(|_| random.pick(&[0, 0, 5, -3, i32::MIN, i32::MAX, anywhere])).collect();
        let (lowest_cost, highest_cost) = random.pick(&[
            (0, 0),
            (1, 1),
            (0, 1),
            (0, 3),
            (0, 100),
            (0, HIGHEST_COST),
            (HIGHEST_COST - 1, HIGHEST_COST),
        ]);
        Taste { variables, centres, lowest_cost, highest_cost }
    }

    fn variable(&self, random: &mut Random) -> u8 {
        random.pick(&self.variables)
    }

    fn constant(&self, random: &mut Random) -> i32 {
        let centre = random.pick(&self.centres);
        centre.saturating_add(random.within(-2, 2) as i32)
    }

    fn cost(&self, random: &mut Random) -> u32 {
        random.within(self.lowest_cost as i64, self.highest_cost as i64) as u32
    }

    fn effect(&self, random: &mut Random) -> Effect {
        let variable = self.variable(random);
        if random.percent(35) {
            Effect::unknown(variable)
        } else {
            Effect::constant(variable, self.constant(random))
        }
    }

    fn effects(&self, random: &mut Random) -> Vec<Effect> {
        let many = random.pick(&[0, 0, 0, 0, 0, 1, 1, 1, 2, 3]);
        (0..many).map(|_| self.effect(random)).collect()
    }

    fn test(&self, random: &mut Random, jump: u8, fall: u8) -> Block {
        let relation = random.below(HIGHEST_RELATION as usize + 1) as u8;
        let (variable, constant) = (self.variable(random), self.constant(random));
        Block::test(self.cost(random), variable, relation, constant, jump, fall)
    }
}

/// A target above the block, of so many blocks: the next, the one after it, or any.
fn target_above(random: &mut Random, block: usize, block_count: usize) -> u8 {
    let target = match random.below(20) {
        0..=10 => block + 1,
        11..=15 => block + 2,
        _ => block + 1 + random.below(block_count - block - 1),
    };
    target.min(block_count - 1) as u8
}

fn two_targets(random: &mut Random, block: usize, block_count: usize) -> (u8, u8) {
    let jump = target_above(random, block, block_count);
    let fall = if random.percent(15) { jump } else { target_above(random, block, block_count) };
    (jump, fall)
}

fn accepted_form(random: &mut Random, parts: fn(&mut Random) -> Parts) -> Vec<u8> {
    let counter = body_counter(random);
    parts_bytes(&counter, &parts(random))
}

/// 1 to 9 blocks with all endings by chance, so that some blocks are not reached and some targets are equal.
fn small_parts(random: &mut Random) -> Parts {
    let block_count = 1 + random.below(9);
    let taste = Taste::drawn(random, 3);
    let mut parts = Parts::new();
    for block in 0..block_count - 1 {
        let (jump, fall) = two_targets(random, block, block_count);
        let ending = match random.below(20) {
            0..=2 => Block::open(taste.cost(random), jump, fall),
            3..=6 => Block::go(taste.cost(random), jump),
            _ => taste.test(random, jump, fall),
        };
        parts.push((ending, taste.effects(random)));
    }
    parts.push((Block::end(taste.cost(random)), taste.effects(random)));
    parts
}

/// Assignments to some variables, then a test on each of them: with seven tests in a row there are 128 sets of open
/// edges. Ways round a test, effects among them and blocks between make fewer, and move the crowded block.
fn crowding_parts(random: &mut Random) -> Parts {
    let taste = Taste::drawn(random, 1);
    let test_count = 5 + random.below(4);
    let constant = taste.constant(random);
    let assignments: Vec<Effect> =
        (0..test_count).map(|variable| Effect::constant(variable as u8, constant)).collect();
    let mut parts = match random.below(3) {
        0 => vec![(Block::go(taste.cost(random), 1), assignments)],
        1 => {
            vec![(Block::open(taste.cost(random), 1, 2), vec![]), (Block::go(taste.cost(random), 2), assignments)]
        }
        // Not reached from block 0, and listed all the same.
        _ => vec![(Block::go(taste.cost(random), 2), vec![]), (Block::go(taste.cost(random), 2), assignments)],
    };
    let mut between = random.pick(&[0, 0, 0, 1, 2, 8]);
    let block_count = parts.len() + test_count + between + 1;
    let mut tests_left = test_count;
    while tests_left > 0 {
        let next = parts.len() as u8 + 1;
        if between > 0 && random.percent(40) {
            between -= 1;
            parts.push((Block::go(taste.cost(random), next), vec![]));
            continue;
        }
        tests_left -= 1;
        let round = if random.percent(10) { (next + 1).min(block_count as u8 - 1) } else { next };
        let (jump, fall) = if random.percent(50) { (next, round) } else { (round, next) };
        let relation = random.below(HIGHEST_RELATION as usize + 1) as u8;
        let test = Block::test(taste.cost(random), tests_left as u8, relation, taste.constant(random), jump, fall);
        let effects = if random.percent(6) { vec![Effect::unknown(random.below(9) as u8)] } else { vec![] };
        parts.push((test, effects));
    }
    while parts.len() < block_count - 1 {
        parts.push((Block::go(taste.cost(random), parts.len() as u8 + 1), vec![]));
    }
    parts.push((Block::end(taste.cost(random)), vec![]));
    parts
}

/// A branch, its two arms and the next branch, where they meet, up to five times. A cost is mostly that of the other
/// arm, so that routes weigh the same; tests on one or two variables, and a few effects, strike some of them out.
fn tied_parts(random: &mut Random) -> Parts {
    let taste = Taste::drawn(random, 2);
    let usual = random.pick(&[0, 1, 2, HIGHEST_COST]);
    let cost = |random: &mut Random| match random.percent(85) {
        true => usual,
        false => random.pick(&[0, 1, usual / 2, (2 * usual).min(HIGHEST_COST)]),
    };
    let times = 1 + random.below(5);
    let mut parts = Parts::new();
    for branch in (0..times).map(|time| 3 * time as u8) {
        let (jump, fall) = if random.percent(50) { (branch + 1, branch + 2) } else { (branch + 2, branch + 1) };
        let ending = match random.percent(20) {
            true => Block::open(0, jump, fall),
            false => taste.test(random, jump, fall),
        };
        let effects = if random.percent(15) { taste.effects(random) } else { vec![] };
        parts.push((Block { cost: cost(random), ..ending }, effects));
        for arm in [branch + 1, branch + 2] {
            // The first arm leads on through the second now and then.
            let next = if random.percent(10) { arm + 1 } else { branch + 3 };
            let effects = if random.percent(20) { taste.effects(random) } else { vec![] };
            parts.push((Block::go(cost(random), next), effects));
        }
    }
    parts.push((Block::end(cost(random)), vec![]));
    parts
}

/// What a chain of blocks with branches is made to be.
struct Chain {
    block_count: usize,
    branches: usize,
    /// One to so many variables.
    most_variables: usize,
    /// A block goes on to the next, or so many times in a hundred to one of the two after it.
    skips: usize,
    /// Does block 0 set every variable?
    sets: bool,
}

fn long_parts(random: &mut Random) -> Parts {
    let block_count = match random.below(20) {
        0 => OWN_TABLE_BLOCKS,
        1 => OWN_TABLE_BLOCKS + 1,
        2 => OWN_TABLE_BLOCKS + 1 + random.below(MOST_BLOCKS - OWN_TABLE_BLOCKS),
        3..=6 => 10 + random.below(15),
        _ => 10 + random.below(OWN_TABLE_BLOCKS - 9),
    };
    let branches = 2 + random.below(6);
    chain_with_branches(random, Chain { block_count, branches, most_variables: 3, skips: 50, sets: false })
}

fn branching_parts(random: &mut Random) -> Parts {
    let (block_count, branches) = (10 + random.below(15), 5 + random.below(5));
    let sets = random.percent(70);
    chain_with_branches(random, Chain { block_count, branches, most_variables: 9, skips: 30, sets })
}

fn wide_parts(random: &mut Random) -> Parts {
    let block_count = if random.percent(75) { 18 + random.below(7) } else { 13 + random.below(4) };
    let branches = block_count - 1 - random.below(3);
    let skips = random.pick(&[0, 5, 15, 25]);
    chain_with_branches(random, Chain { block_count, branches, most_variables: 6, skips, sets: false })
}

fn chain_with_branches(random: &mut Random, chain: Chain) -> Parts {
    let Chain { block_count, branches, most_variables, skips, sets } = chain;
    let taste = Taste::drawn(random, most_variables);
    let mut branches_left = branches;
    let mut parts = Parts::new();
    for block in 0..block_count - 1 {
        let blocks_left = block_count - 1 - block;
        let near = |random: &mut Random| {
            let skipped = if random.percent(skips) { 1 + random.below(2) } else { 0 };
            (block + 1 + skipped).min(block_count - 1) as u8
        };
        let is_branch = random.below(blocks_left) < branches_left;
        let ending = if is_branch {
            branches_left -= 1;
            let (jump, fall) = (near(random), near(random));
            if random.percent(15) {
                Block::open(taste.cost(random), jump, fall)
            } else {
                taste.test(random, jump, fall)
            }
        } else {
            Block::go(taste.cost(random), near(random))
        };
        let effects = if random.percent(if sets { 10 } else { 25 }) { taste.effects(random) } else { vec![] };
        parts.push((ending, effects));
    }
    parts.push((Block::end(taste.cost(random)), vec![]));
    if sets {
        parts[0].1 =
            taste.variables.iter().map(|variable| Effect::constant(*variable, taste.centres[0])).collect();
    }
    parts
}

/// An accepted form of any kind that changes are then made to: mostly a small one.
fn form_to_change(random: &mut Random) -> Vec<u8> {
    let parts: fn(&mut Random) -> Parts = match random.below(5) {
        0 => crowding_parts,
        1 => long_parts,
        _ => small_parts,
    };
    accepted_form(random, parts)
}

/// The records of an accepted form.
fn records_of(form: &[u8]) -> Vec<Vec<u8>> {
    let mut records = Vec::new();
    let mut rest = form;
    while !rest.is_empty() {
        let (record, after) = rest.split_at(rest[0] as usize);
        records.push(record.to_vec());
        rest = after;
    }
    records
}

fn kind_of(record: &[u8]) -> u16 {
    u16::from_le_bytes([record[2], record[3]])
}

fn faulty(random: &mut Random) -> Vec<u8> {
    let mut records = records_of(&form_to_change(random));
    for _ in 0..random.pick(&[1, 1, 1, 2, 3]) {
        if !records.is_empty() {
            make_a_fault(random, &mut records);
        }
    }
    records.concat()
}

/// One fault in some record, or in the order or number of records. Some leave the form accepted after all.
fn make_a_fault(random: &mut Random, records: &mut Vec<Vec<u8>>) {
    let one = random.below(records.len());
    let other = random.below(records.len());
    let telling = [0, 1, 2, 3, 4, 5, 6, 7, 9, 15, 16, 63, 64, 65, 127, 128, 255];
    match random.below(12) {
        0..=2 => {
            let at = 4 + random.below(records[one].len() - 4);
            records[one][at] = random.pick(&telling);
        }
        3 => {
            let kind: u16 = random.pick(&[0, 1, 2, 3, 4, 255, 256, 258, u16::MAX]);
            records[one][2..4].copy_from_slice(&kind.to_le_bytes());
        }
        4 => {
            let length: u16 = random.pick(&[0, 1, 3, 4, 9, 10, 11, 16, 17, 18, 266, 273, u16::MAX]);
            records[one][..2].copy_from_slice(&length.to_le_bytes());
        }
        5 => {
            records.remove(one);
        }
        6 => {
            let again = records[one].clone();
            records.insert(other, again);
        }
        7 => records.swap(one, other),
        8 => {
            let moved = records.remove(one);
            records.insert(random.below(records.len().min(2) + 1), moved);
        }
        _ => make_a_block_fault(random, records),
    }
}

/// A fault of the kind that only a block's number or the number of blocks shows: an ending or a target.
fn make_a_block_fault(random: &mut Random, records: &mut [Vec<u8>]) {
    let block_records: Vec<usize> = (0..records.len()).filter(|at| kind_of(&records[*at]) == BLOCK).collect();
    if block_records.is_empty() {
        return;
    }
    let block_count = block_records.len();
    let last_often = random.percent(30);
    let number = if last_often { block_count - 1 } else { random.below(block_count) };
    let record = &mut records[block_records[number]];
    if record.len() < 17 {
        return;
    }
    let near = (number as i64 + random.within(-1, 1)).max(0) as u8;
    let past = (block_count as i64 + random.within(-1, 2)).max(0) as u8;
    match random.below(6) {
        0 => record[8..].copy_from_slice(&[0; 9]),
        1 => record[8..11].copy_from_slice(&[GO, past, 0]),
        2 => record[9] = near,
        3 => record[10] = near,
        4 => record[9] = past,
        _ => record[4..8].copy_from_slice(&random.pick(&[HIGHEST_COST, HIGHEST_COST + 1, u32::MAX]).to_le_bytes()),
    }
}

fn damaged(random: &mut Random) -> Vec<u8> {
    let mut bytes = form_to_change(random);
    let at = random.below(bytes.len());
    match random.below(6) {
        0 => bytes.truncate(at),
        1 => {
            for _ in 0..1 + random.below(4) {
                let at = random.below(bytes.len());
                bytes[at] = random.byte();
            }
        }
        2 => {
            let many = 1 + random.below(20);
            let more = if random.percent(30) { vec![0; many] } else { random.bytes(many) };
            bytes.extend(more);
        }
        3 => {
            let more = form_to_change(random);
            bytes.extend(more);
        }
        4 => {
            bytes.remove(at);
        }
        _ => bytes.insert(at, random.byte()),
    }
    bytes
}

fn noise(random: &mut Random) -> Vec<u8> {
    let many = random.below(60);
    match random.below(4) {
        0 => random.bytes(many),
        1 => (0..many).map(|_| random.pick(&[0, 1, 2, 3, 10, 17])).collect(),
        2 => noisy_records(random),
        _ => [counter_bytes(&any_counter(random)), noisy_records(random)].concat(),
    }
}

/// Records of a known kind and the right length with small numbers by chance in them.
fn noisy_records(random: &mut Random) -> Vec<u8> {
    let mut bytes = Vec::new();
    for _ in 0..random.below(8) {
        let kind = random.pick(&[COUNTER, BLOCK, BLOCK, BLOCK, EFFECT, EFFECT]);
        let length: u16 = if kind == EFFECT { 10 } else { 17 };
        bytes.extend(length.to_le_bytes());
        bytes.extend(kind.to_le_bytes());
        bytes.extend((4..length).map(|_| if random.percent(70) { 0 } else { random.pick(&[1, 2, 3, 4, 6, 16]) }));
    }
    bytes
}

/// So many blocks in a chain, with so many effects spread over them by chance. At most four blocks branch, both ways to
/// the next block, so that the ways can be listed.
fn chain(random: &mut Random, block_count: usize, effect_count: usize) -> Parts {
    let taste = Taste::drawn(random, 4);
    let mut parts = Parts::new();
    for block in 0..block_count - 1 {
        parts.push((Block::go(taste.cost(random), block as u8 + 1), vec![]));
    }
    parts.push((Block::end(taste.cost(random)), vec![]));
    for _ in 0..random.below(5) {
        let branch = random.below(block_count);
        let next = branch as u8 + 1;
        if (next as usize) < block_count {
            parts[branch].0 = match random.below(4) {
                0 => Block::open(taste.cost(random), next, next),
                _ => taste.test(random, next, next),
            };
        }
    }
    for _ in 0..effect_count {
        let to = random.below(block_count);
        let effect = taste.effect(random);
        parts[to].1.push(effect);
    }
    parts
}

/// The form of 64 blocks and 256 effects, 3,665 bytes.
fn longest_form(random: &mut Random) -> Vec<u8> {
    let counter = body_counter(random);
    parts_bytes(&counter, &chain(random, MOST_BLOCKS, MOST_EFFECTS))
}

fn limit(random: &mut Random) -> Vec<u8> {
    let counter = body_counter(random);
    let few = random.below(9);
    let some_blocks = 1 + random.below(MOST_BLOCKS);
    let one_effect = effect_bytes(&Effect::unknown(few as u8));
    match random.below(20) {
        0 => vec![],
        1 => random.bytes(1 + few % 4),
        2 => counter_bytes(&counter),
        3 => parts_bytes(&counter, &vec![(Block::end(few as u32), vec![])]),
        4 => parts_bytes(&counter, &chain(random, MOST_BLOCKS, few)),
        5 => parts_bytes(&counter, &chain(random, MOST_BLOCKS + 1, few)),
        6 => parts_bytes(&counter, &chain(random, some_blocks, MOST_EFFECTS)),
        7 => parts_bytes(&counter, &chain(random, some_blocks, MOST_EFFECTS + 1)),
        8 => longest_form(random),
        9 => [longest_form(random), one_effect].concat(),
        10 => [longest_form(random), block_bytes(&Block::end(1))].concat(),
        11 => [longest_form(random), random.bytes(1 + few)].concat(),
        12 => {
            // Both a 65th block and a bad one: 14 comes before 15 and 16.
            let bad = Block { cost: HIGHEST_COST + 1, ending: GO, jump: 1, ..Block::default() };
            let mut parts = chain(random, MOST_BLOCKS + 1, few);
            parts[MOST_BLOCKS].0 = bad;
            parts_bytes(&counter, &parts)
        }
        13 => [longest_form(random), one_effect.repeat(7_000)].concat(),
        14 => random.bytes(70_000),
        15 => {
            let longest = longest_form(random);
            let cut = random.below(longest.len());
            longest[..cut].to_vec()
        }
        16 => {
            // The highest block numbers as targets, and just past them.
            let mut parts = chain(random, MOST_BLOCKS, few);
            let target = random.pick(&[MOST_BLOCKS as u8 - 1, MOST_BLOCKS as u8, MOST_BLOCKS as u8 + 1, u8::MAX]);
            parts[random.below(MOST_BLOCKS - 1)].0 = Block::go(1, target);
            parts_bytes(&counter, &parts)
        }
        // As many as the table of the report program has room for, and one more.
        17 => parts_bytes(&counter, &chain(random, OWN_TABLE_BLOCKS, few)),
        18 => parts_bytes(&counter, &chain(random, OWN_TABLE_BLOCKS + 1, few)),
        // The most that a body can cost: the largest count of iterations over 64 of the dearest blocks.
        _ => {
            let counter = Counter { initial: i32::MIN, step: 1, relation: 2, limit: i32::MAX };
            let mut parts = chain(random, MOST_BLOCKS, few);
            for (number, (block, _)) in parts.iter_mut().enumerate() {
                let ending =
                    if number + 1 == MOST_BLOCKS { Block::end(0) } else { Block::go(0, number as u8 + 1) };
                *block = Block { cost: HIGHEST_COST, ..ending };
            }
            parts_bytes(&counter, &parts)
        }
    }
}
