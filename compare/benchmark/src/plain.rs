//! A plain Rust sweep and a plain Rust full walk of the same method as the proved ones, written for speed and proved by nothing:
//! the form is read once and the sets of edges are worked out as words. The sweep builds rows from the last block down into
//! the lent table; the walk calls itself from block to block. Both keep the heaviest and the lightest in the same pass.

const MOST_BLOCKS: usize = 64;
const MOST_EFFECTS: usize = 256;
const ROW: usize = 64;

#[derive(Clone, Copy, Debug, PartialEq, Eq)]
pub struct Refusal {
    pub number: u64,
    pub place: u64,
}

#[derive(Clone, Copy, Debug, PartialEq, Eq)]
pub struct Swept {
    pub iterations: u64,
    pub weight: u64,
    pub bound: u64,
    pub least: u64,
    pub least_total: u64,
    pub kept: u64,
}

#[derive(Clone, Copy, Debug, Default, PartialEq, Eq)]
#[repr(C)]
pub struct Tail {
    pub weight: u64,
    pub jumped: u64,
    pub fallen: u64,
}

#[derive(Clone, Copy, Debug, Default, PartialEq, Eq)]
#[repr(C)]
pub struct Entry {
    pub jumps: u64,
    pub falls: u64,
    pub heaviest: Tail,
    pub lightest: Tail,
}

#[derive(Clone, Copy, Default)]
struct Block {
    offset: usize,
    cost: u32,
    ending: u8,
    jump: u8,
    fall: u8,
    variable: u8,
    relation: u8,
    constant: i32,
    effects_from: usize,
    effects_to: usize,
}

#[derive(Clone, Copy, Default)]
struct Effect {
    variable: u8,
    how: u8,
    constant: i32,
}

struct Body {
    initial: i32,
    step: i32,
    relation: u8,
    limit: i32,
    blocks: [Block; MOST_BLOCKS],
    block_count: usize,
    effects: [Effect; MOST_EFFECTS],
    effect_count: usize,
}

fn refuse<T>(number: u64, place: usize) -> Result<T, Refusal> {
    Err(Refusal { number, place: place as u64 })
}

fn i32_at(bytes: &[u8], at: usize) -> i32 {
    i32::from_le_bytes(bytes[at..at + 4].try_into().unwrap())
}

/// The form, read and judged in one pass over its records, then block by block.
fn read(form: &[u8]) -> Result<Body, Refusal> {
    let mut body = Body {
        initial: 0,
        step: 0,
        relation: 0,
        limit: 0,
        blocks: [Block::default(); MOST_BLOCKS],
        block_count: 0,
        effects: [Effect::default(); MOST_EFFECTS],
        effect_count: 0,
    };
    let mut at = 0;
    while at < form.len() {
        let rest = &form[at..];
        if rest.len() < 4 {
            return refuse(10, at);
        }
        let length = u16::from_le_bytes([rest[0], rest[1]]) as usize;
        let kind = u16::from_le_bytes([rest[2], rest[3]]);
        let right = match kind {
            1 | 2 => 17,
            3 => 10,
            _ => return refuse(12, at),
        };
        if length != right {
            return refuse(11, at);
        }
        if rest.len() < length {
            return refuse(10, at);
        }
        match kind {
            1 => {
                if at != 0 {
                    return refuse(13, at);
                }
                if rest[12] > 5 {
                    return refuse(15, at);
                }
                body.initial = i32_at(rest, 4);
                body.step = i32_at(rest, 8);
                body.relation = rest[12];
                body.limit = i32_at(rest, 13);
            }
            2 => read_block(&mut body, rest, at)?,
            _ => {
                if body.block_count == 0 {
                    return refuse(13, at);
                }
                if body.effect_count == MOST_EFFECTS {
                    return refuse(14, at);
                }
                let effect = Effect { variable: rest[4], how: rest[5], constant: i32_at(rest, 6) };
                if effect.variable > 15 || effect.how > 1 || (effect.how == 0 && effect.constant != 0) {
                    return refuse(15, at);
                }
                body.effects[body.effect_count] = effect;
                body.effect_count += 1;
                body.blocks[body.block_count - 1].effects_to = body.effect_count;
            }
        }
        at += length;
    }
    if body.block_count == 0 {
        return refuse(17, form.len());
    }
    let last = body.block_count - 1;
    for (b, block) in body.blocks[..body.block_count].iter().enumerate() {
        if (block.ending == 0) != (b == last) {
            return refuse(18, block.offset);
        }
        if (block.ending >= 1 && block.jump as usize > last) || (block.ending >= 2 && block.fall as usize > last) {
            return refuse(19, block.offset);
        }
    }
    Ok(body)
}

fn read_block(body: &mut Body, rest: &[u8], at: usize) -> Result<(), Refusal> {
    if at == 0 {
        return refuse(13, at);
    }
    let b = body.block_count;
    if b == MOST_BLOCKS {
        return refuse(14, at);
    }
    let block = Block {
        offset: at,
        cost: u32::from_le_bytes(rest[4..8].try_into().unwrap()),
        ending: rest[8],
        jump: rest[9],
        fall: rest[10],
        variable: rest[11],
        relation: rest[12],
        constant: i32_at(rest, 13),
        effects_from: body.effect_count,
        effects_to: body.effect_count,
    };
    let unused_is_zero = match block.ending {
        0 => rest[9..17].iter().all(|byte| *byte == 0),
        1 => rest[10..17].iter().all(|byte| *byte == 0),
        2 => rest[11..17].iter().all(|byte| *byte == 0),
        3 => block.variable <= 15 && block.relation <= 5,
        _ => false,
    };
    if block.cost > 1_000_000 || !unused_is_zero {
        return refuse(15, at);
    }
    if (block.ending >= 1 && block.jump as usize <= b) || (block.ending >= 2 && block.fall as usize <= b) {
        return refuse(16, at);
    }
    body.blocks[b] = block;
    body.block_count += 1;
    Ok(())
}

fn meets(relation: u8, value: i64, constant: i64) -> bool {
    match relation {
        0 => value == constant,
        1 => value != constant,
        2 => value < constant,
        3 => value >= constant,
        4 => value > constant,
        _ => value <= constant,
    }
}

/// The loop count, or 0 where there is none.
fn count(initial: i32, step: i32, relation: u8, limit: i32) -> u64 {
    let (initial, step, limit) = (initial as i64, step as i64, limit as i64);
    let fits = |value: i64| i32::try_from(value).is_ok();
    if !fits(initial + step) {
        return 0;
    }
    if !meets(relation, initial + step, limit) {
        return 1;
    }
    if step == 0 {
        return 0;
    }
    let k = match relation {
        0 => 2,
        1 => {
            let gap = limit - initial;
            if gap % step != 0 || gap / step < 1 {
                return 0;
            }
            gap / step
        }
        _ => {
            // Values run one way: the first that does not meet the relation is at the limit, or one past it for ≥ and ≤.
            let up = matches!(relation, 2 | 5);
            if up != (step > 0) {
                return 0;
            }
            let gap = if up { limit - initial } else { initial - limit } + matches!(relation, 3 | 5) as i64;
            let size = step.abs();
            (gap + size - 1) / size
        }
    };
    if fits(initial + k * step) {
        k as u64
    } else {
        0
    }
}

/// Does no whole number meet both?
fn conflicting(relation1: u8, constant1: i32, relation2: u8, constant2: i32) -> bool {
    let (lowest1, highest1) = interval(relation1, constant1);
    let (lowest2, highest2) = interval(relation2, constant2);
    let (lowest, highest) = (lowest1.max(lowest2), highest1.min(highest2));
    match (relation1 == 1, relation2 == 1) {
        (false, false) => lowest > highest,
        (true, false) => lowest > highest || (lowest == highest && lowest == constant1 as i64),
        (false, true) => lowest > highest || (lowest == highest && lowest == constant2 as i64),
        (true, true) => false,
    }
}

fn interval(relation: u8, constant: i32) -> (i64, i64) {
    let constant = constant as i64;
    match relation {
        0 => (constant, constant),
        1 => (i64::MIN, i64::MAX),
        2 => (i64::MIN, constant - 1),
        3 => (constant, i64::MAX),
        4 => (constant + 1, i64::MAX),
        _ => (i64::MIN, constant),
    }
}

/// What the sweep needs of a block: sets of edges, those by jump and those by fall.
#[derive(Clone, Copy, Default)]
struct Plan {
    touched: u64,
    denied: [u64; 2],
    /// Of the block's edge by jump and of that by fall: the edges that it conflicts with.
    against: [[u64; 2]; 2],
    listed: [u64; 2],
}

fn bits(mut set: u64) -> impl Iterator<Item = usize> {
    std::iter::from_fn(move || {
        (set != 0).then(|| {
            let bit = set.trailing_zeros() as usize;
            set &= set - 1;
            bit
        })
    })
}

fn opposite(relation: u8) -> u8 {
    relation ^ 1
}

fn plan_of(body: &Body) -> [Plan; MOST_BLOCKS] {
    let mut plan = [Plan::default(); MOST_BLOCKS];
    let blocks = &body.blocks[..body.block_count];
    let mut tests_on = [0u64; 16];
    for (b, block) in blocks.iter().enumerate() {
        if block.ending == 3 {
            tests_on[block.variable as usize] |= 1 << b;
        }
    }
    let relation_of = |block: &Block, way: usize| if way == 0 { block.relation } else { opposite(block.relation) };
    for (b, block) in blocks.iter().enumerate() {
        for effect in &body.effects[block.effects_from..block.effects_to] {
            let on = tests_on[effect.variable as usize];
            plan[b].touched |= on;
            for way in 0..2 {
                plan[b].denied[way] &= !on;
                if effect.how == 1 {
                    for t in bits(on) {
                        if conflicting(0, effect.constant, relation_of(&blocks[t], way), blocks[t].constant) {
                            plan[b].denied[way] |= 1 << t;
                        }
                    }
                }
            }
        }
        if block.ending == 3 {
            for t in bits(tests_on[block.variable as usize]) {
                for own in 0..2 {
                    for way in 0..2 {
                        let (one, other) = (relation_of(block, own), relation_of(&blocks[t], way));
                        if conflicting(one, block.constant, other, blocks[t].constant) {
                            plan[b].against[own][way] |= 1 << t;
                        }
                    }
                }
            }
        }
    }
    // From the last block down: the tests to which a clean path leads, and so the edges of which the block is a first.
    let mut clean = [0u64; MOST_BLOCKS];
    let mut seconds = [[0u64; 2]; MOST_BLOCKS];
    for b in (0..blocks.len()).rev() {
        let block = &blocks[b];
        let jumps = if block.ending >= 1 { clean[block.jump as usize] } else { 0 };
        let falls = if block.ending >= 2 { clean[block.fall as usize] } else { 0 };
        let ahead = jumps | falls | 1 << b;
        for way in 0..2 {
            let Plan { denied, against, .. } = &plan[b];
            seconds[b][way] = denied[way] & ahead | against[0][way] & jumps | against[1][way] & falls;
        }
        clean[b] = ahead & !plan[b].touched;
    }
    let mut listed = [0u64; 2];
    for (block, below) in plan.iter_mut().zip(seconds) {
        block.listed = listed;
        for way in 0..2 {
            listed[way] |= below[way];
        }
    }
    plan
}

impl Tail {
    /// Does it come before the other, where two part by jump before fall?
    fn is_before(&self, other: &Tail) -> bool {
        let differ = self.jumped ^ other.jumped;
        self.jumped & differ & differ.wrapping_neg() != 0
    }

    /// With one block more in front.
    fn with(&self, cost: u64, jumped: u64, fallen: u64) -> Tail {
        Tail { weight: self.weight + cost, jumped: self.jumped | jumped, fallen: self.fallen | fallen }
    }
}

/// The row under construction.
struct Row {
    entries: [Entry; ROW],
    held: usize,
}

impl Row {
    /// Puts an entry in its place, or keeps the better tails of its key. False where it would be the 65th.
    fn insert(&mut self, entry: Entry) -> bool {
        let place = self.entries[..self.held].partition_point(|e| (e.jumps, e.falls) < (entry.jumps, entry.falls));
        if place < self.held {
            let there = &mut self.entries[place];
            if (there.jumps, there.falls) == (entry.jumps, entry.falls) {
                let (new, held) = (&entry.heaviest, &mut there.heaviest);
                if new.weight > held.weight || (new.weight == held.weight && new.is_before(held)) {
                    *held = *new;
                }
                let (new, held) = (&entry.lightest, &mut there.lightest);
                if new.weight < held.weight || (new.weight == held.weight && new.is_before(held)) {
                    *held = *new;
                }
                return true;
            }
        }
        if self.held == ROW {
            return false;
        }
        self.entries.copy_within(place..self.held, place + 1);
        self.entries[place] = entry;
        self.held += 1;
        true
    }
}

pub fn sweep(form: &[u8], table: &mut [Entry], routes: &mut [u8]) -> Result<Swept, Refusal> {
    let body = read(form)?;
    let iterations = count(body.initial, body.step, body.relation, body.limit);
    if iterations == 0 {
        return refuse(20, 0);
    }
    let block_count = body.block_count;
    if routes.len() < 2 * block_count {
        return refuse(42, 2 * block_count);
    }
    if table.len() < ROW * block_count {
        return refuse(44, ROW * block_count);
    }
    let plan = plan_of(&body);
    let mut lengths = [0usize; MOST_BLOCKS];
    for b in (0..block_count).rev() {
        let (block, plan) = (&body.blocks[b], &plan[b]);
        let mut row = Row { entries: [Entry::default(); ROW], held: 0 };
        let cost = block.cost as u64;
        if block.ending == 0 {
            let tail = Tail { weight: cost, ..Tail::default() };
            row.insert(Entry { heaviest: tail, lightest: tail, ..Entry::default() });
        }
        let ways = [(block.ending >= 1, block.jump as usize), (block.ending >= 2, block.fall as usize)];
        for (way, (has, target)) in ways.into_iter().enumerate() {
            if !has {
                continue;
            }
            let own = if block.ending == 3 { 1u64 << b } else { 0 };
            let (own_jump, own_fall) = if way == 0 { (own, 0) } else { (0, own) };
            let (left_jump, left_fall) = if way == 0 { (1u64 << b, 0) } else { (0, 1u64 << b) };
            let live = [plan.listed[0] & !plan.touched, plan.listed[1] & !plan.touched];
            for entry in &table[ROW * target..ROW * target + lengths[target]] {
                let (jumps, falls) = (entry.jumps | own_jump, entry.falls | own_fall);
                let hit = (entry.jumps & plan.against[way][0])
                    | (entry.falls & plan.against[way][1])
                    | (jumps & plan.denied[0])
                    | (falls & plan.denied[1]);
                if hit != 0 {
                    continue;
                }
                let put = row.insert(Entry {
                    jumps: jumps & live[0],
                    falls: falls & live[1],
                    heaviest: entry.heaviest.with(cost, left_jump, left_fall),
                    lightest: entry.lightest.with(cost, left_jump, left_fall),
                });
                if !put {
                    return refuse(40, b);
                }
            }
        }
        table[ROW * b..ROW * (b + 1)].copy_from_slice(&row.entries);
        lengths[b] = row.held;
    }
    if lengths[0] == 0 {
        return refuse(43, 0);
    }
    let Entry { heaviest, lightest, .. } = table[0];
    write_routes(&heaviest, &lightest, &mut routes[..2 * block_count]);
    let kept = lengths.into_iter().max().unwrap_or(0) as u64;
    let (weight, least) = (heaviest.weight, lightest.weight);
    Ok(Swept { iterations, weight, bound: iterations * weight, least, least_total: iterations * least, kept })
}

#[derive(Clone, Copy, Debug, PartialEq, Eq)]
pub struct Walked {
    pub iterations: u64,
    pub weight: u64,
    pub bound: u64,
    pub least: u64,
    pub least_total: u64,
    pub walked: u64,
}

/// Words a block, and the target of a way that is not there.
const WORDS: usize = 16;
const NO_WAY: u64 = 64;

/// What the walk needs of each block, as the proved walk has it: its targets, its sets of edges and its cost.
fn words_of(body: &Body) -> [[u64; WORDS]; MOST_BLOCKS] {
    let plan = plan_of(body);
    let mut words = [[0; WORDS]; MOST_BLOCKS];
    for (b, row) in words.iter_mut().enumerate().take(body.block_count) {
        let (block, plan) = (&body.blocks[b], &plan[b]);
        row[1] = if block.ending >= 1 { block.jump as u64 } else { NO_WAY };
        row[2] = if block.ending >= 2 { block.fall as u64 } else { NO_WAY };
        row[3] = plan.touched;
        row[4..6].copy_from_slice(&plan.denied);
        row[6..8].copy_from_slice(&plan.against[0]);
        row[8..10].copy_from_slice(&plan.against[1]);
        row[12] = block.cost as u64;
    }
    words
}

/// What the walk works on, and what it has found so far.
struct Walk<'a> {
    words: &'a [[u64; WORDS]; MOST_BLOCKS],
    block_count: usize,
    budget: u64,
    walked: u64,
    any: bool,
    heaviest: Tail,
    lightest: Tail,
}

impl Walk<'_> {
    /// From block b on, where these edges are banned and these blocks were left by jump and by fall.
    fn from(&mut self, b: usize, jumps: u64, falls: u64, weight: u64, jumped: u64, fallen: u64) {
        self.walked += 1;
        let words = &self.words[b];
        let weight = weight + words[12];
        if b + 1 == self.block_count {
            if !self.any || weight > self.heaviest.weight {
                self.heaviest = Tail { weight, jumped, fallen };
            }
            if !self.any || weight < self.lightest.weight {
                self.lightest = Tail { weight, jumped, fallen };
            }
            self.any = true;
            return;
        }
        let jumps = jumps & !words[3] | words[4];
        let falls = falls & !words[3] | words[5];
        if words[1] != NO_WAY && jumps >> b & 1 == 0 && self.walked <= self.budget {
            self.from(words[1] as usize, jumps | words[6], falls | words[7], weight, jumped | 1 << b, fallen);
        }
        if words[2] != NO_WAY && falls >> b & 1 == 0 && self.walked <= self.budget {
            self.from(words[2] as usize, jumps | words[8], falls | words[9], weight, jumped, fallen | 1 << b);
        }
    }
}

pub fn walk(form: &[u8], budget: u32, routes: &mut [u8]) -> Result<Walked, Refusal> {
    let body = read(form)?;
    let iterations = count(body.initial, body.step, body.relation, body.limit);
    if iterations == 0 {
        return refuse(20, 0);
    }
    let block_count = body.block_count;
    if routes.len() < 2 * block_count {
        return refuse(42, 2 * block_count);
    }
    let words = words_of(&body);
    let budget = budget as u64;
    let (heaviest, lightest) = (Tail::default(), Tail::default());
    let mut walk = Walk { words: &words, block_count, budget, walked: 0, any: false, heaviest, lightest };
    walk.from(0, 0, 0, 0, 0, 0);
    if walk.walked > budget {
        return refuse(41, budget as usize);
    }
    if !walk.any {
        return refuse(43, 0);
    }
    let Walk { heaviest, lightest, walked, .. } = walk;
    write_routes(&heaviest, &lightest, &mut routes[..2 * block_count]);
    let (weight, least) = (heaviest.weight, lightest.weight);
    Ok(Walked { iterations, weight, bound: iterations * weight, least, least_total: iterations * least, walked })
}

/// The heaviest's bytes, then the lightest's.
fn write_routes(heaviest: &Tail, lightest: &Tail, routes: &mut [u8]) {
    let (first, second) = routes.split_at_mut(routes.len() / 2);
    write_route(heaviest, first);
    write_route(lightest, second);
}

/// 1 where the block is left by jump or go, 2 by fall, 3 the last block.
fn write_route(tail: &Tail, route: &mut [u8]) {
    for (b, byte) in route.iter_mut().enumerate() {
        *byte = (tail.jumped >> b & 1) as u8 + 2 * (tail.fallen >> b & 1) as u8;
    }
    route[route.len() - 1] = 3;
}
