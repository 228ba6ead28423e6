//! The order form: what bytes are judged to be, the body that an accepted form is, and the writer.
//!
//! Judging is a table of rules in the order of document 01. Each rule looks at a record and at the records before it,
//! and says only whether it is broken; the first broken rule of the first bad record is the refusal. There is no state
//! carried from record to record: what a rule needs to know of the past it counts anew.

use std::fmt;

/// At most so many blocks and effects in a form.
pub const MOST_BLOCKS: usize = 64;
pub const MOST_EFFECTS: usize = 256;
pub const HIGHEST_COST: u32 = 1_000_000;
pub const HIGHEST_VARIABLE: u8 = 15;
pub const HIGHEST_RELATION: u8 = 5;

/// Record kinds.
pub const COUNTER: u16 = 1;
pub const BLOCK: u16 = 2;
pub const EFFECT: u16 = 3;

/// Endings of a block.
pub const END: u8 = 0;
pub const GO: u8 = 1;
pub const OPEN: u8 = 2;
pub const TEST: u8 = 3;

/// How an effect sets its variable.
pub const UNKNOWN: u8 = 0;
pub const CONSTANT: u8 = 1;

/// A refusal's answer: its number and its place.
#[derive(Clone, Copy, Debug, PartialEq, Eq)]
pub struct Refusal {
    pub number: u32,
    pub place: u64,
}

impl Refusal {
    pub fn new(number: u32, place: usize) -> Refusal {
        Refusal { number, place: place as u64 }
    }
}

impl fmt::Display for Refusal {
    fn fmt(&self, to: &mut fmt::Formatter) -> fmt::Result {
        write!(to, "refused {} at {}", self.number, self.place)
    }
}

#[derive(Clone, Copy, Debug, Default, PartialEq, Eq)]
pub struct Counter {
    pub initial: i32,
    pub step: i32,
    pub relation: u8,
    pub limit: i32,
}

/// A block and the number of effects that follow it.
#[derive(Clone, Copy, Debug, Default, PartialEq, Eq)]
pub struct Block {
    pub cost: u32,
    pub ending: u8,
    pub jump: u8,
    pub fall: u8,
    pub variable: u8,
    pub relation: u8,
    pub constant: i32,
    pub effects: u16,
}

#[derive(Clone, Copy, Debug, Default, PartialEq, Eq)]
pub struct Effect {
    pub variable: u8,
    pub how: u8,
    pub constant: i32,
}

/// A body as the writer takes it. What stands past the counts is no part of it.
#[derive(Clone, Debug, PartialEq, Eq)]
pub struct Body {
    pub counter: Counter,
    pub block_count: usize,
    pub blocks: [Block; MOST_BLOCKS],
    pub effect_count: usize,
    pub effects: [Effect; MOST_EFFECTS],
}

/// A block with its own effects, as bodies are made by hand and by the generator. There may be more than a form holds.
pub type Parts = Vec<(Block, Vec<Effect>)>;

impl Block {
    pub fn end(cost: u32) -> Block {
        Block { cost, ending: END, ..Block::default() }
    }

    pub fn go(cost: u32, jump: u8) -> Block {
        Block { cost, ending: GO, jump, ..Block::default() }
    }

    pub fn open(cost: u32, jump: u8, fall: u8) -> Block {
        Block { cost, ending: OPEN, jump, fall, ..Block::default() }
    }

    pub fn test(cost: u32, variable: u8, relation: u8, constant: i32, jump: u8, fall: u8) -> Block {
        Block { cost, ending: TEST, jump, fall, variable, relation, constant, effects: 0 }
    }
}

impl Effect {
    pub fn unknown(variable: u8) -> Effect {
        Effect { variable, how: UNKNOWN, constant: 0 }
    }

    pub fn constant(variable: u8, constant: i32) -> Effect {
        Effect { variable, how: CONSTANT, constant }
    }
}

impl Body {
    pub fn empty(counter: Counter) -> Body {
        Body {
            counter,
            block_count: 0,
            blocks: [Block::default(); MOST_BLOCKS],
            effect_count: 0,
            effects: [Effect::default(); MOST_EFFECTS],
        }
    }

    /// The body of these parts, which must be within the limits.
    pub fn of(counter: Counter, parts: &Parts) -> Body {
        let mut body = Body::empty(counter);
        for (block, effects) in parts {
            body.push_block(*block);
            for effect in effects {
                body.push_effect(*effect);
            }
        }
        body
    }

    fn push_block(&mut self, block: Block) {
        self.blocks[self.block_count] = Block { effects: 0, ..block };
        self.block_count += 1;
    }

    fn push_effect(&mut self, effect: Effect) {
        self.effects[self.effect_count] = effect;
        self.effect_count += 1;
        self.blocks[self.block_count - 1].effects += 1;
    }

    /// The number of the last block.
    pub fn last(&self) -> usize {
        self.block_count - 1
    }

    /// The effects of a block, in order.
    pub fn effects_of(&self, block: usize) -> &[Effect] {
        let before: usize = self.blocks[..block].iter().map(|block| block.effects as usize).sum();
        &self.effects[before..before + self.blocks[block].effects as usize]
    }

    /// Two bodies are the same when all up to their counts is.
    pub fn same(&self, other: &Body) -> bool {
        self.counter == other.counter
            && self.block_count == other.block_count
            && self.effect_count == other.effect_count
            && self.blocks[..self.block_count] == other.blocks[..self.block_count]
            && self.effects[..self.effect_count] == other.effects[..self.effect_count]
    }
}

/// A record where it starts in the input: all bytes from there on.
#[derive(Clone, Copy)]
struct Record<'a> {
    offset: usize,
    bytes: &'a [u8],
}

impl Record<'_> {
    fn u8_at(&self, at: usize) -> u8 {
        self.bytes[at]
    }

    fn u16_at(&self, at: usize) -> u16 {
        u16::from_le_bytes(self.bytes[at..at + 2].try_into().unwrap())
    }

    fn u32_at(&self, at: usize) -> u32 {
        u32::from_le_bytes(self.bytes[at..at + 4].try_into().unwrap())
    }

    fn i32_at(&self, at: usize) -> i32 {
        i32::from_le_bytes(self.bytes[at..at + 4].try_into().unwrap())
    }

    fn length(&self) -> usize {
        self.u16_at(0) as usize
    }

    fn kind(&self) -> u16 {
        self.u16_at(2)
    }

    fn counter(&self) -> Counter {
        Counter { initial: self.i32_at(4), step: self.i32_at(8), relation: self.u8_at(12), limit: self.i32_at(13) }
    }

    fn block(&self) -> Block {
        Block {
            cost: self.u32_at(4),
            ending: self.u8_at(8),
            jump: self.u8_at(9),
            fall: self.u8_at(10),
            variable: self.u8_at(11),
            relation: self.u8_at(12),
            constant: self.i32_at(13),
            effects: 0,
        }
    }

    fn effect(&self) -> Effect {
        Effect { variable: self.u8_at(4), how: self.u8_at(5), constant: self.i32_at(6) }
    }
}

/// How many of these records are of the kind.
fn number_of(kind: u16, records: &[Record]) -> usize {
    records.iter().filter(|record| record.kind() == kind).count()
}

/// A refusal number with the rule that gives it: is it broken by the record, with these records before it?
/// A rule may rely on the rules above it in the table.
type RecordRule = (u32, fn(&Record, &[Record]) -> bool);

/// "For one record: 10 for the start, 12, 11, 10 for the length, 13, 14, 15, 16."
const RECORD_RULES: [RecordRule; 8] = [
    (10, starts_with_too_few_bytes),
    (12, has_unknown_kind),
    (11, has_wrong_length),
    (10, reaches_beyond_the_input),
    (13, stands_in_the_wrong_place),
    (14, is_one_too_many),
    (15, has_a_bad_field),
    (16, has_a_target_not_above),
];

fn starts_with_too_few_bytes(record: &Record, _: &[Record]) -> bool {
    (1..=3).contains(&record.bytes.len())
}

fn has_unknown_kind(record: &Record, _: &[Record]) -> bool {
    ![COUNTER, BLOCK, EFFECT].contains(&record.kind())
}

fn has_wrong_length(record: &Record, _: &[Record]) -> bool {
    record.length() != if record.kind() == EFFECT { 10 } else { 17 }
}

fn reaches_beyond_the_input(record: &Record, _: &[Record]) -> bool {
    record.length() > record.bytes.len()
}

fn stands_in_the_wrong_place(record: &Record, before: &[Record]) -> bool {
    let first_is_no_counter = before.is_empty() && record.kind() != COUNTER;
    let later_counter = !before.is_empty() && record.kind() == COUNTER;
    let effect_before_any_block = record.kind() == EFFECT && number_of(BLOCK, before) == 0;
    first_is_no_counter || later_counter || effect_before_any_block
}

fn is_one_too_many(record: &Record, before: &[Record]) -> bool {
    match record.kind() {
        BLOCK => number_of(BLOCK, before) >= MOST_BLOCKS,
        EFFECT => number_of(EFFECT, before) >= MOST_EFFECTS,
        _ => false,
    }
}

fn has_a_bad_field(record: &Record, _: &[Record]) -> bool {
    match record.kind() {
        COUNTER => record.counter().relation > HIGHEST_RELATION,
        BLOCK => block_has_a_bad_field(&record.block()),
        _ => effect_has_a_bad_field(&record.effect()),
    }
}

fn block_has_a_bad_field(block: &Block) -> bool {
    if block.cost > HIGHEST_COST || block.ending > TEST {
        return true;
    }
    let after_ending = [
        block.jump as i64,
        block.fall as i64,
        block.variable as i64,
        block.relation as i64,
        block.constant as i64,
    ];
    let used = match block.ending {
        END => 0,
        GO => 1,
        OPEN => 2,
        _ => 5,
    };
    after_ending[used..].iter().any(|field| *field != 0)
        || block.variable > HIGHEST_VARIABLE
        || block.relation > HIGHEST_RELATION
}

fn effect_has_a_bad_field(effect: &Effect) -> bool {
    effect.variable > HIGHEST_VARIABLE || effect.how > CONSTANT || (effect.how == UNKNOWN && effect.constant != 0)
}

/// The targets that a block's ending uses.
pub fn used_targets(block: &Block) -> Vec<u8> {
    match block.ending {
        END => vec![],
        GO => vec![block.jump],
        _ => vec![block.jump, block.fall],
    }
}

fn has_a_target_not_above(record: &Record, before: &[Record]) -> bool {
    let number = number_of(BLOCK, before);
    record.kind() == BLOCK && used_targets(&record.block()).iter().any(|target| *target as usize <= number)
}

/// The records of a form, or the first bad record's refusal.
fn records(form: &[u8]) -> Result<Vec<Record<'_>>, Refusal> {
    let mut before: Vec<Record> = Vec::new();
    let mut offset = 0;
    while offset < form.len() {
        let record = Record { offset, bytes: &form[offset..] };
        if let Some((number, _)) = RECORD_RULES.iter().find(|(_, broken)| broken(&record, &before)) {
            return Err(Refusal::new(*number, offset));
        }
        offset += record.length();
        before.push(record);
    }
    Ok(before)
}

/// The refusals that only the whole form shows: 17, then 18 and 19 block by block, 18 first.
fn judge_whole(form: &[u8], records: &[Record]) -> Result<(), Refusal> {
    if number_of(COUNTER, records) == 0 || number_of(BLOCK, records) == 0 {
        return Err(Refusal::new(17, form.len()));
    }
    let blocks: Vec<&Record> = records.iter().filter(|record| record.kind() == BLOCK).collect();
    for (number, record) in blocks.iter().enumerate() {
        let is_last = number + 1 == blocks.len();
        if (record.block().ending == END) != is_last {
            return Err(Refusal::new(18, record.offset));
        }
        if used_targets(&record.block()).iter().any(|target| *target as usize >= blocks.len()) {
            return Err(Refusal::new(19, record.offset));
        }
    }
    Ok(())
}

/// The reader: the body of an accepted form, or the refusal, one of 10 to 19.
pub fn read(form: &[u8]) -> Result<Body, Refusal> {
    let records = records(form)?;
    judge_whole(form, &records)?;
    let mut body = Body::empty(records[0].counter());
    for record in &records[1..] {
        match record.kind() {
            BLOCK => body.push_block(record.block()),
            _ => body.push_effect(record.effect()),
        }
    }
    Ok(body)
}

/// The bytes of one record: its length, its kind, its payload.
fn record_bytes(kind: u16, payload: &[u8]) -> Vec<u8> {
    let length = payload.len() as u16 + 4;
    [&length.to_le_bytes(), &kind.to_le_bytes(), payload].concat()
}

pub fn counter_bytes(counter: &Counter) -> Vec<u8> {
    let (initial, step, limit) =
        (counter.initial.to_le_bytes(), counter.step.to_le_bytes(), counter.limit.to_le_bytes());
    record_bytes(COUNTER, &[&initial[..], &step, &[counter.relation], &limit].concat())
}

pub fn block_bytes(block: &Block) -> Vec<u8> {
    let one_byte_each = [block.ending, block.jump, block.fall, block.variable, block.relation];
    let (cost, constant) = (block.cost.to_le_bytes(), block.constant.to_le_bytes());
    record_bytes(BLOCK, &[&cost[..], &one_byte_each, &constant].concat())
}

pub fn effect_bytes(effect: &Effect) -> Vec<u8> {
    record_bytes(EFFECT, &[&[effect.variable, effect.how][..], &effect.constant.to_le_bytes()].concat())
}

/// The counter, then each block followed by its effects; right or wrong, and however many.
pub fn parts_bytes(counter: &Counter, parts: &Parts) -> Vec<u8> {
    let mut bytes = counter_bytes(counter);
    for (block, effects) in parts {
        bytes.extend(block_bytes(block));
        for effect in effects {
            bytes.extend(effect_bytes(effect));
        }
    }
    bytes
}

/// The writer: the number of bytes written to `out`, or the refusal (14 at 0, 10 to 19, then 42), `out` unchanged.
pub fn write(body: &Body, out: &mut [u8]) -> Result<usize, Refusal> {
    if body.block_count > MOST_BLOCKS || body.effect_count > MOST_EFFECTS {
        return Err(Refusal::new(14, 0));
    }
    let added: usize = body.blocks[..body.block_count].iter().map(|block| block.effects as usize).sum();
    if added != body.effect_count {
        return Err(Refusal::new(14, 0));
    }
    let parts: Parts =
        (0..body.block_count).map(|number| (body.blocks[number], body.effects_of(number).to_vec())).collect();
    let bytes = parts_bytes(&body.counter, &parts);
    read(&bytes)?;
    if out.len() < bytes.len() {
        return Err(Refusal::new(42, bytes.len()));
    }
    out[..bytes.len()].copy_from_slice(&bytes);
    Ok(bytes.len())
}
