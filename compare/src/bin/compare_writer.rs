//! Compares the proved writer with the second program's, on bodies sound and damaged: counts over a limit or that do not add
//! up, fields and targets of every kind, and lent bytes of every length.
//!
//!     compare_writer [SEED [INPUTS]] -- PROGRAM WORD..
//!
//! The program (the crate `written`) has the bodies on its standard input and writes the answers on its standard output; its
//! head says how both are laid out. A body counts once: number, place, bytes written, and all of the lent memory.

use std::io::{BufReader, BufWriter, Read, Write};
use std::process::{Child, ChildStdin, Command, ExitCode, Stdio};
use std::thread::spawn;

use by_listing::driver::Arguments;
use by_listing::form::{self, Block, Body, Counter, Effect, MOST_BLOCKS, MOST_EFFECTS};
use by_listing::generate::{generate, mixed_accepted};
use by_listing::random::Random;
use by_listing::tally::{Met, Tally};

const INPUTS: u64 = 100_000;

/// So many bytes stand where bytes are lent, all of them this one, and a form has at most so many.
const MEMORY: usize = 4_096;
const FILLED_WITH: u8 = 165;
const LONGEST_FORM: usize = 17 + 17 * MOST_BLOCKS + 10 * MOST_EFFECTS;

/// A body as it is told, with counts that no body of the second program could hold, and how many bytes are lent.
struct Question {
    body: Body,
    count: u64,
    total: u64,
    own: [u64; MOST_BLOCKS],
    lent: usize,
}

#[derive(PartialEq, Eq)]
struct Answer {
    number: u64,
    place: u64,
    bytes: u64,
    memory: Vec<u8>,
}

fn main() -> ExitCode {
    let Arguments { seed, inputs, program } = Arguments::of("compare_writer", INPUTS);
    let (mut tally, mut met) = (Tally::default(), Met::default());
    match start(&program) {
        Err(why) => tally.check(false, || why),
        Ok(mut child) => {
            let questions = child.stdin.take().expect("it is piped");
            let mut answers = BufReader::new(child.stdout.take().expect("it is piped"));
            // The answers must be read while the questions are written: neither pipe holds all of them.
            let asking = spawn(move || ask_all(seed, inputs, questions));
            for place in 0..inputs {
                let question = Question::drawn(seed, place);
                let wanted = question.wanted();
                note(&mut met, &question, &wanted);
                let Some(answer) = Answer::read(&mut answers) else {
                    tally.check(false, || format!("body {place}: no answer came"));
                    break;
                };
                tally.check(answer == wanted, || format!("body {place}: {}", difference(&answer, &wanted)));
            }
            let asked = asking.join().expect("the asking thread ends by itself");
            let ended_well = child.wait().is_ok_and(|status| status.success());
            tally.check(asked && ended_well, || "the program that has the proved writer ended badly".to_string());
            met.finish("bodies", &mut tally, 10);
        }
    }
    tally.finish()
}

fn start(program: &[String]) -> Result<Child, String> {
    Command::new(&program[0])
        .args(&program[1..])
        .stdin(Stdio::piped())
        .stdout(Stdio::piped())
        .spawn()
        .map_err(|error| format!("{} cannot be started: {error}", program[0]))
}

fn ask_all(seed: u64, inputs: u64, to: ChildStdin) -> bool {
    let mut to = BufWriter::new(to);
    let many = (inputs as u32).to_le_bytes();
    to.write_all(&many)
        .and_then(|()| (0..inputs).try_for_each(|place| to.write_all(&Question::drawn(seed, place).told())))
        .and_then(|()| to.flush())
        .is_ok()
}

fn difference(got: &Answer, wanted: &Answer) -> String {
    let numbers = |answer: &Answer| (answer.number, answer.place, answer.bytes);
    if numbers(got) != numbers(wanted) {
        return format!("answered {:?}, wanted {:?}", numbers(got), numbers(wanted));
    }
    let place = (0..MEMORY).find(|at| got.memory[*at] != wanted.memory[*at]).expect("the answers differ");
    format!("answered {:?} as wanted, but the memory is wrong from {place} on", numbers(got))
}

/// What the bodies are to have, each at least ten times.
fn note(met: &mut Met, question: &Question, wanted: &Answer) {
    let answers = [
        ("form written", 0),
        ("counts refused, 14", 14),
        ("a field refused, 15", 15),
        ("a target refused, 16", 16),
        ("no block, 17", 17),
        ("an ending refused, 18", 18),
        ("a target beyond, 19", 19),
        ("too few bytes lent, 42", 42),
    ];
    for (what, number) in answers {
        met.note(what, wanted.number == number);
    }
    let over = (question.count > MOST_BLOCKS as u64, question.total > MOST_EFFECTS as u64);
    met.note("65 blocks", question.count == 65);
    met.note("257 effects", question.total == 257);
    met.note("more than 2^32 blocks or effects", question.count.max(question.total) > 1 << 32);
    met.note("counts within the limits that do not add up", over == (false, false) && !question.adds_up());
    met.note("own effects that would wrap to the total", !over.0 && question.wraps_to_the_total());
    met.note("the longest form", wanted.bytes == LONGEST_FORM as u64);
    met.note("bytes lent exactly", wanted.number == 0 && wanted.bytes == question.lent as u64);
    met.note("one byte too few", wanted.number == 42 && wanted.place == question.lent as u64 + 1);
    met.note("a bad form and too few bytes", (15..20).contains(&wanted.number) && question.lent < 17);
    met.note("bad counts and a bad field", wanted.number == 14 && question.body.counter.relation > 5);
}

impl Question {
    /// The body at this place of the run: a sound one, in most cases damaged.
    fn drawn(run_seed: u64, place: u64) -> Question {
        let (kind, seed) = mixed_accepted(run_seed, place);
        let mut random = Random::new(seed ^ 0x5752_4954_4552);
        let body = match random.below(20) {
            0 => Body::empty(Counter { initial: 0, step: 1, relation: 2, limit: 10 }),
            1 => longest(),
            _ => form::read(&generate(kind, seed)).expect("the generator's form is accepted"),
        };
        let own = body.blocks.map(|block| u64::from(block.effects));
        let (count, total) = (body.block_count as u64, body.effect_count as u64);
        let mut question = Question { body, count, total, own, lent: 0 };
        for _ in 0..random.pick(&[0, 0, 1, 1, 1, 1, 2, 3]) {
            question.damage(&mut random);
        }
        if random.percent(50) {
            question.fill_past_the_counts(&mut random);
        }
        let form = 17 + 17 * (count as usize) + 10 * (total as usize);
        question.lent = match random.below(8) {
            0 => random.below(17),
            1 => form - 1,
            2 => form,
            3 => form + 1 + random.below(40),
            4 => random.below(form),
            5 => LONGEST_FORM,
            _ => MEMORY,
        };
        question
    }

    fn damage(&mut self, random: &mut Random) {
        let (block, effect) = (self.some_block(random), self.some_effect(random));
        match random.below(8) {
            0 => self.count = other_count(random, self.count, MOST_BLOCKS),
            1 => self.total = other_count(random, self.total, MOST_EFFECTS),
            2 => self.own[block] = other_count(random, self.own[block], MOST_EFFECTS),
            3 => {
                // as many in all, but one of them is another block's
                let from = self.some_block(random);
                if self.own[from] > 0 {
                    self.own[from] -= 1;
                    self.own[block] = self.own[block].wrapping_add(1);
                }
            }
            4 => {
                // so many that a sum of 64 bits would be right again
                let other = self.some_block(random);
                if other != block {
                    let half = 1 << 63;
                    self.own[block] = self.own[block].wrapping_add(half);
                    self.own[other] = self.own[other].wrapping_add(half);
                }
            }
            5 => damage_effect(random, &mut self.body.effects[effect]),
            6 if random.percent(20) => self.body.counter.relation = random.pick(&[4, 5, 6, 7, 255]),
            _ => damage_block(random, &mut self.body.blocks[block], block),
        }
    }

    fn some_block(&self, random: &mut Random) -> usize {
        random.below(self.body.block_count.max(1))
    }

    fn some_effect(&self, random: &mut Random) -> usize {
        random.below(self.body.effect_count.max(1))
    }

    /// What stands there is no part of the body.
    fn fill_past_the_counts(&mut self, random: &mut Random) {
        for block in self.body.block_count..MOST_BLOCKS {
            damage_block(random, &mut self.body.blocks[block], block);
            self.own[block] = random.draw();
        }
        for effect in self.body.effect_count..MOST_EFFECTS {
            damage_effect(random, &mut self.body.effects[effect]);
        }
    }

    fn counted_own(&self) -> &[u64] {
        &self.own[..self.count.min(MOST_BLOCKS as u64) as usize]
    }

    fn adds_up(&self) -> bool {
        self.counted_own().iter().map(|own| u128::from(*own)).sum::<u128>() == u128::from(self.total)
    }

    fn wraps_to_the_total(&self) -> bool {
        let wrapped = self.counted_own().iter().fold(0u64, |sum, own| sum.wrapping_add(*own));
        wrapped == self.total && !self.adds_up()
    }

    /// The second program's answer.
    fn wanted(&self) -> Answer {
        let mut memory = vec![FILLED_WITH; MEMORY];
        let within = self.count <= MOST_BLOCKS as u64 && self.total <= MOST_EFFECTS as u64;
        let written = if within && self.adds_up() {
            let mut body = self.body.clone();
            body.block_count = self.count as usize;
            body.effect_count = self.total as usize;
            for (block, own) in body.blocks.iter_mut().zip(self.counted_own()) {
                block.effects = *own as u16;
            }
            form::write(&body, &mut memory[..self.lent])
        } else {
            Err(form::Refusal::new(14, 0))
        };
        let (number, place, bytes) = match written {
            Ok(bytes) => (0, 0, bytes as u64),
            Err(refusal) => (u64::from(refusal.number), refusal.place, 0),
        };
        Answer { number, place, bytes, memory }
    }

    /// As the program has it on its standard input.
    fn told(&self) -> Vec<u8> {
        let Counter { initial, step, relation, limit } = self.body.counter;
        let mut told = (self.lent as u32).to_le_bytes().to_vec();
        for number in [initial, step, limit] {
            told.extend(biased(number));
        }
        told.push(relation);
        told.extend(self.count.to_le_bytes());
        told.extend(self.total.to_le_bytes());
        for (block, own) in self.body.blocks.iter().zip(self.own) {
            told.extend(block.cost.to_le_bytes());
            told.extend(biased(block.constant));
            told.extend([block.ending, block.jump, block.fall, block.variable, block.relation]);
            told.extend(own.to_le_bytes());
        }
        for effect in &self.body.effects {
            told.extend(biased(effect.constant));
            told.extend([effect.variable, effect.how]);
        }
        told
    }
}

impl Answer {
    fn read(from: &mut impl Read) -> Option<Answer> {
        let mut bytes = vec![0; 24 + MEMORY];
        from.read_exact(&mut bytes).ok()?;
        let number = |at: usize| u64::from_le_bytes(bytes[at..at + 8].try_into().expect("eight bytes"));
        Some(Answer { number: number(0), place: number(8), bytes: number(16), memory: bytes[24..].to_vec() })
    }
}

/// A signed number with 2^31 added.
fn biased(number: i32) -> [u8; 4] {
    ((i64::from(number) + (1 << 31)) as u32).to_le_bytes()
}

fn other_count(random: &mut Random, count: u64, most: usize) -> u64 {
    let most = most as u64;
    match random.below(8) {
        0 => count.wrapping_add(1),
        1 => count.wrapping_sub(1),
        2 => most,
        3 => most + 1,
        4 => 0,
        5 => random.draw(),
        6 => u64::MAX - random.below(3) as u64,
        _ => random.below(300) as u64,
    }
}

fn damage_block(random: &mut Random, block: &mut Block, number: usize) {
    let near = |random: &mut Random| (number as i64 + random.within(-1, 2)).clamp(0, 255) as u8;
    match random.below(8) {
        0 => block.cost = random.pick(&[0, 999_999, 1_000_000, 1_000_001, u32::MAX]),
        1 => block.ending = random.pick(&[0, 0, 1, 2, 3, 4, 255]),
        2 => block.jump = random.pick(&[0, 63, 64, 255]),
        3 => block.jump = near(random),
        4 => block.fall = near(random),
        5 => block.fall = random.pick(&[0, 1, 63, 64, 255]),
        6 => block.variable = random.pick(&[0, 15, 16, 255]),
        _ => {
            block.relation = random.pick(&[0, 5, 6, 255]);
            block.constant = random.pick(&[0, 1, -1, i32::MAX, i32::MIN]);
        }
    }
}

fn damage_effect(random: &mut Random, effect: &mut Effect) {
    match random.below(3) {
        0 => effect.variable = random.pick(&[0, 15, 16, 255]),
        1 => effect.how = random.pick(&[0, 1, 2, 255]),
        _ => effect.constant = random.pick(&[0, 1, -1, i32::MAX, i32::MIN]),
    }
}

/// 64 blocks, each with four effects.
fn longest() -> Body {
    let last = MOST_BLOCKS - 1;
    let effects = (0..4).map(|variable| Effect::constant(variable, i32::MIN)).collect::<Vec<Effect>>();
    let block = |number: usize| if number < last { Block::go(1, number as u8 + 1) } else { Block::end(1) };
    let parts = (0..MOST_BLOCKS).map(|number| (block(number), effects.clone())).collect();
    Body::of(Counter { initial: -1, step: i32::MIN, relation: 5, limit: i32::MAX }, &parts)
}
