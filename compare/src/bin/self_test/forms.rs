//! The reader's refusals, each with its place, their order, and the writer.

use by_listing::conflict::{LESS, NOT_EQUAL};
use by_listing::form::{
    block_bytes, counter_bytes, effect_bytes, parts_bytes, read, write, Block, Body, Counter, Effect, Parts,
    Refusal, CONSTANT, GO, TEST, UNKNOWN,
};
use by_listing::tally::Tally;

use crate::{form_of, three_iterations};

/// Three blocks, one effect: the counter at 0, block 0 at 17, its effect at 34, block 1 at 44, block 2 at 61.
fn parts() -> Parts {
    vec![
        (Block::test(5, 3, LESS, 7, 1, 2), vec![Effect::constant(3, -1)]),
        (Block::go(6, 2), vec![]),
        (Block::end(7), vec![]),
    ]
}

const BLOCK_0: usize = 17;
const EFFECT_0: usize = 34;
const BLOCK_1: usize = 44;
const BLOCK_2: usize = 61;
const LENGTH: usize = 78;

/// Where fields stand in a record.
const KIND: usize = 2;
const COUNTER_RELATION: usize = 12;
const COST: usize = 4;
const ENDING: usize = 8;
const JUMP: usize = 9;
const FALL: usize = 10;
const VARIABLE: usize = 11;
const RELATION: usize = 12;
const BLOCK_CONSTANT: usize = 13;
const EFFECT_VARIABLE: usize = 4;
const EFFECT_HOW: usize = 5;
const EFFECT_CONSTANT: usize = 6;

pub fn run(tally: &mut Tally) {
    let form = form_of(&parts());
    tally.equal("the form's length", form.len(), LENGTH);
    tally.equal("the form is accepted", refusal(&form), None);
    changed_bytes(tally, &form);
    cut_and_joined(tally, &form);
    too_many(tally);
    whole_forms(tally);
    widest_fields(tally);
    writer(tally);
}

fn refusal(form: &[u8]) -> Option<(u32, u64)> {
    read(form).err().map(|refusal| (refusal.number, refusal.place))
}

fn refused(tally: &mut Tally, what: &str, form: &[u8], number: u32, place: usize) {
    tally.equal(what, refusal(form), Some((number, place as u64)));
}

/// The form with some bytes changed: what changed, the bytes (place and value), number, place.
fn changed_bytes(tally: &mut Tally, form: &[u8]) {
    type Case<'a> = (&'a str, &'a [(usize, u8)], u32, usize);
    let cases: &[Case] = &[
        ("counter of length 16", &[(0, 16)], 11, 0),
        ("counter of length 273", &[(1, 1)], 11, 0),
        ("block of length 10", &[(BLOCK_0, 10)], 11, BLOCK_0),
        ("block of length 0", &[(BLOCK_1, 0)], 11, BLOCK_1),
        ("effect of length 17", &[(EFFECT_0, 17)], 11, EFFECT_0),
        ("kind 0", &[(KIND, 0)], 12, 0),
        ("kind 4", &[(BLOCK_0 + KIND, 4)], 12, BLOCK_0),
        ("kind 258", &[(BLOCK_2 + KIND + 1, 1)], 12, BLOCK_2),
        ("a first record that is a block", &[(KIND, 2)], 13, 0),
        ("a first record that is an effect", &[(0, 10), (KIND, 3)], 13, 0),
        ("a second counter", &[(BLOCK_0 + KIND, 1)], 13, BLOCK_0),
        ("a later counter", &[(BLOCK_2 + KIND, 1)], 13, BLOCK_2),
        ("counter's relation 6", &[(COUNTER_RELATION, 6)], 15, 0),
        ("counter's relation 255", &[(COUNTER_RELATION, 255)], 15, 0),
        (
            "cost 1000001",
            &[(BLOCK_1 + COST, 0x41), (BLOCK_1 + COST + 1, 0x42), (BLOCK_1 + COST + 2, 0x0F)],
            15,
            BLOCK_1,
        ),
        ("cost 4278190086", &[(BLOCK_1 + COST + 3, 255)], 15, BLOCK_1),
        ("ending 4", &[(BLOCK_0 + ENDING, 4)], 15, BLOCK_0),
        ("variable 16", &[(BLOCK_0 + VARIABLE, 16)], 15, BLOCK_0),
        ("relation 6", &[(BLOCK_0 + RELATION, 6)], 15, BLOCK_0),
        ("go with a fall", &[(BLOCK_1 + FALL, 2)], 15, BLOCK_1),
        ("go with a variable", &[(BLOCK_1 + VARIABLE, 1)], 15, BLOCK_1),
        ("go with a relation", &[(BLOCK_1 + RELATION, 1)], 15, BLOCK_1),
        ("go with a constant", &[(BLOCK_1 + BLOCK_CONSTANT + 3, 1)], 15, BLOCK_1),
        ("open branch with a variable", &[(BLOCK_0 + ENDING, 2), (BLOCK_0 + RELATION, 0)], 15, BLOCK_0),
        ("end with a jump", &[(BLOCK_2 + JUMP, 3)], 15, BLOCK_2),
        ("end with a fall", &[(BLOCK_2 + FALL, 3)], 15, BLOCK_2),
        ("end with a variable", &[(BLOCK_2 + VARIABLE, 3)], 15, BLOCK_2),
        ("end with a relation", &[(BLOCK_2 + RELATION, 3)], 15, BLOCK_2),
        ("end with a constant", &[(BLOCK_2 + BLOCK_CONSTANT, 3)], 15, BLOCK_2),
        ("effect on variable 16", &[(EFFECT_0 + EFFECT_VARIABLE, 16)], 15, EFFECT_0),
        ("how 2", &[(EFFECT_0 + EFFECT_HOW, 2)], 15, EFFECT_0),
        ("unknown with a constant", &[(EFFECT_0 + EFFECT_HOW, 0)], 15, EFFECT_0),
        ("jump to itself", &[(BLOCK_0 + JUMP, 0)], 16, BLOCK_0),
        ("fall to itself", &[(BLOCK_0 + FALL, 0)], 16, BLOCK_0),
        ("go to itself", &[(BLOCK_1 + JUMP, 1)], 16, BLOCK_1),
        ("go back", &[(BLOCK_1 + JUMP, 0)], 16, BLOCK_1),
        (
            "a last block that tests",
            &[(BLOCK_2 + ENDING, TEST), (BLOCK_2 + JUMP, 3), (BLOCK_2 + FALL, 3)],
            18,
            BLOCK_2,
        ),
        ("a last block that goes on", &[(BLOCK_2 + ENDING, GO), (BLOCK_2 + JUMP, 9)], 18, BLOCK_2),
        ("block 1 ends", &[(BLOCK_1 + ENDING, 0), (BLOCK_1 + JUMP, 0)], 18, BLOCK_1),
        ("jump beyond", &[(BLOCK_0 + JUMP, 3)], 19, BLOCK_0),
        ("fall beyond", &[(BLOCK_0 + FALL, 255)], 19, BLOCK_0),
        ("go beyond", &[(BLOCK_1 + JUMP, 64)], 19, BLOCK_1),
        // Several faults in one record: 12, 11, 10, 13, 14, 15, 16.
        ("12 before 11", &[(BLOCK_0, 3), (BLOCK_0 + KIND, 9)], 12, BLOCK_0),
        ("12 before 10", &[(BLOCK_2, 200), (BLOCK_2 + KIND, 9)], 12, BLOCK_2),
        ("11 before 10", &[(BLOCK_2, 200)], 11, BLOCK_2),
        ("11 before 13", &[(BLOCK_1, 18), (BLOCK_1 + KIND, 1)], 11, BLOCK_1),
        ("13 before 15", &[(BLOCK_1 + KIND, 1), (BLOCK_1 + COUNTER_RELATION, 6)], 13, BLOCK_1),
        ("15 before 16", &[(BLOCK_1 + JUMP, 0), (BLOCK_1 + RELATION, 1)], 15, BLOCK_1),
        // The first bad record decides, before anything that only the whole shows.
        ("16 in block 0, 12 in block 1", &[(BLOCK_0 + JUMP, 0), (BLOCK_1 + KIND, 0)], 16, BLOCK_0),
        ("15 in the effect, 16 in block 1", &[(EFFECT_0 + EFFECT_HOW, 7), (BLOCK_1 + JUMP, 0)], 15, EFFECT_0),
        ("19 in block 0, 15 in block 2", &[(BLOCK_0 + JUMP, 9), (BLOCK_2 + JUMP, 1)], 15, BLOCK_2),
        // 18 and 19 block by block, 18 first.
        (
            "19 in block 0, 18 in block 1",
            &[(BLOCK_0 + JUMP, 9), (BLOCK_1 + ENDING, 0), (BLOCK_1 + JUMP, 0)],
            19,
            BLOCK_0,
        ),
        (
            "19 in block 1, 18 in block 2",
            &[(BLOCK_1 + JUMP, 9), (BLOCK_2 + ENDING, GO), (BLOCK_2 + JUMP, 9)],
            19,
            BLOCK_1,
        ),
    ];
    for (what, changes, number, place) in cases {
        let mut changed = form.to_vec();
        for (at, value) in *changes {
            changed[*at] = *value;
        }
        refused(tally, what, &changed, *number, *place);
    }
    // The effect's constant is the last thing changed: how 1 takes any.
    let mut changed = form.to_vec();
    changed[EFFECT_0 + EFFECT_CONSTANT..EFFECT_0 + 10].copy_from_slice(&i32::MIN.to_le_bytes());
    tally.equal("any constant", refusal(&changed), None);
}

fn cut_and_joined(tally: &mut Tally, form: &[u8]) {
    let starts = [0, BLOCK_0, EFFECT_0, BLOCK_1, BLOCK_2];
    for cut in 0..LENGTH {
        let start = *starts.iter().rev().find(|start| **start <= cut).unwrap();
        let wanted = match cut {
            0 | BLOCK_0 => (17, cut),            // no counter, or no block
            EFFECT_0 | BLOCK_1 => (18, BLOCK_0), // block 0 is then the last and does not end
            BLOCK_2 => (19, BLOCK_0),            // block 0 falls beyond, before block 1 does not end
            _ => (10, start),
        };
        refused(tally, &format!("cut at {cut}"), &form[..cut], wanted.0, wanted.1);
    }
    for more in 1..=3 {
        let longer = [form, &[17, 0, 2][..more]].concat();
        refused(tally, "one to three bytes more", &longer, 10, LENGTH);
    }
    refused(tally, "two forms joined", &[form, form].concat(), 13, LENGTH);
    refused(tally, "a second end", &[form, &block_bytes(&Block::end(0))].concat(), 18, BLOCK_2);
    let first_effect = [counter_bytes(&three_iterations()), effect_bytes(&Effect::unknown(0))].concat();
    refused(tally, "an effect before any block", &first_effect, 13, 17);
    refused(tally, "10 before 13", &block_bytes(&Block::end(0))[..16], 10, 0);
    refused(tally, "13 before 15", &block_bytes(&Block { ending: 9, ..Block::end(0) }), 13, 0);
}

fn too_many(tally: &mut Tally) {
    let chain = |blocks: u8| -> Parts {
        (0..blocks)
            .map(|block| (if block + 1 < blocks { Block::go(1, block + 1) } else { Block::end(1) }, vec![]))
            .collect()
    };
    tally.equal("64 blocks", refusal(&form_of(&chain(64))), None);
    refused(tally, "65 blocks", &form_of(&chain(65)), 14, 17 + 64 * 17);
    let mut parts = chain(65);
    parts[64].0 = Block { cost: 2_000_000, ending: GO, ..Block::default() };
    refused(tally, "14 before 15 and 16", &form_of(&parts), 14, 17 + 64 * 17);
    refused(
        tally,
        "13 after 64 blocks",
        &[form_of(&chain(64)), counter_bytes(&three_iterations())].concat(),
        13,
        1105,
    );

    let with_effects = |blocks: u8, effects: usize| -> Parts {
        let mut parts = chain(blocks);
        parts[0].1 = vec![Effect::unknown(4); effects];
        parts
    };
    tally.equal("256 effects", refusal(&form_of(&with_effects(1, 256))), None);
    refused(tally, "257 effects", &form_of(&with_effects(1, 257)), 14, 34 + 2560);
    let mut parts = with_effects(1, 257);
    parts[0].1[256] = Effect { variable: 99, how: 9, constant: 9 };
    refused(tally, "14 before 15 in an effect", &form_of(&parts), 14, 34 + 2560);
    let longest = form_of(&with_effects(64, 256));
    tally.equal("the longest form has 3665 bytes", longest.len(), 3665);
    tally.equal("the longest form", refusal(&longest), None);
    for more in 1..=3 {
        refused(tally, "longer than the longest", &[&longest[..], &[0, 0, 0][..more]].concat(), 10, 3665);
    }
    refused(tally, "one effect more", &[longest, effect_bytes(&Effect::unknown(0))].concat(), 14, 3665);
}

fn whole_forms(tally: &mut Tally) {
    refused(tally, "nothing", &[], 17, 0);
    refused(tally, "a counter alone", &counter_bytes(&three_iterations()), 17, 17);
    tally.equal("one block", refusal(&form_of(&vec![(Block::end(0), vec![])])), None);
    refused(tally, "one block that goes on", &form_of(&vec![(Block::go(0, 1), vec![])]), 18, 17);
    let beyond_and_end = vec![(Block::open(0, 1, 2), vec![]), (Block::end(0), vec![])];
    refused(tally, "a fall just beyond", &form_of(&beyond_and_end), 19, 17);
}

fn widest_fields(tally: &mut Tally) {
    let mut widest = parts();
    widest[0] =
        (Block::test(1_000_000, 15, 5, i32::MIN, 2, 2), vec![Effect::constant(15, i32::MAX), Effect::unknown(15)]);
    let counter = Counter { initial: i32::MIN, step: i32::MAX, relation: 5, limit: i32::MIN };
    let form = parts_bytes(&counter, &widest);
    let body = read(&form).expect("the widest fields are accepted");
    tally.equal("the widest counter", body.counter, counter);
    tally.equal("the widest block", body.blocks[0], Block { effects: 2, ..widest[0].0 });
    tally.equal("its effects", body.effects_of(0), &widest[0].1[..]);
    tally.equal("no effects of block 1", body.effects_of(1), &[][..]);
    tally.equal("zero past the blocks", body.blocks[3..].iter().all(|block| *block == Block::default()), true);
    tally.equal(
        "zero past the effects",
        body.effects[2..].iter().all(|effect| *effect == Effect::default()),
        true,
    );
}

fn writer(tally: &mut Tally) {
    let form = form_of(&parts());
    let body = read(&form).unwrap();
    tally.check(body.same(&Body::of(three_iterations(), &parts())), || "the body read is another".to_string());

    let mut out = [0xA5; LENGTH + 2];
    tally.equal("written", write(&body, &mut out), Ok(LENGTH));
    tally.equal("the bytes read are written", &out[..LENGTH], &form[..]);
    tally.equal("bytes past the form", &out[LENGTH..], &[0xA5; 2][..]);

    let mut littered = body.clone();
    littered.blocks[3] = Block { cost: u32::MAX, ending: 77, effects: 999, ..Block::default() };
    littered.effects[1] = Effect { variable: 200, how: CONSTANT, constant: 1 };
    tally.check(littered.same(&body) && littered != body, || {
        "entries past the counts make another body".to_string()
    });
    let mut again = [0; LENGTH];
    tally.equal("entries past the counts are ignored", write(&littered, &mut again), Ok(LENGTH));
    tally.equal("the same bytes", &again[..], &form[..]);

    type Change = fn(&mut Body);
    let refusals: [(&str, Change, u32, u64); 12] = [
        ("65 blocks counted", |body| body.block_count = 65, 14, 0),
        ("257 effects counted", |body| body.effect_count = 257, 14, 0),
        ("one effect too few counted", |body| body.effect_count = 0, 14, 0),
        ("one effect too many counted", |body| body.effect_count = 2, 14, 0),
        ("a block with more effects", |body| body.blocks[2].effects = 1, 14, 0),
        ("huge numbers of effects", |body| body.blocks[2].effects = u16::MAX, 14, 0),
        ("14 before the fields", |body| (body.effect_count, body.counter.relation) = (0, 6), 14, 0),
        ("counter's relation", |body| body.counter.relation = 6, 15, 0),
        ("no blocks", |body| *body = Body::empty(body.counter), 17, 17),
        ("fewer blocks", |body| body.block_count = 2, 19, 17),
        ("unknown with a constant", |body| body.effects[0].how = UNKNOWN, 15, 34),
        ("a target not above", |body| body.blocks[1].jump = 1, 16, 44),
    ];
    for (what, change, number, place) in refusals {
        let mut changed = body.clone();
        change(&mut changed);
        for lent in [0, LENGTH + 40] {
            let mut out = vec![0x5A; lent];
            tally.equal(what, write(&changed, &mut out), Err(Refusal { number, place }));
            tally.check(out.iter().all(|byte| *byte == 0x5A), || format!("{what}: bytes were written"));
        }
    }
    for lent in 0..LENGTH {
        let mut out = vec![0x5A; lent];
        tally.equal("too few bytes", write(&body, &mut out), Err(Refusal { number: 42, place: LENGTH as u64 }));
        tally.check(out.iter().all(|byte| *byte == 0x5A), || "42: bytes were written".to_string());
    }
    let other_step = Counter { step: 2, ..three_iterations() };
    tally.equal("another counter is another body", body.same(&Body::of(other_step, &parts())), false);
    let mut other_relation = body.clone();
    other_relation.blocks[0].relation = NOT_EQUAL;
    tally.equal("another block is another body", body.same(&other_relation), false);
}
