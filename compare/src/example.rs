//! The trainer's body of document 01, whose form is `examples/trainer.form`, and the files of `examples`.

use std::fs;

use crate::conflict::{AT_LEAST, EQUAL, LESS};
use crate::form::{parts_bytes, Block, Counter, Effect, Parts};

pub fn trainer_counter() -> Counter {
    Counter { initial: 0, step: 1, relation: LESS, limit: 10 }
}

pub fn trainer_parts() -> Parts {
    vec![
        (Block::test(7, 0, AT_LEAST, 40, 2, 1), vec![]),
        (Block::go(3, 3), vec![Effect::constant(1, 0)]),
        (Block::go(11, 3), vec![Effect::constant(1, 1)]),
        (Block::test(2, 0, LESS, 20, 4, 5), vec![]),
        (Block::go(25, 5), vec![]),
        (Block::test(4, 1, EQUAL, 0, 7, 6), vec![]),
        (Block::go(18, 7), vec![]),
        (Block::end(1), vec![]),
    ]
}

/// The trainer's form, 173 bytes.
pub fn trainer_form() -> Vec<u8> {
    parts_bytes(&trainer_counter(), &trainer_parts())
}

/// The bytes of a file of `examples`, which must be there.
pub fn example_file(name: &str) -> Result<Vec<u8>, String> {
    let path = format!("{}/../examples/{name}", env!("CARGO_MANIFEST_DIR"));
    fs::read(path).map_err(|error| format!("examples/{name}: {error}"))
}
