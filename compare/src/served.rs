//! The proved code in a program of its own (`serve.c`), asked through its standard input and output.
//!
//! The proved library is compiled for x86-64. `serve.c` is linked with it and runs as it is there and in an emulator
//! elsewhere, so that the drivers reach it in one way on every machine. Questions may be written ahead: they are answered
//! one after the other.
//!
//! A question is twelve numbers of 8 bytes, little-endian: which call; four numbers for it; where in the memory the form,
//! the lent table and the lent bytes start and how many bytes they have; the length of the memory. Then comes the memory.
//! The answer is nine numbers, 1 or, where the library has no such call, 0, and the call's own, those that it does not
//! give zero; then the memory as it is now.

use std::array;
use std::fmt;
use std::io::{self, BufReader, BufWriter, Read, Write};
use std::process::{Child, ChildStdin, ChildStdout, Command, Stdio};

use crate::memory::Memory;

/// The calls of the library, with their numbers in `serve.c`.
#[derive(Clone, Copy, Debug, PartialEq, Eq, PartialOrd, Ord)]
pub enum Call {
    Verdict = 1,
    Rewrite,
    Count,
    Conflicts,
    Pair,
    Walk,
    Sweep,
    SweepTable,
    /// No call of the library: the most bytes of stack that one of its calls took so far.
    Stack,
}

impl Call {
    pub fn name(self) -> &'static str {
        match self {
            Call::Verdict => "somniaret_verdict",
            Call::Rewrite => "somniaret_rewrite",
            Call::Count => "somniaret_count",
            Call::Conflicts => "somniaret_conflicts",
            Call::Pair => "somniaret_pair",
            Call::Walk => "somniaret_walk",
            Call::Sweep => "somniaret_sweep",
            Call::SweepTable => "somniaret_sweep_table",
            Call::Stack => "the stack's use",
        }
    }
}

/// A call's own numbers in its answer, in the order of `somniaret.h`.
pub type Numbers = [u64; 8];

#[derive(Clone, Debug, PartialEq, Eq)]
pub struct Question {
    pub call: Call,
    /// What the call is given besides memory: the four numbers of a counter or a pair, or a budget and zeros.
    pub numbers: [u64; 4],
    pub memory: Memory,
}

#[derive(Clone, Debug, PartialEq, Eq)]
pub struct Answer {
    pub numbers: Numbers,
    pub memory: Memory,
}

impl Question {
    /// A question about a form, with nothing lent.
    pub fn on(call: Call, form: &[u8]) -> Question {
        Question { call, numbers: [0; 4], memory: Memory::with_form(form) }
    }

    /// A question of four numbers.
    pub fn of(call: Call, numbers: [u64; 4]) -> Question {
        Question { numbers, ..Question::on(call, &[]) }
    }

    pub fn budget(mut self, budget: u32) -> Question {
        self.numbers[0] = budget as u64;
        self
    }

    /// With so many entries lent as a table, or nothing, which is a null pointer.
    pub fn table(mut self, entries: Option<usize>) -> Question {
        self.memory.lend_table(entries);
        self
    }

    /// With so many bytes lent for a form, a list or two routes, or nothing, which is a null pointer.
    pub fn out(mut self, bytes: Option<usize>) -> Question {
        self.memory.lend_out(bytes);
        self
    }

    pub fn write(&self, to: &mut impl Write) -> io::Result<()> {
        let parts = self.memory.parts().map(|part| [part.start as u64, part.length as u64]);
        let length = [self.memory.bytes().len() as u64];
        let head = [&[self.call as u64], &self.numbers[..], parts.as_flattened(), &length].concat();
        to.write_all(&head.iter().flat_map(|number| number.to_le_bytes()).collect::<Vec<u8>>())?;
        to.write_all(self.memory.bytes())
    }

    pub fn read_answer(&self, from: &mut impl Read) -> Result<Answer, String> {
        let no_answer = |error| format!("{self}: no answer from the program that has the proved code: {error}");
        let mut head = [0; 8 + size_of::<Numbers>()];
        from.read_exact(&mut head).map_err(no_answer)?;
        let mut memory = self.memory.clone();
        from.read_exact(memory.bytes_mut()).map_err(no_answer)?;
        let number = |at: usize| u64::from_le_bytes(head[8 * at..8 * (at + 1)].try_into().unwrap());
        if number(0) == 0 {
            return Err(format!("the library has no {}", self.call.name()));
        }
        Ok(Answer { numbers: array::from_fn(|at| number(1 + at)), memory })
    }
}

impl fmt::Display for Question {
    fn fmt(&self, to: &mut fmt::Formatter) -> fmt::Result {
        write!(to, "{} given {:?}, {}", self.call.name(), self.numbers.map(|number| number as i64), self.memory)
    }
}

/// The program that has the proved code. Its two ends may go to two threads, one that asks and one that hears.
pub struct Served {
    pub child: Child,
    pub questions: BufWriter<ChildStdin>,
    pub answers: BufReader<ChildStdout>,
}

impl Served {
    /// Starts the program, given as its path and arguments.
    pub fn start(program: &[String]) -> Result<Served, String> {
        let mut child = Command::new(&program[0])
            .args(&program[1..])
            .stdin(Stdio::piped())
            .stdout(Stdio::piped())
            .spawn()
            .map_err(|error| format!("{} does not start: {error}", program[0]))?;
        let questions = BufWriter::new(child.stdin.take().expect("it was asked for"));
        let answers = BufReader::new(child.stdout.take().expect("it was asked for"));
        Ok(Served { child, questions, answers })
    }

    /// Asks one question and waits for the answer.
    pub fn ask(&mut self, question: &Question) -> Result<Answer, String> {
        let written = question.write(&mut self.questions).and_then(|()| self.questions.flush());
        written.map_err(|error| format!("{question} cannot be asked: {error}"))?;
        question.read_answer(&mut self.answers)
    }
}
