//! What the comparison drivers share: their arguments, and the run in which the proved code is asked and judged.
//!
//! A driver makes questions, here in one thread, while the program that has the proved code answers them and a second
//! thread judges the answers in order. At the end it prints how often each call answered with each number, and which of
//! the numbers it was to meet never came.

use std::collections::BTreeMap;
use std::env;
use std::io::{BufReader, BufWriter, Write};
use std::iter;
use std::process::{exit, Child, ChildStdin, ChildStdout, ExitCode};
use std::sync::mpsc::{channel, Receiver, Sender};
use std::sync::Arc;
use std::thread::{spawn, JoinHandle};

use crate::calls::Listing;
use crate::example::trainer_form;
use crate::generate::{generate, Kind};
use crate::second;
use crate::served::{Answer, Call, Numbers, Question, Served};
use crate::tally::{Met, Tally};

/// All relations, and numbers above 5, which are none.
pub const RELATIONS: [u8; 9] = [0, 1, 2, 3, 4, 5, 6, 128, 255];

/// `DRIVER [SEED [INPUTS]] -- PROGRAM WORD..`: without a seed it is 1; the program answers for the proved code.
pub struct Arguments {
    pub seed: u64,
    pub inputs: u64,
    pub program: Vec<String>,
}

impl Arguments {
    /// Reads them and says which run they make. Where they are wrong, the driver ends.
    pub fn of(driver: &str, usual_inputs: u64) -> Arguments {
        let Some(arguments) = Arguments::read(usual_inputs) else {
            eprintln!("usage: {driver} [SEED [INPUTS]] -- PROGRAM WORD..");
            exit(2);
        };
        println!("{driver}: seed {}, {} inputs", arguments.seed, arguments.inputs);
        arguments
    }

    fn read(usual_inputs: u64) -> Option<Arguments> {
        let mut words = env::args().skip(1);
        let numbers: Result<Vec<u64>, _> =
            words.by_ref().take_while(|word| word != "--").map(|word| word.parse()).collect();
        let (seed, inputs) = match numbers.as_deref() {
            Ok([]) => (1, usual_inputs),
            Ok([seed]) => (*seed, usual_inputs),
            Ok([seed, inputs]) => (*seed, *inputs),
            _ => return None,
        };
        let program: Vec<String> = words.collect();
        (!program.is_empty()).then_some(Arguments { seed, inputs, program })
    }
}

/// A form to compare on, what it is and its own seed.
pub struct Form {
    pub what: String,
    pub bytes: Vec<u8>,
    pub seed: u64,
}

/// Judges the answers to an input's questions, and may note what was met; the error is what is wrong with them.
type Judge = Box<dyn FnOnce(&[Question], &[Answer], &mut Met) -> Result<(), String> + Send>;

/// One input with the questions about it. It counts once.
struct Input {
    what: String,
    questions: Arc<Vec<Question>>,
    judge: Judge,
}

/// What came of the answers.
#[derive(Default)]
struct Judged {
    tally: Tally,
    met: Met,
    /// How often each call answered with each number.
    numbers: BTreeMap<(Call, u64), u64>,
}

/// What an input is to have must be met so often.
const AT_LEAST: u64 = 10;

/// The run of a driver.
pub struct Comparison {
    pub seed: u64,
    pub inputs: u64,
    /// What the inputs had that the driver is to meet, and its other checks.
    pub met: Met,
    pub tally: Tally,
    child: Child,
    questions: BufWriter<ChildStdin>,
    to_judge: Sender<Input>,
    judging: JoinHandle<Judged>,
    not_listed: u64,
}

impl Comparison {
    /// Reads the arguments, starts the program and sees that it has the calls. Where it has not, the driver ends.
    pub fn start(driver: &str, usual_inputs: u64, calls: &[Call]) -> Comparison {
        let Arguments { seed, inputs, program } = Arguments::of(driver, usual_inputs);
        let started = Served::start(&program).and_then(|mut served| {
            calls.iter().try_for_each(|call| served.ask(&Question::on(*call, &[])).map(|_| ()))?;
            Ok(served)
        });
        let Served { child, questions, answers } = started.unwrap_or_else(|why| {
            println!("{driver}: {why}\n0 passed, 1 failed");
            exit(1);
        });
        let (to_judge, inputs_to_judge) = channel();
        let judging = spawn(move || judge_all(inputs_to_judge, answers));
        let (met, tally) = (Met::default(), Tally::default());
        Comparison { seed, inputs, met, tally, child, questions, to_judge, judging, not_listed: 0 }
    }

    /// The trainer's form and as many of the generator as there are to be inputs; `kinds` says which, by seed and place.
    pub fn forms(&self, kinds: fn(u64, u64) -> (Kind, u64)) -> impl Iterator<Item = Form> {
        let (run_seed, inputs) = (self.seed, self.inputs);
        let trainers = Form { what: "the trainer's form".to_string(), bytes: trainer_form(), seed: run_seed };
        let generated = (0..inputs).map(move |place| {
            let (kind, seed) = kinds(run_seed, place);
            let what = format!("input {place}, `compare generate {} {seed}`", kind.name());
            Form { what, bytes: generate(kind, seed), seed }
        });
        iter::once(trainers).chain(generated)
    }

    /// Asks the questions, all about the listing's form, and holds the answers to the second program's, whose numbers are
    /// returned. A question that it has no answer to is not asked, and an input without questions does not count.
    pub fn compare(&mut self, what: String, listing: &Listing, questions: Vec<Question>) -> Vec<Numbers> {
        let many = questions.len();
        let (asked, wanted): (Vec<Question>, Vec<Answer>) = questions
            .into_iter()
            .filter_map(|question| second::answer(listing, &question).map(|answer| (question, answer)))
            .unzip();
        self.not_listed += (many - asked.len()) as u64;
        let numbers = wanted.iter().map(|answer| answer.numbers).collect();
        if !asked.is_empty() {
            self.ask(what, asked, move |asked, answers, _| {
                match (0..asked.len()).find(|at| answers[*at] != wanted[*at]) {
                    Some(at) => Err(difference(&asked[at], &answers[at], &wanted[at])),
                    None => Ok(()),
                }
            });
        }
        numbers
    }

    /// Asks the questions of an input, and has the answers judged.
    pub fn ask(
        &mut self,
        what: String,
        questions: Vec<Question>,
        judge: impl FnOnce(&[Question], &[Answer], &mut Met) -> Result<(), String> + Send + 'static,
    ) {
        let questions = Arc::new(questions);
        // The answers must be read while the questions are written: neither pipe holds all of them.
        let _ = self.to_judge.send(Input { what, questions: questions.clone(), judge: Box::new(judge) });
        // Where the program has ended and nothing can be written, the judging thread misses the answer and says so.
        let _ = questions.iter().try_for_each(|question| question.write(&mut self.questions));
    }

    /// Waits for the last answer. Prints what was met, and how often each call answered with each number, and checks that
    /// the numbers named came; then the last line and the exit status.
    pub fn finish(self, must_come: &[(Call, &[u64])]) -> ExitCode {
        let Comparison { mut met, mut tally, mut child, mut questions, to_judge, judging, not_listed, .. } = self;
        let flushed = questions.flush();
        drop((questions, to_judge));
        let judged = judging.join().expect("the judging thread ends by itself");
        let ended_well = child.wait().is_ok_and(|status| status.success());
        tally.check(flushed.is_ok() && ended_well, || {
            "the program that has the proved code ended badly".to_string()
        });
        tally.add(judged.tally);
        met.add(judged.met);
        met.finish("inputs", &mut tally, AT_LEAST);
        for (call, must_come) in must_come {
            let of_call = judged.numbers.iter().filter(|((other, _), _)| other == call);
            let counts: Vec<String> = of_call.map(|((_, number), times)| format!("{number}: {times}")).collect();
            println!("{} answered {}", call.name(), counts.join(", "));
            for number in *must_come {
                let came = judged.numbers.contains_key(&(*call, *number));
                tally.check(came, || format!("{} never answered {number}", call.name()));
            }
        }
        if not_listed > 0 {
            println!("questions not asked, because there are too many ways to list: {not_listed}");
        }
        tally.finish()
    }
}

/// Reads and judges the answers, input by input. Where one does not come the driver ends.
fn judge_all(inputs: Receiver<Input>, mut answers: BufReader<ChildStdout>) -> Judged {
    let mut judged = Judged::default();
    for Input { what, questions, judge } in inputs {
        let read: Result<Vec<Answer>, String> =
            questions.iter().map(|question| question.read_answer(&mut answers)).collect();
        let answers = read.unwrap_or_else(|why| {
            judged.tally.check(false, || format!("{what}: {why}"));
            judged.tally.print();
            exit(1);
        });
        for (question, answer) in questions.iter().zip(&answers) {
            *judged.numbers.entry((question.call, answer.numbers[0])).or_default() += 1;
        }
        let verdict = judge(&questions, &answers, &mut judged.met);
        judged.tally.check(verdict.is_ok(), || format!("{what}: {}", verdict.unwrap_err()));
    }
    judged
}

/// How an answer differs from what was wanted.
fn difference(question: &Question, got: &Answer, wanted: &Answer) -> String {
    if got.numbers != wanted.numbers {
        return format!("{question}: answered {:?}, wanted {:?}", got.numbers, wanted.numbers);
    }
    let place = got.memory.difference(&wanted.memory).expect("the answers differ");
    format!("{question}: answered {:?} as wanted, but the memory is wrong from {place} on", got.numbers)
}

/// Are the first so many numbers the same, and both routes? Nothing is asked where one of the two answers with a number
/// that the other cannot give.
pub fn agree(
    which: &str,
    two: [&Answer; 2],
    blocks: usize,
    numbers: usize,
    only_one: &[u64],
) -> Result<(), String> {
    if two.iter().any(|answer| only_one.contains(&answer.numbers[0])) {
        return Ok(());
    }
    let [one, other] = two.map(|answer| (&answer.numbers[..numbers], &answer.memory.out()[..2 * blocks]));
    let same = if one.0[0] == 0 { one == other } else { one.0 == other.0 };
    same.then_some(()).ok_or_else(|| format!("{which} do not agree: {one:?} and {other:?}"))
}
