//! Holds what the report program prints to the second program's text: on document 01's cases and others made to be hard, on
//! inputs of any length and in pieces, and on forms of the generator.
//!
//!     compare_report [SEED [INPUTS]] -- PROGRAM WORD..
//!
//! The program is started anew for each input, has it on standard input, and must print the whole text, nothing else, and
//! end well. An input counts once. Where document 01 or a hand's work gives the text, it is written down here, and the
//! second program's must be the same.

use std::io::{ErrorKind, Write};
use std::process::{Command, ExitCode, Stdio};
use std::thread::sleep;
use std::time::Duration;

use by_listing::conflict::EQUAL;
use by_listing::driver::Arguments;
use by_listing::example::{trainer_counter, trainer_form, trainer_parts};
use by_listing::form::{
    block_bytes, counter_bytes, effect_bytes, parts_bytes, read, Block, Counter, Effect, Parts,
};
use by_listing::generate::{generate, mixed, mixed_accepted};
use by_listing::made::{chain, open_tests, open_tests_and_a_way_round, with_beginnings};
use by_listing::random::Random;
use by_listing::report::{report, OWN_TABLE_BLOCKS};
use by_listing::shapes::note_routes;
use by_listing::tally::{Met, Tally};

const INPUTS: u64 = 300;

/// Longer than anything that the program has room for.
const LONG: usize = 100_000;

/// Between two pieces of an input that comes in pieces.
const PAUSE: Duration = Duration::from_millis(40);

const TRAINERS: &str = "\
blocks 8
iterations 10
conflicts 3
weight 43
bound 430
route 0J 2J 3F 5F 6J 7E
least 17
least route 0F 1J 3F 5J 7E
kept 4
walked 13
";

struct Comparison {
    program: Vec<String>,
    tally: Tally,
    met: Met,
}

fn main() -> ExitCode {
    let Arguments { seed, inputs, program } = Arguments::of("compare_report", INPUTS);
    let mut comparison = Comparison { program, tally: Tally::default(), met: Met::default() };
    comparison.trainers_cases();
    comparison.refusals();
    comparison.routes();
    comparison.beginnings();
    comparison.lengths(seed);
    comparison.pieces();
    comparison.generated(seed, inputs);
    let Comparison { mut tally, met, .. } = comparison;
    met.finish("inputs", &mut tally, 1);
    tally.finish()
}

impl Comparison {
    /// The program's text for the input, which comes in these pieces. The error is what went wrong with the run.
    fn printed(&self, pieces: &[&[u8]]) -> Result<String, String> {
        let mut child = Command::new(&self.program[0])
            .args(&self.program[1..])
            .stdin(Stdio::piped())
            .stdout(Stdio::piped())
            .stderr(Stdio::piped())
            .spawn()
            .map_err(|error| format!("{} cannot be started: {error}", self.program[0]))?;
        let mut input = child.stdin.take().expect("it is piped");
        for (place, piece) in pieces.iter().enumerate() {
            if place > 0 {
                sleep(PAUSE);
            }
            // The program may end before it was told all.
            match input.write_all(piece).and_then(|()| input.flush()) {
                Err(error) if error.kind() == ErrorKind::BrokenPipe => break,
                Err(error) => return Err(format!("its input cannot be written: {error}")),
                Ok(()) => {}
            }
        }
        drop(input);
        let ended = child.wait_with_output().map_err(|error| format!("it cannot be waited for: {error}"))?;
        if !ended.status.success() || !ended.stderr.is_empty() {
            return Err(format!("{}, and said {:?}", ended.status, String::from_utf8_lossy(&ended.stderr)));
        }
        String::from_utf8(ended.stdout).map_err(|_| "no text".to_string())
    }

    /// Compares on one input. `wanted` is what is written down for it, if anything is.
    fn compare(&mut self, what: &str, pieces: &[&[u8]], wanted: Option<&str>) {
        let Ok(second) = report(&pieces.concat()) else {
            self.met.note("too many ways to list", true);
            return;
        };
        self.note(&second, &pieces.concat());
        if let Some(wanted) = wanted {
            self.tally.equal(&format!("{what}, by the second program"), second.as_str(), wanted);
        }
        let printed = self.printed(pieces);
        self.tally.equal(what, printed, Ok(second));
    }

    fn note(&mut self, text: &str, form: &[u8]) {
        self.met.note("a report", text.starts_with("blocks"));
        for refusal in REFUSALS {
            self.met.note(refusal, text.starts_with(refusal));
        }
        if text.starts_with("blocks") {
            note_routes(&mut self.met, &read(form).expect("a form with a report is accepted"));
        }
    }

    fn form(&mut self, what: &str, form: &[u8], wanted: &str) {
        self.compare(what, &[form], Some(wanted));
    }

    /// Document 01's own.
    fn trainers_cases(&mut self) {
        self.form("the trainer's form", &trainer_form(), TRAINERS);
        let mut parts = trainer_parts();
        parts[1].0 = Block::go(3, 1);
        self.form("block 1's target made 1", &parts_bytes(&trainer_counter(), &parts), "refused 16 at 34\n");
        self.form("17 blocks", &parts_bytes(&trainer_counter(), &chain(17)), "refused 44 at 1088\n");
        let names: Vec<String> = (0..15).map(|block| format!("{block}J")).collect();
        let route = format!("{} 15E", names.join(" "));
        let swept = format!(
            "blocks 16\niterations 10\nconflicts 0\nweight 16\nbound 160\nroute {route}\nleast 16\nleast route {route}\n\
             kept 1\nwalked 16\n"
        );
        self.form("16 blocks", &parts_bytes(&trainer_counter(), &chain(16)), &swept);
        self.form("no input", &[], "refused 17 at 0\n");
    }

    /// Refusals in their order.
    fn refusals(&mut self) {
        let none = Counter { initial: 5, step: 0, relation: 0, limit: 5 };
        self.form("no loop count", &parts_bytes(&none, &trainer_parts()), "refused 20 at 0\n");
        self.form("17 blocks and no loop count", &parts_bytes(&none, &chain(17)), "refused 20 at 0\n");
        self.form("64 blocks", &parts_bytes(&trainer_counter(), &chain(64)), "refused 44 at 4096\n");
        self.form(
            "seven tests open at once",
            &parts_bytes(&trainer_counter(), &open_tests(7)),
            "refused 40 at 1\n",
        );
        self.compare("six tests open at once", &[&parts_bytes(&trainer_counter(), &open_tests(6))], None);
        let crowded = parts_bytes(&trainer_counter(), &open_tests_and_a_way_round(13));
        self.form("16 blocks, 13 tests open at once", &crowded, "refused 40 at 8\n");
        let larger = parts_bytes(&trainer_counter(), &open_tests_and_a_way_round(14));
        self.form("17 blocks, 14 tests open at once", &larger, "refused 44 at 1088\n");
        self.form("a counter alone", &counter_bytes(&trainer_counter()), "refused 17 at 17\n");
        let form = trainer_form();
        for cut in [1, 2, 3, 16, 18, 20, 172] {
            self.compare(&format!("the first {cut} bytes of the trainer's form"), &[&form[..cut]], None);
        }
    }

    /// The first of routes that weigh the same, and ways that a conflict strikes out; worked out by hand.
    fn routes(&mut self) {
        let form = |parts: &Parts| parts_bytes(&trainer_counter(), parts);
        let free = vec![
            (Block::open(0, 1, 2), vec![]),
            (Block::go(0, 3), vec![]),
            (Block::go(0, 3), vec![]),
            (Block::end(0), vec![]),
        ];
        let text = "blocks 4\niterations 10\nconflicts 0\nweight 0\nbound 0\nroute 0J 1J 3E\nleast 0\n\
                    least route 0J 1J 3E\nkept 1\nwalked 5\n";
        self.form("nothing costs anything", &form(&free), text);
        let tied = vec![
            (Block::open(1, 1, 2), vec![]),
            (Block::go(9, 5), vec![]),
            (Block::open(1, 3, 4), vec![]),
            (Block::go(2, 5), vec![]),
            (Block::go(2, 5), vec![]),
            (Block::end(1), vec![]),
        ];
        let text = "blocks 6\niterations 10\nconflicts 0\nweight 11\nbound 110\nroute 0J 1J 5E\nleast 5\n\
                    least route 0F 2J 3J 5E\nkept 1\nwalked 8\n";
        self.form("two lightest routes, neither of them first", &form(&tied), text);
        let struck_out = vec![
            (Block::go(1, 1), vec![Effect::constant(0, 1)]),
            (Block::test(1, 0, EQUAL, 0, 4, 2), vec![]),
            (Block::open(10, 3, 4), vec![]),
            (Block::go(100, 4), vec![]),
            (Block::end(1), vec![]),
        ];
        let text =
            "blocks 5\niterations 10\nconflicts 1\nweight 113\nbound 1130\nroute 0J 1F 2J 3J 4E\nleast 13\n\
                    least route 0J 1F 2F 4E\nkept 2\nwalked 6\n";
        self.form("the lightest way has a conflict", &form(&struck_out), text);
    }

    /// The most that can be walked in as many blocks as are swept. It is below the budget, so that no form has a report
    /// that ends in `walked over`.
    fn beginnings(&mut self) {
        for walked in [32_768, 49_151, 65_535] {
            let parts = with_beginnings(walked);
            self.tally.equal(&format!("the blocks of {walked} beginnings"), parts.len(), OWN_TABLE_BLOCKS);
            let form = parts_bytes(&trainer_counter(), &parts);
            self.compare(&format!("a body of {walked} beginnings"), &[&form], None);
            let last_line = format!("walked {walked}");
            let ends = report(&form)
                .is_ok_and(|text| text.lines().count() == 10 && text.lines().last() == Some(&last_line));
            self.tally.check(ends, || format!("a body of {walked} beginnings does not end in {last_line}"));
        }
        let one_more = parts_bytes(&trainer_counter(), &with_beginnings(65_536));
        self.form("a body of 65,536 beginnings", &one_more, "refused 44 at 1088\n");
    }

    /// Longer than any form, and at the lengths where the program's room ends.
    fn lengths(&mut self, seed: u64) {
        let random = &mut Random::new(seed);
        let trainers = trainer_form();
        let noise = random.bytes(LONG);
        self.compare("noise of 100,000 bytes", &[&noise], None);
        self.compare("100,000 zeros", &[&[0; LONG]], None);
        let longer = [&trainers[..], &noise[..LONG - trainers.len()]].concat();
        self.compare("the trainer's form followed by noise up to 100,000 bytes", &[&longer], None);
        let counter = counter_bytes(&trainer_counter());
        let block = block_bytes(&Block::go(1, 255));
        let effect = effect_bytes(&Effect::unknown(3));
        let blocks = [&counter[..], &block.repeat(LONG / block.len())].concat();
        self.form("blocks without end", &blocks, "refused 14 at 1105\n");
        let effects = [&counter[..], &block, &effect.repeat(LONG / effect.len())].concat();
        self.form("effects without end", &effects, "refused 14 at 2594\n");
        let most = [&counter[..], &block.repeat(64), &effect.repeat(256)].concat();
        for more in [&effect[..], &block, &counter, &[0; 17], &[255; 17], &[17, 0, 2], &[]] {
            for length in [most.len() + more.len(), 3681, 3682, 3683, 4095, 4096, 4097, LONG] {
                let mut form = [&most[..], more].concat();
                form.resize(length.max(form.len()), 0);
                let what = format!("the longest form, then {more:?}, then zeros up to {length} bytes");
                self.compare(&what, &[&form], None);
            }
        }
    }

    /// Through a pipe that is not filled at once.
    fn pieces(&mut self) {
        let form = trainer_form();
        for at in [1, 17, 100, 172] {
            let what = format!("the trainer's form in two pieces, {at} bytes first");
            self.compare(&what, &[&form[..at], &form[at..]], Some(TRAINERS));
        }
        let pieces: Vec<&[u8]> = form.chunks(20).collect();
        self.compare("the trainer's form in pieces of 20 bytes", &pieces, Some(TRAINERS));
        let long = form.repeat(600);
        let pieces: Vec<&[u8]> = long.chunks(3000).take(4).collect();
        self.compare("a long input in pieces of 3,000 bytes", &pieces, None);
    }

    fn generated(&mut self, seed: u64, inputs: u64) {
        for place in 0..inputs {
            let (kind, seed) = if place % 2 == 0 { mixed(seed, place) } else { mixed_accepted(seed, place) };
            let what = format!("input {place}, `compare generate {} {seed}`", kind.name());
            self.compare(&what, &[&generate(kind, seed)], None);
        }
    }
}

/// What the inputs are to meet.
const REFUSALS: [&str; 13] = [
    "refused 10 at",
    "refused 11 at",
    "refused 12 at",
    "refused 13 at",
    "refused 14 at",
    "refused 15 at",
    "refused 16 at",
    "refused 17 at",
    "refused 18 at",
    "refused 19 at",
    "refused 20 at",
    "refused 40 at",
    "refused 44 at",
];
