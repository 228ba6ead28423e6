//! How long the proved sweep and full walk take beside a plain Rust sweep and walk of the same method, each of which finds
//! the heaviest and the lightest in one pass, and how long the proved conflict list takes.
//!
//!     benchmark [SEED [BODIES]]
//!
//! Run by hand, through `compare/benchmark.sh`, which links the proved library. Bodies of 24 and of 64 blocks are made from
//! the seed until there are enough with a longest row of 16 or more. Each is swept by both, tables cleared beforehand; the
//! answers, routes and tables must be the same. Then each sweeps all bodies in turn, several times; the shortest time counts.
//! The walk is measured in the same way, on bodies of few beginnings, where reading the form is much of the time, and on bodies
//! with millions.

mod bodies;
mod plain;

use std::env;
use std::hint::black_box;
use std::process::ExitCode;
use std::time::Instant;

use plain::{Entry, Refusal, Swept, Walked};

/// Rounds over all bodies; the quickest counts.
const ROUNDS: usize = 15;
const BLOCK_COUNTS: [usize; 2] = [24, 64];
const LEAST_KEPT: u64 = 16;
const TABLE: usize = 64 * 64;
const ROUTES: usize = 2 * 64;
/// Bodies to walk: how many blocks, from how many beginnings to how many, one in how many of the bodies swept.
const WALKS: [(usize, u64, u64, usize); 2] = [(12, 30, 300, 1), (25, 1_000_000, 10_000_000, 50)];

/// The numbers of `somniaret_sweep_table`, as `somniaret.h` has them.
#[derive(Default)]
#[repr(C)]
struct SweepNumbers {
    number: u64,
    place: u64,
    iterations: u64,
    weight: u64,
    bound: u64,
    least: u64,
    least_total: u64,
    kept: u64,
}

/// The numbers of `somniaret_walk`.
#[derive(Default)]
#[repr(C)]
struct WalkNumbers {
    number: u64,
    place: u64,
    iterations: u64,
    weight: u64,
    bound: u64,
    least: u64,
    least_total: u64,
    walked: u64,
}

#[derive(Default)]
#[repr(C)]
struct ListNumbers {
    number: u64,
    place: u64,
    entries: u64,
}

// As the library has them: an answer of more than two words goes where the first argument points, on x86-64 by C's own rule and
// in the module that is compiled for another processor because it is the same module.
extern "C" {
    fn somniaret_sweep_table(
        answer: *mut SweepNumbers,
        form: *const u8,
        form_length: usize,
        table: *mut Entry,
        table_entries: usize,
        routes: *mut u8,
        routes_length: usize,
    );
    fn somniaret_walk(
        answer: *mut WalkNumbers,
        form: *const u8,
        form_length: usize,
        budget: u32,
        routes: *mut u8,
        routes_length: usize,
    );
    fn somniaret_conflicts(
        answer: *mut ListNumbers,
        form: *const u8,
        form_length: usize,
        out: *mut u8,
        out_length: usize,
    );
}

type Sweep = fn(&[u8], &mut [Entry], &mut [u8]) -> Result<Swept, Refusal>;

fn proved(form: &[u8], table: &mut [Entry], routes: &mut [u8]) -> Result<Swept, Refusal> {
    let mut answer = SweepNumbers::default();
    unsafe {
        let (entries_lent, bytes_lent) = (table.len(), routes.len());
        somniaret_sweep_table(
            &mut answer,
            form.as_ptr(),
            form.len(),
            table.as_mut_ptr(),
            entries_lent,
            routes.as_mut_ptr(),
            bytes_lent,
        );
    }
    let SweepNumbers { number, place, iterations, weight, bound, least, least_total, kept } = answer;
    match number {
        0 => Ok(Swept { iterations, weight, bound, least, least_total, kept }),
        _ => Err(Refusal { number, place }),
    }
}

type Walk = fn(&[u8], u32, &mut [u8]) -> Result<Walked, Refusal>;

fn proved_walk(form: &[u8], budget: u32, routes: &mut [u8]) -> Result<Walked, Refusal> {
    let mut answer = WalkNumbers::default();
    unsafe { somniaret_walk(&mut answer, form.as_ptr(), form.len(), budget, routes.as_mut_ptr(), routes.len()) };
    let WalkNumbers { number, place, iterations, weight, bound, least, least_total, walked } = answer;
    match number {
        0 => Ok(Walked { iterations, weight, bound, least, least_total, walked }),
        _ => Err(Refusal { number, place }),
    }
}

/// The lent memory of a sweep, cleared before each.
struct Lent {
    table: Vec<Entry>,
    routes: [u8; ROUTES],
}

impl Lent {
    fn new() -> Lent {
        Lent { table: vec![Entry::default(); TABLE], routes: [0; ROUTES] }
    }

    fn clear(&mut self) {
        self.table.fill(Entry::default());
        self.routes.fill(0);
    }
}

/// Microseconds a body, the clearing of the table left out.
fn time(sweep: Sweep, forms: &[Vec<u8>], lent: &mut Lent) -> f64 {
    let mut nanoseconds = 0;
    for form in forms {
        lent.clear();
        let began = Instant::now();
        let answer = sweep(black_box(form), &mut lent.table, &mut lent.routes);
        nanoseconds += began.elapsed().as_nanos();
        black_box((&answer, &lent.table, &lent.routes));
    }
    nanoseconds as f64 / 1_000.0 / forms.len() as f64
}

/// Microseconds a body.
fn time_walk(walk: Walk, forms: &[Vec<u8>]) -> f64 {
    let mut routes = [0; ROUTES];
    let began = Instant::now();
    for form in forms {
        black_box(&walk(black_box(form), u32::MAX, &mut routes));
        black_box(&routes);
    }
    began.elapsed().as_nanos() as f64 / 1_000.0 / forms.len() as f64
}

/// The walk of bodies with so many blocks and beginnings; false where the two differ.
fn walks(seed: u64, block_count: usize, fewest: u64, most: u64, bodies: usize) -> bool {
    let (mut forms, mut beginnings, mut made) = (Vec::new(), 0, 0);
    while forms.len() < bodies {
        made += 1;
        let form = bodies::body(block_count, seed ^ (block_count as u64) << 32, made);
        let (mut one, mut other) = ([0; ROUTES], [0; ROUTES]);
        let by_proved = proved_walk(&form, most as u32, &mut one);
        let by_plain = plain::walk(&form, most as u32, &mut other);
        if by_proved != by_plain || one != other {
            println!("body {made} of {block_count} blocks: {by_proved:?} proved, {by_plain:?} plain, or the routes differ");
            return false;
        }
        if let Ok(answer) = by_proved {
            if answer.walked >= fewest {
                beginnings += answer.walked;
                forms.push(form);
            }
        }
    }
    let times: Vec<(f64, f64)> =
        (0..ROUNDS).map(|_| (time_walk(proved_walk, &forms), time_walk(plain::walk, &forms))).collect();
    let (by_proved, by_plain) = (least(times.iter().map(|t| t.0)), least(times.iter().map(|t| t.1)));
    let beginnings = beginnings as f64 / bodies as f64;
    println!(
        "{bodies} bodies of {block_count} blocks to walk (seed {seed}, {made} made), {beginnings:.0} beginnings on average: \
         proved {by_proved:.2} µs, plain {by_plain:.2} µs, ratio {:.2}, {:.0} million beginnings a second",
        by_proved / by_plain,
        beginnings / by_proved
    );
    true
}

fn time_list(forms: &[Vec<u8>], out: &mut [u8]) -> (f64, f64) {
    let (mut all, mut longest) = (0, 0);
    for form in forms {
        let began = Instant::now();
        let mut answer = ListNumbers::default();
        unsafe { somniaret_conflicts(&mut answer, form.as_ptr(), form.len(), out.as_mut_ptr(), out.len()) };
        let took = began.elapsed().as_nanos();
        assert_eq!((answer.number, answer.place), (0, 0), "a list was refused");
        black_box(answer.entries);
        all += took;
        longest = longest.max(took);
    }
    (all as f64 / 1_000.0 / forms.len() as f64, longest as f64 / 1_000.0)
}

fn least(times: impl Iterator<Item = f64>) -> f64 {
    times.fold(f64::INFINITY, f64::min)
}

fn main() -> ExitCode {
    let numbers: Result<Vec<u64>, _> = env::args().skip(1).map(|word| word.parse()).collect();
    let (seed, bodies) = match numbers.as_deref() {
        Ok([]) => (1, 1_000),
        Ok([seed]) => (*seed, 1_000),
        Ok([seed, bodies]) => (*seed, *bodies as usize),
        _ => {
            eprintln!("usage: benchmark [SEED [BODIES]]");
            return ExitCode::from(2);
        }
    };
    let (mut one, mut other) = (Lent::new(), Lent::new());
    for block_count in BLOCK_COUNTS {
        let (mut forms, mut kept, mut made) = (Vec::new(), 0, 0);
        while forms.len() < bodies {
            made += 1;
            let form = bodies::body(block_count, seed ^ (block_count as u64) << 32, made);
            one.clear();
            other.clear();
            let by_proved = proved(&form, &mut one.table, &mut one.routes);
            let by_plain = plain::sweep(&form, &mut other.table, &mut other.routes);
            if by_proved != by_plain || one.table != other.table || one.routes != other.routes {
                println!("body {made} of {block_count} blocks: {by_proved:?} proved, {by_plain:?} plain, or the memory differs");
                return ExitCode::FAILURE;
            }
            if let Ok(swept) = by_proved {
                if swept.kept >= LEAST_KEPT {
                    kept += swept.kept;
                    forms.push(form);
                }
            }
        }
        // In turn, so that both meet the machine alike.
        let times: Vec<(f64, f64)> = (0..ROUNDS)
            .map(|_| (time(proved, &forms, &mut one), time(plain::sweep, &forms, &mut other)))
            .collect();
        let (by_proved, by_plain) = (least(times.iter().map(|t| t.0)), least(times.iter().map(|t| t.1)));
        println!(
            "{bodies} bodies of {block_count} blocks (seed {seed}, {made} made), kept {:.0} on average: \
             proved {by_proved:.2} µs, plain {by_plain:.2} µs, ratio {:.2}",
            kept as f64 / bodies as f64,
            by_proved / by_plain
        );
        let mut out = vec![0; 5 * 24_576];
        let lists: Vec<(f64, f64)> = (0..ROUNDS).map(|_| time_list(&forms, &mut out)).collect();
        println!(
            "their conflict lists: {:.2} µs on average, {:.2} µs the longest",
            least(lists.iter().map(|t| t.0)),
            least(lists.iter().map(|t| t.1))
        );
    }
    for (block_count, fewest, most, share) in WALKS {
        if !walks(seed, block_count, fewest, most, bodies.div_ceil(share)) {
            return ExitCode::FAILURE;
        }
    }
    ExitCode::SUCCESS
}
