//! How long the proved model, through its C interface, the second program and
//! plain Rust take for the same work, in one process and by turns.
//!
//! `cargo run --release --offline --manifest-path reference/Cargo.toml --bin speed`

mod programs;
mod work;

use programs::{Model, Plain, Second};
use reference::interface::from_reference;
use reference::model::{self, Controller, ALL_RIGHTS, BANKS};
use std::time::{Duration, Instant};
use work::{assert_all_done, memory, rows, timed, Left, Per, Work};

/// A row's passes: so many at least, and until so much time has passed.
const PASSES: usize = 7;
const TIME: Duration = Duration::from_millis(250);

const PROGRAMS: usize = 3;
const COLUMNS: [&str; 10] = [
    "work",
    "D",
    "operations",
    "passes",
    "per",
    "model",
    "second",
    "plain",
    "/ second",
    "/ plain",
];
const NOTES: &str = "
Nanoseconds per bus word or per call, the median of the passes; / second and / plain
  are the model's time divided by theirs.
model: the proved model through its C interface, on a controller that is lent to it.
second: the second program, compiled with cargo's release profile. It runs a whole
  operation by its steps, as the rules tell it, and judges the state anew at each.
plain: plain Rust with the same checks, made once in a call; a whole operation moves
  its words page by page. Compiled like the second program.
A pass does the operation at every place of the data pages, one after the other
  (a bank erase at both banks), on each program; they take turns to go first. Two reads
  have one place and are done there 32 times, each into its own part of the buffer: that
  in both banks, with 512 words in each, and the half denied one, whose last 512 words
  a region denies. That one is answered 9 and gives ones for them.
Before each pass, outside the timed part: flash of mixed words for reads, erased for
  programs, programmed to zeros for erases; a controller that is ready, with all
  rights by default and no region on but the one that denies; a buffer with a part for
  every operation, cleared for reads, of mixed words for programs, empty for erases; and
  the whole pass once untimed, on copies.
Rounds go through a data bank erase: with its steps alone, with a host that asks for
  the same bank each time and wins five rounds of six, or with one that asks for the
  other bank, where both are served in every round.
After each pass, asserted: answers, bits, buffer, image and state, the record of errors
  with it, are the same.";

/// Ready, with every right given by default, and the row's region on if it has one.
fn ready(work: &Work, image: &[u32]) -> Controller {
    let mut c = Controller::default();
    model::reset(&mut c, work.data_pages);
    model::set_default_rights(&mut c, ALL_RIGHTS);
    if let Some(region) = work.denying_region() {
        model::set_region(&mut c, 0, region);
    }
    for bank in 0..BANKS as u32 {
        model::set_bank_erase_permission(&mut c, bank, true);
    }
    model::initialise(&mut c, image);
    c
}

/// One pass: all programs from the same start, and all they leave compared.
fn pass(work: &Work, number: usize) -> [Duration; PROGRAMS] {
    let memory = memory(work);
    let controller = ready(work, &memory.image);
    let run = |program| -> (Duration, Left) {
        match program {
            0 => timed(Model(from_reference(&controller)), work, &memory),
            1 => timed(Second(controller.clone()), work, &memory),
            _ => timed(Plain(controller.clone()), work, &memory),
        }
    };
    let mut times = [Duration::ZERO; PROGRAMS];
    let mut first: Option<Left> = None;
    for turn in 0..PROGRAMS {
        let program = (number + turn) % PROGRAMS;
        let (time, left) = run(program);
        times[program] = time;
        assert_all_done(work, &left.told);
        let same = first.as_ref().is_none_or(|first| *first == left);
        assert!(same, "{}: they differ", work.name);
        first.get_or_insert(left);
    }
    times
}

/// The times of all passes.
fn passes(work: &Work) -> Vec<[Duration; PROGRAMS]> {
    let begun = Instant::now();
    let mut passes = Vec::new();
    while passes.len() < PASSES || begun.elapsed() < TIME {
        passes.push(pass(work, passes.len()));
    }
    passes
}

fn median(times: impl Iterator<Item = Duration>) -> Duration {
    let mut times: Vec<_> = times.collect();
    times.sort_unstable();
    times[times.len() / 2]
}

fn main() {
    print_row(COLUMNS);
    for work in rows() {
        let passes = passes(&work);
        let operations = work.addresses().len();
        let (per, units) = match work.per {
            Per::Word => ("word", work.words() * operations as u64),
            Per::Call => ("call", work.calls() * operations as u64),
        };
        let [model, second, plain] = std::array::from_fn(|program| {
            let time = median(passes.iter().map(|pass| pass[program]));
            time.as_nanos() as f64 / units as f64
        });
        print_row([
            work.name,
            &work.data_pages.to_string(),
            &operations.to_string(),
            &passes.len().to_string(),
            per,
            &three_digits(model),
            &three_digits(second),
            &three_digits(plain),
            &three_digits(model / second),
            &three_digits(model / plain),
        ]);
    }
    println!("{NOTES}");
}

fn print_row(columns: [&str; 10]) {
    let [name, data_pages, operations, passes, per, model, second, plain, to_second, to_plain] =
        columns;
    println!(
        "{name:<38} {data_pages:>4} {operations:>10} {passes:>6} {per:>4} \
         {model:>8} {second:>9} {plain:>8} {to_second:>8} {to_plain:>7}"
    );
}

/// Three significant digits.
fn three_digits(number: f64) -> String {
    let before_the_point = number.log10().floor() as i32 + 1;
    let decimals = (3 - before_the_point).max(0) as usize;
    format!("{number:.decimals$}")
}
