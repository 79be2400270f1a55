//! Bench sheets, by the proved model's program and by the second program: those that
//! the papers settle, and random ones.
//!
//! `LURGABEL_SHEETS` sets the number of random sheets, `LURGABEL_SEED` another seed, and
//! `LURGABEL_SHEET` names another program than target/bin/sheet.

mod damage;
mod draft;
#[path = "../differential/environment.rs"]
mod environment;
mod generator;
#[path = "../differential/panics.rs"]
mod panics;
mod program;
#[path = "../differential/rng.rs"]
mod rng;
mod run;
mod settled;
mod sheets;
mod situations;
mod tally;
mod told;
#[path = "../differential/watch.rs"]
mod watch;

use environment::number;
use reference::sheet;

const SHEETS: u64 = 3_000;
const SEED: u64 = 0x5_4EE7;

#[test]
fn the_second_program_prints_what_the_papers_settle() {
    settled::hold(|bytes| Ok(sheet::run(bytes).to_string()));
}

#[test]
fn the_program_prints_what_the_papers_settle() {
    settled::hold(program::printed);
}

#[test]
fn the_program_waits_for_the_whole_sheet() {
    let parts: [&[u8]; 3] = [&[2, 3, 1, 0, 0], &[0, 0], &[1, 0, 0]];
    assert_eq!(program::printed_of(parts), Ok("9 0\n".repeat(3)));
}

#[test]
fn the_program_and_the_second_program_agree() {
    let (seed, sheets) = (
        number("LURGABEL_SEED", SEED),
        number("LURGABEL_SHEETS", SHEETS),
    );
    let tally = run::run(seed, sheets).unwrap_or_else(|told| panic!("{told}"));
    println!("seed {seed:#x}\n{}", tally.shown());
    tally.assert_enough();
}
