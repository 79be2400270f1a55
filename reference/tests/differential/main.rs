//! The proved model, through its C interface, and the second program side by
//! side: long random runs, shuffles of whole operations, and scans with every cut.
//!
//! `LURGABEL_CALLS` sets the number of calls, `LURGABEL_SEED` another seed.
//! A disagreement ends the run at once; the shortest run that shows it is told.

mod arguments;
mod bench;
mod calls;
mod compare;
mod deciders;
mod environment;
mod generator;
mod layout;
mod pages;
mod panics;
mod rng;
mod run;
mod scans;
mod shrink;
mod shuffles;
mod situations;
mod slots;
mod states;
mod table;
mod watch;

use bench::unaltered;
use environment::number;
use std::io::Write;
use std::time::Instant;

const CALLS: u64 = 4_000_000;
const SEED: u64 = 0x10_57_0F_DE_5C;
const SHUFFLES: u64 = 8_000;
/// Shuffles that must have been tried with the premise holding and both lists writing.
const SHUFFLES_OF_TWO_WRITERS: u64 = 1_000;
/// Shuffles that must have been tried with the premise holding only because a denied read stops early.
const SHUFFLES_APART_BY_A_CUT: u64 = 50;

const HISTORIES: u64 = 1_500;

/// Past the test harness, which would keep it to itself.
fn print(text: &str) {
    std::io::stdout()
        .write_all(text.as_bytes())
        .expect("standard output takes the table");
}

#[test]
fn the_model_and_the_second_program_agree() {
    let begun = Instant::now();
    let (seed, calls) = (
        number("LURGABEL_SEED", SEED),
        number("LURGABEL_CALLS", CALLS),
    );
    let tally = run::run(seed, calls, unaltered)
        .unwrap_or_else(|failure| panic!("{}", shrink::told(failure, unaltered)));
    print(&format!(
        "\n{} calls in {:.1} s from seed {seed:#x}, all alike\n{}",
        tally.calls,
        begun.elapsed().as_secs_f64(),
        tally.shown()
    ));
    let missing = tally.never_met();
    assert!(
        missing.is_empty(),
        "the rules allow, but no call met: {missing:?}"
    );
}

#[test]
fn any_shuffle_of_two_lists_gives_what_each_list_gives_alone() {
    let begun = Instant::now();
    let seed = number("LURGABEL_SEED", SEED);
    let counts = shuffles::trials(seed, SHUFFLES).unwrap_or_else(|told| panic!("{told}"));
    print(&format!(
        "\n{} shuffles in {:.1} s: the premise held in {}, with both lists writing in {}, by a cut in {}\n",
        counts.trials,
        begun.elapsed().as_secs_f64(),
        counts.held,
        counts.both_wrote,
        counts.apart_by_a_cut
    ));
    assert!(counts.both_wrote >= SHUFFLES_OF_TWO_WRITERS, "{counts:?}");
    assert!(
        counts.apart_by_a_cut >= SHUFFLES_APART_BY_A_CUT,
        "{counts:?}"
    );
}

#[test]
fn every_cut_of_a_scan_leaves_the_list_before_or_after() {
    let begun = Instant::now();
    let seed = number("LURGABEL_SEED", SEED);
    let tally = scans::histories(seed, HISTORIES)
        .unwrap_or_else(|failure| panic!("{}", shrink::told(failure, unaltered)));
    print(&format!(
        "\n{HISTORIES} histories of {} calls for scans in {:.1} s: {}\n",
        tally.calls,
        begun.elapsed().as_secs_f64(),
        tally.shown()
    ));
    let missing = tally.never_met();
    assert!(missing.is_empty(), "no history met: {missing:?}");
}
