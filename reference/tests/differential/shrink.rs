//! The shortest failing run that can be found in bounded time, to be read.

use crate::bench::{unaltered, Alter, Bench, Start, Write};
use crate::calls::{Call, Outcome};
use crate::run::{replayed, run, Failure};
use reference::interface::{fields, flat};
use std::fmt::Write as _;
use std::sync::mpsc::channel;
use std::time::{Duration, Instant};

const TIME: Duration = Duration::from_secs(20);
/// Past its time, shrinking can only be in a call that never ends.
const TIME_LIMIT: Duration = Duration::from_secs(30);

/// Drops parts of a list, long ones first, as long as what is left still fails.
pub fn shortest<T: Clone>(
    list: &[T],
    until: Instant,
    mut fails: impl FnMut(&[T]) -> bool,
) -> Vec<T> {
    let mut kept = list.to_vec();
    let mut part = kept.len().div_ceil(2);
    while part > 0 {
        let dropped_any = drop_parts(&mut kept, part, until, &mut fails);
        if Instant::now() >= until {
            break;
        }
        if !dropped_any || part > kept.len() {
            part = (part / 2).min(kept.len());
        }
    }
    kept
}

/// One pass over the list; whether something was dropped.
fn drop_parts<T: Clone>(
    kept: &mut Vec<T>,
    part: usize,
    until: Instant,
    fails: &mut impl FnMut(&[T]) -> bool,
) -> bool {
    let before = kept.len();
    let mut place = 0;
    while place < kept.len() && Instant::now() < until {
        let end = kept.len().min(place + part);
        let mut rest = kept[..place].to_vec();
        rest.extend_from_slice(&kept[end..]);
        if fails(&rest) {
            *kept = rest;
        } else {
            place = end;
        }
    }
    kept.len() < before
}

/// The same disagreement, or another, with as few turns, writes and set fields as can be found.
fn shrunk(failure: &Failure, alter: Alter) -> Failure {
    let until = Instant::now() + TIME;
    let mut small = failure.clone();
    drop_turns(&mut small, until, alter);
    drop_writes(&mut small, until, alter);
    clear_start(&mut small, until, alter);
    // Such as had to undo what stood in the start.
    drop_turns(&mut small, until, alter);
    set_up(&mut small, alter);
    if let Some((place, why)) = replayed(&small.start, &small.turns, alter) {
        small.turns.truncate(place + 1);
        small.why = why;
    }
    small
}

fn drop_turns(small: &mut Failure, until: Instant, alter: Alter) {
    small.turns = shortest(&small.turns, until, |turns| {
        replayed(&small.start, turns, alter).is_some()
    });
}

fn drop_writes(small: &mut Failure, until: Instant, alter: Alter) {
    for place in 0..small.turns.len() {
        let mut turns = small.turns.clone();
        let start = &small.start;
        let writes = shortest(&small.turns[place].writes, until, |writes: &[Write]| {
            turns[place].writes = writes.to_vec();
            replayed(start, &turns, alter).is_some()
        });
        small.turns[place].writes = writes;
    }
}

fn clear_start(small: &mut Failure, until: Instant, alter: Alter) {
    for field in fields::all() {
        let mut start = small.start.clone();
        field.set(&mut start.controller, 0);
        if Instant::now() < until && replayed(&start, &small.turns, alter).is_some() {
            small.start = start;
        }
    }
}

/// Where the first calls only reset, initialise and set, what they leave is the start.
fn set_up(small: &mut Failure, alter: Alter) {
    let mut bench = Bench::new(&small.start, alter);
    let mut calls = 0;
    while calls + 1 < small.turns.len() && sets_up(&small.turns[calls].call) {
        if bench.take(&small.turns[calls]).is_err() {
            return;
        }
        calls += 1;
    }
    let mut start = small.start.clone();
    start.controller = *bench.flat();
    if replayed(&start, &small.turns[calls..], alter).is_some() {
        small.start = start;
        small.turns.drain(..calls);
    }
}

fn sets_up(call: &Call) -> bool {
    matches!(
        call,
        Call::Reset { .. }
            | Call::SetInputs { .. }
            | Call::SetRegion { .. }
            | Call::SetDefaultRights { .. }
            | Call::SetInfoPage { .. }
            | Call::SetBankErase { .. }
            | Call::Initialise { .. }
    )
}

/// The shrunk run as text; if a call in it never ends, what is known without it.
pub fn told(failure: Box<Failure>, alter: Alter) -> String {
    let plain = headline(&failure);
    let (sender, receiver) = channel();
    std::thread::spawn(move || sender.send(shown(&shrunk(&failure, alter), alter)));
    receiver.recv_timeout(TIME_LIMIT).unwrap_or(plain)
}

fn headline(failure: &Failure) -> String {
    format!(
        "the model and the second program disagree: {}\nseed {:#x}, episode {}, call {} of its worker",
        failure.why, failure.seed, failure.episode, failure.calls
    )
}

/// The seed and the run, a call in each line with what it answers.
fn shown(failure: &Failure, alter: Alter) -> String {
    let mut text = headline(failure) + "; a run that shows it:\n";
    show_start(&mut text, &failure.start);
    let mut bench = Bench::new(&failure.start, alter);
    for turn in &failure.turns {
        for write in &turn.writes {
            let field = &fields::all()[write.field];
            writeln!(text, "  write {} = {:#x}", field.name, write.value).unwrap();
        }
        if let Some(filled) = &turn.filled {
            writeln!(text, "  fill {filled:x?}").unwrap();
        }
        let answered = match bench.take(turn) {
            Ok(taken) => taken.outcome.shown(),
            Err(why) => format!("DISAGREE: {why}"),
        };
        writeln!(text, "  {:?} -> {answered}", turn.call).unwrap();
    }
    text
}

fn show_start(text: &mut String, start: &Start) {
    write!(
        text,
        "  from image seed {:#x}, room for D = {}, ",
        start.image_seed, start.max_data_pages
    )
    .unwrap();
    text.push_str("the fields that are not 0:");
    for field in fields::all() {
        let value = field.get(&start.controller);
        if value != 0 {
            write!(text, " {} = {value:#x},", field.name).unwrap();
        }
    }
    text.push('\n');
}

// -- the shrinker and the comparison themselves ----------------------------

/// A second program that takes every fourth word for one too many.
fn refuses_some_pushes(call: &Call, outcome: &mut Outcome) {
    if matches!(call, Call::Push { word } if word % 4 == 0) && outcome.answer == 0 {
        outcome.answer = 12;
    }
}

/// A second program that counts the bits of an erase wrongly.
fn invents_bits(call: &Call, outcome: &mut Outcome) {
    if matches!(call, Call::Run { operation, .. } if operation.kind == 2) && outcome.bits > 0 {
        outcome.bits += 1;
    }
}

/// A second program that does not answer every host read.
fn panics_at_host_reads(call: &Call, outcome: &mut Outcome) {
    let far = matches!(call, Call::HostRead { address, .. } if *address > 0x1000);
    assert!(!far || outcome.answer != 9, "no answer to a denied read");
}

/// A second program that forgets the host that waits for its turn.
fn forgets_the_host(_: &Call, outcome: &mut Outcome) {
    if outcome.round.host_turn == flat::TURN_WAITING {
        outcome.round.host_turn = flat::TURN_UNASKED;
    }
}

/// A second program that names the default rights instead of region 5.
fn never_names_region_5(_: &Call, outcome: &mut Outcome) {
    if outcome.decider == Some(5) {
        outcome.decider = Some(flat::BY_DEFAULT);
    }
}

/// A second program that never tells that an operation is cut.
fn never_cut(_: &Call, outcome: &mut Outcome) {
    outcome.cut = 0;
}

/// A second program that hands out no byte of a scan.
fn hands_out_no_byte(_: &Call, outcome: &mut Outcome) {
    outcome.taken.bytes = flat::ScanBytes::default();
}

/// What a run against an altered second program is shrunk to.
fn found(alter: Alter) -> (Failure, String) {
    let failure = run(1, 200_000, alter).err().expect("the run finds it");
    let small = shrunk(&failure, alter);
    for run in [failure.as_ref(), &small] {
        let unasked = replayed(&run.start, &run.turns, unaltered);
        assert_eq!(unasked, None, "they disagree where nothing is altered");
    }
    let (place, _) = replayed(&small.start, &small.turns, alter).expect("it still fails");
    assert_eq!(place + 1, small.turns.len());
    let text = shown(&small, alter);
    assert!(text.contains("seed 0x1, episode"), "{text}");
    (small, text)
}

#[test]
fn a_wrong_answer_is_found_and_shrunk() {
    let (small, text) = found(refuses_some_pushes);
    assert!(small.turns.len() <= 4, "{text}");
    assert!(
        text.contains("Start {") || text.contains("write progress."),
        "{text}"
    );
    assert!(text.contains("Push { word: "), "{text}");
    assert!(small.why.contains("the second program answer 12"), "{text}");
}

#[test]
fn a_wrong_value_is_found_and_shrunk() {
    let (small, text) = found(invents_bits);
    assert!(small.turns.len() <= 4, "{text}");
    assert!(small.why.contains("bits "), "{text}");
}

#[test]
fn a_wrong_decider_is_found_and_shrunk() {
    let (small, text) = found(never_names_region_5);
    assert!(small.turns.len() <= 4, "{text}");
    assert!(
        small.why.contains("the model gives answer 9, decider 5"),
        "{text}"
    );
}

/// From a lost count that stands at the start, or after the rounds that raise it.
#[test]
fn a_wrong_turn_is_found_and_shrunk() {
    let (small, text) = found(forgets_the_host);
    assert!(small.turns.len() <= 9, "{text}");
    assert!(text.contains("Round { asked: "), "{text}");
    assert!(small.why.contains("host_turn: 1"), "{text}");
}

#[test]
fn a_wrong_cut_is_found_and_shrunk() {
    let (small, text) = found(never_cut);
    assert!(small.turns.len() <= 5, "{text}");
    assert!(small.why.contains(", cut 0x1"), "{text}");
}

/// The slots are filled by the bench, or written by calls.
#[test]
fn a_wrong_scan_is_found_and_shrunk() {
    let (small, text) = found(hands_out_no_byte);
    assert!(small.turns.len() <= 5, "{text}");
    assert!(text.contains("TakeScan { pages: "), "{text}");
    assert!(
        small.why.contains("ScanTaken { answer: 0, cut: 0"),
        "{text}"
    );
}

#[test]
fn a_panic_is_found_and_shrunk() {
    let (small, text) = found(panics_at_host_reads);
    assert!(small.turns.len() <= 3, "{text}");
    assert!(small.why.contains("no answer to a denied read"), "{text}");
}

#[test]
fn the_shortest_list_is_found() {
    let list: Vec<u32> = (0..1_000).collect();
    let until = Instant::now() + TIME;
    let fails = |kept: &[u32]| kept.contains(&3) && kept.contains(&700);
    assert_eq!(shortest(&list, until, fails), [3, 700]);
}
