//! Which call may answer what, by documents 01 and 02, and how often each pair was met.

use crate::calls::{AskedInRound, Call, Outcome};
use crate::deciders::{Named, PAIRS};
use crate::layout::{DATA_PAGES, MOST_DATA_PAGES};
use crate::situations::{Met, SITUATIONS};
use reference::interface::flat;
use std::fmt::Write;

const ANSWERS: usize = 20;
const CALLS: usize = 21;
/// So many calls meet every situation and every decider.
const CALLS_THAT_MEET_ALL: u64 = 1_000_000;

/// A call, or one side of a round, and the answers its rule allows.
struct Row {
    name: &'static str,
    answers: &'static [u32],
    rule: &'static str,
}

/// In the order of 01's "What may be asked"; then the rounds and the scans of 02.
const ROWS: [Row; CALLS] = [
    Row {
        name: "reset",
        answers: &[0, 1],
        rule: "Reset takes any state and checks only its D, for 1",
    },
    Row {
        name: "inputs",
        answers: &[0, 1, 4],
        rule: "Settings and inputs check 1, 4, 13; no input is a setting of 13",
    },
    Row {
        name: "region",
        answers: &[0, 1, 4, 13],
        rule: "Settings and inputs check 1, 4, 13",
    },
    Row {
        name: "default rights",
        answers: &[0, 1, 4, 13],
        rule: "Settings and inputs check 1, 4, 13",
    },
    Row {
        name: "info page",
        answers: &[0, 1, 4, 13],
        rule: "Settings and inputs check 1, 4, 13",
    },
    Row {
        name: "bank erase",
        answers: &[0, 1, 4, 13],
        rule: "Settings and inputs check 1, 4, 13",
    },
    Row {
        name: "initialise",
        answers: &[0, 1, 2, 12],
        rule: "Initialise: 1, 2, 12",
    },
    Row {
        name: "start",
        answers: &[0, 1, 2, 3, 4, 5, 7, 8, 9],
        rule: "the table's order for operations; 6 is of a whole one",
    },
    Row {
        name: "step",
        answers: &[0, 1, 2, 3, 12],
        rule: "Step: 1, 2, 3, 12",
    },
    Row {
        name: "push",
        answers: &[0, 1, 2, 3, 11, 12],
        rule: "Push: 1, 2, 3, 12, 11",
    },
    Row {
        name: "pop",
        answers: &[0, 1, 10],
        rule: "Pop: 1, 10",
    },
    Row {
        name: "whole operation",
        answers: &[0, 1, 2, 3, 4, 5, 6, 7, 8, 9],
        rule: "the table's order for operations",
    },
    Row {
        name: "host read",
        answers: &[0, 1, 2, 3, 5, 7, 9],
        rule: "Host read: 1, 2, 3, 5, 7, 9",
    },
    Row {
        name: "view",
        answers: &[0, 1, 2, 3, 7, 9],
        rule: "View: 1, 2, 3, 7, 9",
    },
    Row {
        name: "clear",
        answers: &[0, 1],
        rule: "Clearing checks 1 only",
    },
    Row {
        name: "RMA",
        answers: &[0, 1, 2, 4],
        rule: "RMA: 1, 2, 4",
    },
    Row {
        name: "round, step",
        answers: &[0, 1, 2, 3, 12],
        rule: "a step that is served answers as a step",
    },
    Row {
        name: "round, host",
        answers: &[0, 1, 2, 3, 5, 7, 9],
        rule: "a host read that is served answers as a host read",
    },
    Row {
        name: "run for steps",
        answers: &[0, 1, 2, 3, 4, 5, 6, 7, 8, 9],
        rule: "checks as for a whole operation",
    },
    Row {
        name: "write scan",
        answers: &[0, 1, 2, 3, 4, 16, 17, 18],
        rule: "Refusals 1 to 4 precede 16, and 16 the rest; 18 is checked before 17",
    },
    Row {
        name: "take scan",
        answers: &[0, 1, 2, 3, 4, 16, 19],
        rule: "Refusals 1 to 4 precede 16; if none waits, 19",
    },
];
const HOST_OF_ROUND: usize = 17;

/// A program has at most 16 words (check 8), so all are pushed (12) before the queue can be found full.
const CANNOT_BE_MET: (&str, u32) = ("push", 11);

fn row(call: &Call) -> usize {
    match call {
        Call::Reset { .. } => 0,
        Call::SetInputs { .. } => 1,
        Call::SetRegion { .. } => 2,
        Call::SetDefaultRights { .. } => 3,
        Call::SetInfoPage { .. } => 4,
        Call::SetBankErase { .. } => 5,
        Call::Initialise { .. } => 6,
        Call::Start { .. } => 7,
        Call::Step { .. } => 8,
        Call::Push { .. } => 9,
        Call::Pop => 10,
        Call::Run { .. } => 11,
        Call::HostRead { .. } => 12,
        Call::View { .. } => 13,
        Call::ClearErrors => 14,
        Call::Rma { .. } => 15,
        Call::Round { .. } => 16,
        Call::RunFor { .. } => 18,
        Call::WriteScan { .. } => 19,
        Call::TakeScan { .. } => 20,
    }
}

/// The rows that a call meets, with their answers; a side of a round that is not served has none.
fn answered(call: &Call, outcome: &Outcome) -> impl Iterator<Item = (usize, u32)> {
    let told = &outcome.round;
    let unserved = matches!(call, Call::Round { .. }) && told.step_turn != flat::TURN_SERVED;
    let own = (!unserved).then_some((row(call), outcome.answer));
    let host = (told.host_turn == flat::TURN_SERVED).then_some((HOST_OF_ROUND, told.host_answer));
    own.into_iter().chain(host)
}

/// The rule that an answer breaks, if the papers do not allow it.
pub fn broken_rule(call: &Call, outcome: &Outcome) -> Option<String> {
    let mut met = answered(call, outcome);
    met.find_map(|(row, answer)| {
        let row = &ROWS[row];
        (!row.answers.contains(&answer))
            .then(|| format!("{} may not answer {answer}: \"{}\"", row.name, row.rule))
    })
}

/// What a step works on. A denied read moves its readable words, then ones.
#[derive(Clone, Copy, Debug, PartialEq, Eq)]
enum Work {
    Read,
    ReadableWords,
    Ones,
    Program,
    PageErase,
    DataBankErase,
    FullBankErase,
}

/// The movements of each work that 01's "Steps" tells: an erase never waits, and
/// a denied read ends with ones.
const WORKS: [(Work, &str, &[u32]); 7] = [
    (Work::Read, "read", &[1, 2, 3]),
    (Work::ReadableWords, "denied, readable", &[1, 3]),
    (Work::Ones, "denied, ones", &[1, 2, 3]),
    (Work::Program, "program", &[1, 2, 3]),
    (Work::PageErase, "page erase", &[1, 2]),
    (Work::DataBankErase, "bank erase, data", &[1, 2]),
    (Work::FullBankErase, "bank erase, all", &[1, 2]),
];

/// What is in progress, as far as its steps can be told apart.
fn work_of(progress: &flat::Progress) -> Option<Work> {
    if progress.running != 1 {
        return None;
    }
    match (progress.operation.kind, progress.operation.partition) {
        (flat::READ, _) if progress.readable == progress.operation.count => Some(Work::Read),
        (flat::READ, _) if progress.moved < progress.readable => Some(Work::ReadableWords),
        (flat::READ, _) => Some(Work::Ones),
        (flat::PROGRAM, _) => Some(Work::Program),
        (flat::PAGE_ERASE, _) => Some(Work::PageErase),
        (flat::BANK_ERASE, flat::DATA) => Some(Work::DataBankErase),
        (flat::BANK_ERASE, _) => Some(Work::FullBankErase),
        _ => None,
    }
}

/// What was met.
#[derive(Clone)]
pub struct Tally {
    pub calls: u64,
    pairs: [[u64; ANSWERS]; CALLS],
    movements: [[u64; 4]; WORKS.len()],
    named: Named,
    situations: [u64; SITUATIONS.len()],
    data_pages: [u64; MOST_DATA_PAGES as usize + 1],
}

impl Tally {
    pub fn new() -> Self {
        Tally {
            calls: 0,
            pairs: [[0; ANSWERS]; CALLS],
            movements: [[0; 4]; WORKS.len()],
            named: Named::default(),
            situations: [0; SITUATIONS.len()],
            data_pages: [0; MOST_DATA_PAGES as usize + 1],
        }
    }

    pub fn count(&mut self, met: &Met) {
        self.calls += 1;
        for (row, answer) in answered(met.call, met.outcome) {
            self.pairs[row][answer as usize] += 1;
        }
        let its_turn = met.outcome.round.step_turn != flat::TURN_WAITING;
        if let Some(work) = work_of(&met.before.progress).filter(|_| its_turn) {
            self.movements[work as usize][met.outcome.movement as usize] += 1;
        }
        self.named.count(met.call, met.outcome);
        for (count, (_, holds)) in self.situations.iter_mut().zip(SITUATIONS) {
            *count += u64::from(holds(met));
        }
        if DATA_PAGES.contains(&met.before.data_pages) {
            self.data_pages[met.before.data_pages as usize] += 1;
        }
    }

    pub fn add(&mut self, other: &Tally) {
        self.calls += other.calls;
        add_all(self.pairs.as_flattened_mut(), other.pairs.as_flattened());
        add_all(
            self.movements.as_flattened_mut(),
            other.movements.as_flattened(),
        );
        self.named.add(&other.named);
        add_all(&mut self.situations, &other.situations);
        add_all(&mut self.data_pages, &other.data_pages);
    }

    /// All that the rules allow and no call met. Few calls need not have met the rare situations and deciders.
    pub fn never_met(&self) -> Vec<String> {
        let mut missing = self.pairs_never_met();
        missing.extend(self.movements_never_met());
        missing.extend(self.data_pages_never_met());
        if self.calls >= CALLS_THAT_MEET_ALL {
            missing.extend(self.situations_never_met());
            missing.extend(self.named.never_met());
        }
        missing
    }

    fn pairs_never_met(&self) -> Vec<String> {
        let mut missing = Vec::new();
        for (row, counts) in ROWS.iter().zip(&self.pairs) {
            for &answer in row.answers {
                let excepted = (row.name, answer) == CANNOT_BE_MET;
                if counts[answer as usize] == 0 && !excepted {
                    missing.push(format!("{} with answer {answer}", row.name));
                }
            }
        }
        missing
    }

    fn movements_never_met(&self) -> Vec<String> {
        let mut missing = Vec::new();
        for ((_, name, movements), counts) in WORKS.iter().zip(&self.movements) {
            for &movement in *movements {
                if counts[movement as usize] == 0 {
                    missing.push(format!("step of a {name} with movement {movement}"));
                }
            }
        }
        missing
    }

    fn situations_never_met(&self) -> impl Iterator<Item = String> + '_ {
        let never = |(_, count): &(_, &u64)| **count == 0;
        let counted = SITUATIONS.iter().zip(&self.situations).filter(never);
        counted.map(|((name, _), _)| (*name).to_owned())
    }

    fn data_pages_never_met(&self) -> Vec<String> {
        DATA_PAGES
            .filter(|&d| self.data_pages[d as usize] == 0)
            .map(|d| format!("D = {d}"))
            .collect()
    }

    /// Rows are calls and columns answers; a dot is a pair that 01 does not allow.
    pub fn shown(&self) -> String {
        let mut text = format!("{:<16}", "answer");
        (0..ANSWERS).for_each(|answer| write!(text, "{answer:>8}").unwrap());
        text.push('\n');
        for (row, counts) in ROWS.iter().zip(&self.pairs) {
            write!(text, "{:<16}", row.name).unwrap();
            for (answer, &count) in (0..).zip(counts) {
                let allowed = row.answers.contains(&answer);
                text += &cell(allowed, count);
            }
            text.push('\n');
        }
        text + &self.movements_shown() + &self.named.shown() + &self.situations_shown()
    }

    fn movements_shown(&self) -> String {
        let mut text = format!(
            "{:<16}{:>8}{:>9}{:>8}\n",
            "step of", "moved", "finished", "waiting"
        );
        for ((_, name, _), counts) in WORKS.iter().zip(&self.movements) {
            writeln!(
                text,
                "{name:<16}{:>8}{:>9}{:>8}",
                counts[1], counts[2], counts[3]
            )
            .unwrap();
        }
        text
    }

    fn situations_shown(&self) -> String {
        let line = |((name, _), count): (&(&str, _), &u64)| format!("{count:>8}  {name}\n");
        SITUATIONS.iter().zip(&self.situations).map(line).collect()
    }
}

pub fn add_all(mine: &mut [u64], theirs: &[u64]) {
    for (mine, theirs) in mine.iter_mut().zip(theirs) {
        *mine += theirs;
    }
}

pub fn cell(allowed: bool, count: u64) -> String {
    if allowed {
        format!("{count:>8}")
    } else {
        format!("{:>8}", ".")
    }
}

#[test]
fn what_01_does_not_allow_is_told() {
    let told = |call, answer| broken_rule(&call, &Outcome::answer(answer));
    assert!(told(Call::Pop, 10).is_none());
    assert!(told(Call::Pop, 2).is_some_and(|told| told.contains("Pop: 1, 10")));
    assert!(told(Call::ClearErrors, 14).is_some());
    let unexpected = |host_turn| Outcome {
        round: flat::Rounded {
            host_turn,
            host_answer: 12,
            ..flat::Rounded::default()
        },
        ..Outcome::default()
    };
    let asked = AskedInRound {
        host_asks: 1,
        host_address: 0,
        step_asks: 0,
    };
    let round = Call::Round {
        asked,
        image_words: 0,
    };
    assert!(broken_rule(&round, &unexpected(flat::TURN_SERVED)).is_some());
    assert!(broken_rule(&round, &unexpected(flat::TURN_WAITING)).is_none());
}

/// 114 pairs but for the one that cannot be met, 17 movements and 247 D; after many calls the situations and deciders too.
#[test]
fn what_was_never_met_is_told() {
    let mut tally = Tally::new();
    let always = 113 + 17 + 247;
    assert_eq!(tally.never_met().len(), always);
    let before = flat::Controller {
        data_pages: 256,
        ..flat::Controller::default()
    };
    tally.count(&Met {
        before: &before,
        after: &before,
        call: &Call::Pop,
        outcome: &Outcome::answer(10),
        writes: 0,
        stepped: None,
    });
    let mut twice = tally.clone();
    twice.add(&tally);
    assert_eq!(twice.calls, 2);
    assert_eq!(twice.never_met().len(), always - 2);
    twice.calls = CALLS_THAT_MEET_ALL;
    let rare = SITUATIONS.len() + PAIRS;
    assert_eq!(twice.never_met().len(), always - 2 + rare);
}
