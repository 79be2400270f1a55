//! What a run has met, and what it must meet.

use crate::draft::Role;
use crate::sheets::Sheet;
use crate::situations::{Met, SITUATIONS};
use reference::sheet::{judged, Outcome};
use std::collections::BTreeMap;

/// So many sheets meet all.
const SHEETS_THAT_MEET_ALL: u64 = 3_000;
const LEAST_GOOD_PERCENT: u64 = 40;

/// How sheets are made, but for a number that is replaced by one that cannot stand there.
const MADE: [&str; 20] = [
    "good",
    "expansion up to 4,096",
    "expansion over 4,096",
    "expansion that wraps",
    "up to 4,096 bytes",
    "over 4,096 bytes",
    "7 or 8 deep",
    "9 deep",
    "repeats of nothing",
    "cut between numbers",
    "cut inside a number",
    "unfinished number",
    "zero after the block",
    "rights after the block",
    "block after the block",
    "unfinished after the block",
    "byte changed",
    "byte inserted",
    "byte removed",
    "noise",
];

/// The answers of each kind. No bank erase is permitted in a sheet; 4 stands for no kind.
const ANSWERS: [&[u8]; 5] = [
    &[0, 5, 7, 9],
    &[0, 5, 7, 8, 9],
    &[0, 5, 7, 9],
    &[5, 7, 9],
    &[5],
];

#[derive(Default)]
pub struct Tally {
    sheets: u64,
    good: u64,
    met: BTreeMap<String, u64>,
}

impl Tally {
    pub fn count(&mut self, sheet: &Sheet, outcome: &Outcome) {
        self.sheets += 1;
        self.meet(sheet.made.clone());
        let (Outcome::Good(ran), Ok(block)) = (outcome, judged(&sheet.bytes)) else {
            return;
        };
        self.good += 1;
        for ran in ran {
            self.meet(pair(ran.operation.kind.min(4), ran.answer));
        }
        let met = Met {
            sheet: &sheet.bytes,
            block: &block,
            ran,
        };
        for (name, holds) in SITUATIONS {
            if holds(&met) {
                self.meet(name.to_owned());
            }
        }
    }

    fn meet(&mut self, what: String) {
        *self.met.entry(what).or_default() += 1;
    }

    pub fn add(&mut self, other: Tally) {
        self.sheets += other.sheets;
        self.good += other.good;
        for (what, count) in other.met {
            *self.met.entry(what).or_default() += count;
        }
    }

    /// Few sheets need not have met all.
    pub fn assert_enough(&self) {
        let (good, sheets) = (self.good, self.sheets);
        let enough = 100 * good >= LEAST_GOOD_PERCENT * sheets;
        assert!(enough, "only {good} of {sheets} sheets were good");
        let missing: Vec<String> = all().filter(|what| !self.met.contains_key(what)).collect();
        let few = sheets < SHEETS_THAT_MEET_ALL;
        assert!(few || missing.is_empty(), "no sheet met: {missing:?}");
    }

    pub fn shown(&self) -> String {
        let line = |what: String| format!("{:>8}  {what}\n", self.met.get(&what).unwrap_or(&0));
        let lines: String = all().map(line).collect();
        format!(
            "{} sheets, {} of them good\n{lines}",
            self.sheets, self.good
        )
    }
}

fn pair(kind: u8, answer: u8) -> String {
    format!("kind {kind} with answer {answer}")
}

/// All that a run must meet.
fn all() -> impl Iterator<Item = String> {
    let made = MADE.into_iter().map(str::to_owned);
    let pairs = (0..)
        .zip(ANSWERS)
        .flat_map(|(kind, answers)| answers.iter().map(move |answer| pair(kind, *answer)));
    let situations = SITUATIONS.into_iter().map(|(name, _)| name.to_owned());
    made.chain(replaced()).chain(pairs).chain(situations)
}

fn replaced() -> impl Iterator<Item = String> {
    Role::ALL.into_iter().flat_map(|role| {
        let limited = role.limit().map(|_| "over its limit");
        let faults = ["long form", "2^32 or more"].into_iter().chain(limited);
        faults.map(move |fault| format!("{fault}: {role:?}"))
    })
}

#[test]
fn too_few_good_sheets_and_what_none_met_are_told() {
    let told = |sheets, good| {
        let tally = Tally {
            sheets,
            good,
            ..Tally::default()
        };
        crate::panics::caught(|| tally.assert_enough())
            .err()
            .unwrap_or_default()
    };
    assert_eq!(told(3_000, 1_199), "only 1199 of 3000 sheets were good");
    assert!(told(3_000, 1_200).starts_with("no sheet met: [\"good\", "));
    assert_eq!(told(2_999, 1_200), "");
}
