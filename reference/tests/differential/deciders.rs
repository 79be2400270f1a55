//! Whom each call may name, by 02, L2, and how often each was named.

use crate::calls::{Call, Outcome};
use crate::table::{add_all, cell};
use reference::interface::flat;
use std::fmt::Write;
use std::ops::RangeInclusive;

const DENIED: u32 = 9;
const DECIDERS: usize = 12;

/// Regions and default rights decide about data pages.
const OF_DATA: RangeInclusive<u32> = 0..=flat::BY_DEFAULT;
/// Settings and the seed lock decide about information pages.
const OF_INFO: RangeInclusive<u32> = flat::BY_PAGE_SETTING..=flat::BY_SEED_LOCK;
const OF_ALL_PAGES: RangeInclusive<u32> = *OF_DATA.start()..=*OF_INFO.end();
const OF_BANKS: RangeInclusive<u32> = flat::BY_BANK_PERMISSION..=flat::BY_BANK_PERMISSION;

/// A call, an operation by its kind, and whom it must have named.
type Row = (&'static str, RangeInclusive<u32>);

const ROWS: [Row; 11] = [
    ("start: read", OF_ALL_PAGES),
    ("start: program", OF_ALL_PAGES),
    ("start: page erase", OF_ALL_PAGES),
    ("start: bank erase", OF_BANKS),
    ("whole: read", OF_ALL_PAGES),
    ("whole: program", OF_ALL_PAGES),
    ("whole: page erase", OF_ALL_PAGES),
    ("whole: bank erase", OF_BANKS),
    ("host read", OF_DATA),
    ("view", OF_DATA),
    ("round, host", OF_DATA),
];

/// So many pairs of a row and a decider must have been met.
pub const PAIRS: usize = 2 * (3 * 11 + 1) + 3 * 9;

/// The row of a call that can be denied.
fn row(call: &Call) -> Option<usize> {
    match call {
        Call::Start { operation } => Some(operation.kind as usize),
        Call::Run { operation, .. } => Some(4 + operation.kind as usize),
        Call::HostRead { .. } => Some(8),
        Call::View { .. } => Some(9),
        Call::Round { .. } => Some(10),
        _ => None,
    }
}

/// Whom the call may name.
fn may_name(call: &Call) -> RangeInclusive<u32> {
    match call.operation() {
        Some(operation) if operation.kind == flat::BANK_ERASE => OF_BANKS,
        Some(operation) if operation.partition == flat::INFORMATION => OF_INFO,
        _ => OF_DATA,
    }
}

/// The answer and the decider of a call that reports one; a host that is not served is answered 0.
fn told(call: &Call, outcome: &Outcome) -> Option<(u32, u32)> {
    match call {
        Call::Round { .. } => Some((outcome.round.host_answer, outcome.round.host_decider)),
        _ => outcome.decider.map(|decider| (outcome.answer, decider)),
    }
}

/// What is wrong with whom an answer names: 9 names one that decides there, and no other names anybody.
pub fn broken_rule(call: &Call, outcome: &Outcome) -> Option<String> {
    let (answer, decider) = told(call, outcome)?;
    let right = match answer {
        DENIED => may_name(call).contains(&decider),
        _ => decider == flat::NO_DECIDER,
    };
    (!right).then(|| format!("answer {answer} may not name {decider}"))
}

/// How often each call named each decider.
#[derive(Clone, Default)]
pub struct Named([[u64; DECIDERS]; ROWS.len()]);

impl Named {
    pub fn count(&mut self, call: &Call, outcome: &Outcome) {
        if let Some((DENIED, decider)) = told(call, outcome) {
            // A call for a number of steps is denied as the whole operation is, and does not stand for it here.
            if !matches!(call, Call::RunFor { .. }) {
                let row = row(call).expect("it can be denied");
                self.0[row][decider as usize] += 1;
            }
        }
    }

    pub fn add(&mut self, other: &Named) {
        add_all(self.0.as_flattened_mut(), other.0.as_flattened());
    }

    pub fn never_met(&self) -> Vec<String> {
        let mut missing = Vec::new();
        for ((name, deciders), counts) in ROWS.iter().zip(&self.0) {
            for decider in deciders.clone() {
                if counts[decider as usize] == 0 {
                    missing.push(format!("{name} denied by {decider}"));
                }
            }
        }
        missing
    }

    /// Rows are calls and columns deciders; a dot is one that the call cannot name.
    pub fn shown(&self) -> String {
        let mut text = format!("{:<17}", "denied by");
        (0..DECIDERS).for_each(|decider| write!(text, "{decider:>8}").unwrap());
        text.push('\n');
        for ((name, deciders), counts) in ROWS.iter().zip(&self.0) {
            write!(text, "{name:<17}").unwrap();
            for (decider, &count) in (0..).zip(counts) {
                text += &cell(deciders.contains(&decider), count);
            }
            text.push('\n');
        }
        text
    }
}

fn start_of(kind: u32, partition: u32) -> Call {
    let operation = flat::Operation {
        kind,
        partition,
        ..flat::Operation::default()
    };
    Call::Start { operation }
}

fn outcome(answer: u8, decider: u32) -> Outcome {
    Outcome {
        decider: Some(decider),
        ..Outcome::answer(answer)
    }
}

#[test]
fn a_wrong_name_is_told() {
    let right =
        |call: &Call, answer, decider| broken_rule(call, &outcome(answer, decider)).is_none();
    let view = Call::View {
        page: 0,
        image_words: 0,
    };
    for decider in (0..12).chain([255]) {
        assert_eq!(right(&start_of(0, 0), 9, decider), decider <= 8);
        assert_eq!(
            right(&start_of(1, 1), 9, decider),
            [9, 10].contains(&decider)
        );
        assert_eq!(right(&start_of(3, 1), 9, decider), decider == 11);
        assert_eq!(right(&view, 9, decider), decider <= 8);
        assert_eq!(right(&view, 0, decider), decider == 255);
        assert_eq!(right(&start_of(0, 0), 7, decider), decider == 255);
    }
    assert!(broken_rule(&Call::Pop, &Outcome::answer(10)).is_none());
}

#[test]
fn who_was_never_named_is_told() {
    let mut named = Named::default();
    assert_eq!(named.never_met().len(), PAIRS);
    named.count(&start_of(2, 0), &outcome(9, 8));
    named.count(&start_of(2, 0), &outcome(0, 255));
    let missing = named.never_met();
    assert_eq!(missing.len(), PAIRS - 1);
    assert!(!missing.contains(&"start: page erase denied by 8".to_owned()));
}
