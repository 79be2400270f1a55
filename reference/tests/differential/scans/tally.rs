//! What histories of scans have met.

use crate::table::add_all;

/// The situations that must have been met, beside the answers.
#[derive(Clone, Copy, Debug, PartialEq, Eq)]
pub enum Met {
    UnusedSlot,
    DeadSlot,
    WaitingSlot,
    TakenSlot,
    OddMark,
    LowerErased,
    HigherErased,
    HighestSerialErased,
    UnusedThoughBothWait,
    BadScanThoughFull,
    OldestTied,
    CutInErase,
    CutInWords,
    CutBeforeSeal,
    CutBeforeMark,
}

/// In the same order.
const NAMES: [&str; 15] = [
    "unused slots",
    "dead",
    "waiting",
    "taken",
    "with an odd mark",
    "erases of the lower page",
    "of the higher",
    "of the highest serial",
    "writes while both pages wait",
    "18 while full",
    "ties of the oldest",
    "cuts in an erase",
    "in words 2 to 15",
    "before the seal",
    "before the mark",
];

/// Of each call, the answers that must have been met.
const ANSWERS: [(&str, &[u32]); 2] = [
    ("write", &[0, 1, 2, 3, 4, 16, 17, 18]),
    ("take", &[0, 1, 2, 3, 4, 16, 19]),
];
const MOST_ANSWERS: usize = 20;

#[derive(Clone, Debug, Default)]
pub struct Tally {
    /// The calls for scans, not counting their cuts.
    pub calls: u64,
    answers: [[u64; MOST_ANSWERS]; ANSWERS.len()],
    met: [u64; NAMES.len()],
}

impl Tally {
    pub fn answered(&mut self, write: bool, answer: u32) {
        self.answers[usize::from(!write)][answer as usize] += 1;
    }

    pub fn meet(&mut self, met: Met) {
        self.met[met as usize] += 1;
    }

    pub fn add(&mut self, other: &Tally) {
        self.calls += other.calls;
        add_all(
            self.answers.as_flattened_mut(),
            other.answers.as_flattened(),
        );
        add_all(&mut self.met, &other.met);
    }

    /// All that must have been met, and how often it was.
    fn counts(&self) -> Vec<(String, u64)> {
        let mut counts = Vec::new();
        for ((call, answers), met) in ANSWERS.iter().zip(&self.answers) {
            for answer in *answers {
                counts.push((format!("{call} {answer}"), met[*answer as usize]));
            }
        }
        counts.extend(NAMES.map(str::to_owned).into_iter().zip(self.met));
        counts
    }

    pub fn never_met(&self) -> Vec<String> {
        let counts = self.counts().into_iter();
        let never = counts.filter(|(_, count)| *count == 0);
        never.map(|(name, _)| name).collect()
    }

    /// In one line.
    pub fn shown(&self) -> String {
        let counts = self.counts().into_iter();
        let told = counts.map(|(name, count)| format!("{name}: {count}"));
        told.collect::<Vec<_>>().join(", ")
    }
}

#[test]
fn what_histories_never_met_is_told() {
    let mut tally = Tally::default();
    let all = 8 + 7 + NAMES.len();
    assert_eq!(tally.never_met().len(), all);
    tally.answered(true, 17);
    tally.answered(false, 17);
    tally.meet(Met::CutBeforeMark);
    let missing = tally.never_met();
    assert_eq!(missing.len(), all - 2);
    assert!(!missing.contains(&"write 17".to_owned()));
    assert!(!missing.contains(&"before the mark".to_owned()));
}
