//! Every cut of a call for scans that is accepted, and what it must leave.

use super::list::{both_wait, handed_out, highest, new_serial, waiting, waits};
use super::played::{Broken, Played};
use super::setup::Setup;
use super::tally::{Met, Tally};
use crate::calls::{Call, Outcome};
use crate::layout::{PAGE_BYTES, PAGE_WORDS};
use reference::interface::flat;
use reference::model::{Scan, Slot};

/// The steps of words 2 to 15, of a whole write without an erase, and of a take.
const WORDS: u32 = 14;
const WRITE: u32 = WORDS + 1;
const TAKE: u32 = 1;
const SLOT_BYTES: u32 = 64;

/// What a call that is accepted needs and does.
#[derive(Debug)]
pub struct Expected {
    pub steps: u32,
    before: Vec<Scan>,
    after: Vec<Scan>,
}

impl Expected {
    /// The new scan is the last in the list, its serial settled before any erase.
    pub fn of_write(slots: &[Slot], bytes: Vec<u8>) -> Self {
        let unused = slots.contains(&Slot::Unused);
        let before = waiting(slots);
        let mut after = before.clone();
        after.push(Scan {
            serial: new_serial(slots),
            bytes,
        });
        Expected {
            steps: if unused { WRITE } else { PAGE_WORDS + WRITE },
            before,
            after,
        }
    }

    /// The first of the list goes.
    pub fn of_take(slots: &[Slot]) -> Self {
        let before = waiting(slots);
        Expected {
            steps: TAKE,
            after: before[1..].to_vec(),
            before,
        }
    }

    /// What the call meets in the slots.
    pub fn meet(&self, slots: &[Slot], tally: &mut Tally) {
        match self.steps {
            TAKE => {
                let next = self.before.get(1);
                if next.is_some_and(|next| next.serial == self.before[0].serial) {
                    tally.meet(Met::OldestTied);
                }
            }
            WRITE => {
                if both_wait(slots) {
                    tally.meet(Met::UnusedThoughBothWait);
                }
            }
            _ => {
                let (lower, higher) = slots.split_at(slots.len() / 2);
                let keeps_lower = lower.iter().any(waits);
                let (kept, erased) = if keeps_lower {
                    (lower, higher)
                } else {
                    (higher, lower)
                };
                if highest(erased) > highest(kept) {
                    tally.meet(Met::HighestSerialErased);
                }
            }
        }
    }

    /// All steps give the scan that was the first.
    fn check_told(&self, steps: u32, told: &Outcome) -> bool {
        let cut = steps < self.steps;
        let handed_out = self.steps > TAKE || cut || handed_out(&told.taken) == self.before[0];
        told.answer == 0 && told.cut == cut.into() && handed_out
    }

    /// All steps leave the list after the call, fewer that or the list before it.
    fn check_found(&self, steps: u32, found: &[Scan]) -> bool {
        found == self.after || steps < self.steps && found == self.before
    }
}

/// Both programs make the call with every number of steps up to all it needs, and
/// find the same list when the power is back.
pub fn every_cut(
    played: &Played,
    setup: &Setup,
    call: &Call,
    expected: &Expected,
    tally: &mut Tally,
) -> Result<(), Broken> {
    for steps in 0..=expected.steps {
        let mut cut = played.clone();
        let told = cut.take(call.with_steps(steps))?;
        cut.require(expected.check_told(steps, &told), || {
            format!("{} after {steps} steps; {expected:?}", told.shown())
        })?;
        if told.cut == 1 {
            tally.meet(place_of_cut(&cut.bench.flat().progress, setup.pages));
        }
        cut.power_on(setup)?;
        let found = cut.take_all(setup)?;
        cut.require(expected.check_found(steps, &found), || {
            format!("found after {steps} steps: {found:?}; {expected:?}")
        })?;
    }
    Ok(())
}

/// Which operation of a call is in progress, and where.
fn place_of_cut(progress: &flat::Progress, pages: [u32; 2]) -> Met {
    let operation = &progress.operation;
    let lower = pages
        .iter()
        .all(|page| operation.address / PAGE_BYTES <= *page);
    match (operation.kind, operation.count) {
        (flat::PAGE_ERASE, _) if progress.moved > 0 => Met::CutInErase,
        (flat::PAGE_ERASE, _) if lower => Met::LowerErased,
        (flat::PAGE_ERASE, _) => Met::HigherErased,
        (_, WORDS) => Met::CutInWords,
        _ if operation.address.is_multiple_of(SLOT_BYTES) => Met::CutBeforeSeal,
        _ => Met::CutBeforeMark,
    }
}

/// One of two scans is taken, and a third written.
#[test]
fn a_wrong_cut_is_told() {
    let scan = |serial| Scan {
        serial,
        bytes: vec![7],
    };
    let slots = [
        Slot::Waiting(scan(5)),
        Slot::Waiting(scan(4)),
        Slot::Dead,
        Slot::Unused,
    ];
    let take = Expected::of_take(&slots);
    let write = Expected::of_write(&slots, vec![7]);
    let [before, taken, written] = [vec![4, 5], vec![5], vec![4, 5, 6]]
        .map(|serials| serials.into_iter().map(scan).collect::<Vec<_>>());
    assert!(take.check_found(0, &before) && take.check_found(0, &taken));
    assert!(take.check_found(1, &taken) && !take.check_found(1, &before));
    assert!(write.check_found(14, &before) && write.check_found(14, &written));
    assert!(write.check_found(15, &written) && !write.check_found(15, &before));
    assert!(!write.check_found(3, &taken) && !take.check_found(0, &written));
    let told = |answer, cut, serial| {
        let mut told = Outcome {
            cut,
            ..Outcome::answer(answer)
        };
        told.taken.serial = serial;
        told.taken.length = 1;
        told.taken.bytes.0[0] = 7;
        told
    };
    assert!(take.check_told(1, &told(0, 0, 4)) && !take.check_told(1, &told(0, 0, 5)));
    assert!(take.check_told(0, &told(0, 1, 0)) && !take.check_told(0, &told(0, 0, 4)));
    assert!(write.check_told(15, &told(0, 0, 0)) && !write.check_told(15, &told(0, 1, 0)));
    assert!(write.check_told(14, &told(0, 1, 0)) && !write.check_told(14, &told(17, 1, 0)));
}
