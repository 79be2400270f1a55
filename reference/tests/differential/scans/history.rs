//! A history: writes and takes on two pages, and every cut of each that is accepted.

use super::cuts::{every_cut, Expected};
use super::list::{both_wait, slots};
use super::played::{Broken, Played};
use super::setup::Setup;
use super::tally::{Met, Tally};
use crate::arguments::scan_length;
use crate::bench::{Filled, Start, Turn, Write};
use crate::calls::{scan_bytes, Call};
use crate::layout::PAGE_BYTES;
use crate::rng::Rng;
use reference::interface::{fields, flat};
use reference::model::Slot;

/// Enough for every call.
const ALL_STEPS: u32 = u32::MAX;
/// Of a hundred calls, so many name pages that do not serve.
const BAD_PAGES: u32 = 8;
/// And so many find what 1 refuses, or one of 2 to 4.
const INVALID: u32 = 4;
const HINDERED: u32 = 8;
/// Of a hundred accepted calls, so many are cut before the history goes on.
const CUT: u32 = 12;

pub struct History<'a> {
    rng: Rng,
    setup: Setup,
    played: Played,
    tally: &'a mut Tally,
}

impl<'a> History<'a> {
    pub fn new(rng: Rng, setup: Setup, start: &Start, tally: &'a mut Tally) -> Self {
        History {
            rng,
            setup,
            played: Played::new(start),
            tally,
        }
    }

    pub fn play(&mut self) -> Result<(), Broken> {
        self.played.power_on(&self.setup)?;
        self.fill()?;
        let writes = self.rng.pick(&[20, 50, 90]);
        for _ in 0..self.rng.between(5, 30) {
            self.tally.calls += 1;
            let call = self.call(writes);
            if self.rng.percent(INVALID) {
                self.invalid(call)?;
            } else if self.rng.percent(HINDERED) {
                self.hindered(call)?;
            } else {
                self.made(call)?;
            }
        }
        Ok(())
    }

    /// Both pages get slots, before a call that looks at none.
    fn fill(&mut self) -> Result<(), Broken> {
        let filled = Filled {
            pages: self.setup.pages,
            seed: self.rng.seed(),
        };
        self.played.take(Turn {
            filled: Some(filled),
            ..Call::ClearErrors.into()
        })?;
        for slot in self.slots() {
            self.tally.meet(kind_of(&slot));
        }
        Ok(())
    }

    fn slots(&self) -> Vec<Slot> {
        slots(&self.played.bench, self.setup.pages)
    }

    // -- arguments -----------------------------------------------------------

    /// Of a hundred, so many are writes.
    fn call(&mut self, writes: u32) -> Call {
        let image_words = self.setup.image_words();
        let pages = self.pages();
        let steps = ALL_STEPS;
        if !self.rng.percent(writes) {
            return Call::TakeScan {
                pages,
                image_words,
                steps,
            };
        }
        Call::WriteScan {
            pages,
            length: scan_length(&mut self.rng),
            bytes_seed: self.rng.seed(),
            image_words,
            steps,
        }
    }

    /// In either order.
    fn pages(&mut self) -> [u32; 2] {
        let [page, mut other_page] = self.setup.pages;
        if self.rng.percent(BAD_PAGES) {
            other_page = self.bad_page(page);
        }
        self.rng.pick(&[[page, other_page], [other_page, page]])
    }

    /// The same page, one past the end, or one that lacks a right.
    fn bad_page(&mut self, page: u32) -> u32 {
        let end = 2 * self.setup.data_pages;
        let mut bad = vec![page, end, end + 1, u32::MAX];
        bad.extend(&self.setup.others);
        self.rng.pick(&bad)
    }

    // -- refusals 1 to 4, of which the history takes no notice ---------------

    /// With a broken state, or a wrong image.
    fn invalid(&mut self, call: Call) -> Result<(), Broken> {
        let mut turn = Turn::from(call);
        if self.rng.percent(50) {
            turn.writes = vec![broken_field(&mut self.rng)];
        } else {
            shorten_image(&mut turn.call);
        }
        self.refused(self.played.clone(), turn, 1)
    }

    /// While disabled, uninitialised or busy.
    fn hindered(&mut self, call: Call) -> Result<(), Broken> {
        let (before, answer) = self.hindrance();
        let mut played = self.played.clone();
        for call in before {
            played.take(call)?;
        }
        self.refused(played, call.into(), answer)
    }

    /// What is called before a call for scans that is then refused so.
    fn hindrance(&mut self) -> (Vec<Call>, u32) {
        let image_words = self.setup.image_words();
        let data_pages = self.setup.data_pages;
        let [page, other_page] = self.setup.pages;
        match self.rng.below(4) {
            0 => (vec![Call::Rma { image_words }], 2),
            1 => (vec![Call::Reset { data_pages }], 3),
            2 => (vec![start(flat::PROGRAM, page)], 4),
            _ => {
                let read = start(flat::READ, other_page);
                (vec![read, Call::Step { image_words }], 4)
            }
        }
    }

    fn refused(&mut self, mut played: Played, turn: Turn, expected: u32) -> Result<(), Broken> {
        let write = is_write(&turn.call);
        let answer = played.take(turn)?.answer;
        self.tally.answered(write, answer);
        played.require(answer == expected, || {
            format!("a call for scans answers {answer} and not {expected}")
        })
    }

    // -- calls that are judged by the pages and their slots ------------------

    /// The call, and every cut of it if it is accepted.
    fn made(&mut self, call: Call) -> Result<(), Broken> {
        let slots = self.slots();
        let mut whole = self.played.clone();
        let answer = whole.take(call.clone())?.answer;
        self.tally.answered(is_write(&call), answer);
        if answer != 0 {
            if answer == 18 && both_wait(&slots) && !slots.contains(&Slot::Unused) {
                self.tally.meet(Met::BadScanThoughFull);
            }
            let same = whole.bench.image() == self.played.bench.image();
            return whole.require(same, || "a refusal changes flash".to_owned());
        }
        let expected = match call {
            Call::WriteScan {
                length, bytes_seed, ..
            } => Expected::of_write(&slots, scan_bytes(bytes_seed, length)),
            _ => Expected::of_take(&slots),
        };
        expected.meet(&slots, self.tally);
        every_cut(&self.played, &self.setup, &call, &expected, self.tally)?;
        self.go_on(&call, expected.steps)
    }

    /// The history goes on after the whole call, or after a cut of it and a power-on.
    fn go_on(&mut self, call: &Call, needed: u32) -> Result<(), Broken> {
        if self.rng.percent(CUT) {
            let steps = self.rng.below(needed);
            self.played.take(call.with_steps(steps))?;
            return self.played.power_on(&self.setup);
        }
        let steps = self.rng.pick(&[needed, needed + 1, ALL_STEPS]);
        self.played.take(call.with_steps(steps)).map(|_| ())
    }
}

fn kind_of(slot: &Slot) -> Met {
    match slot {
        Slot::Unused => Met::UnusedSlot,
        Slot::Dead => Met::DeadSlot,
        Slot::Waiting(_) => Met::WaitingSlot,
        Slot::Taken(_) => Met::TakenSlot,
        Slot::OddMark(_) => Met::OddMark,
    }
}

fn is_write(call: &Call) -> bool {
    matches!(call, Call::WriteScan { .. })
}

fn shorten_image(call: &mut Call) {
    if let Call::WriteScan { image_words, .. } | Call::TakeScan { image_words, .. } = call {
        *image_words -= 1;
    }
}

fn start(kind: u32, page: u32) -> Call {
    let operation = flat::Operation {
        address: page * PAGE_BYTES,
        count: 1,
        kind,
        ..flat::Operation::default()
    };
    Call::Start { operation }
}

/// A value that the field cannot have.
fn broken_field(rng: &mut Rng) -> Write {
    let name = rng.pick(&["data_pages", "phase", "default_rights", "lost_turns[1]"]);
    let all = fields::all();
    let field = all.iter().position(|field| field.name == name);
    Write {
        field: field.expect("the controller has it"),
        value: 1_000,
    }
}
