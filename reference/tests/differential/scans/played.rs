//! A bench with the turns that it has taken, so that a failure can be told and shrunk.

use super::list::handed_out;
use super::setup::Setup;
use crate::bench::{unaltered, Bench, Start, Turn};
use crate::calls::{Call, Outcome};
use reference::model::{Scan, NO_SCAN};

/// Why a history ends, after which turns.
pub struct Broken {
    pub turns: Vec<Turn>,
    pub why: String,
}

#[derive(Clone)]
pub struct Played {
    pub bench: Bench,
    turns: Vec<Turn>,
}

impl Played {
    pub fn new(start: &Start) -> Self {
        Played {
            bench: Bench::new(start, unaltered),
            turns: Vec::new(),
        }
    }

    /// Both programs agree, or the history ends.
    pub fn take(&mut self, turn: impl Into<Turn>) -> Result<Outcome, Broken> {
        self.turns.push(turn.into());
        let taken = self.bench.take(&self.turns[self.turns.len() - 1]);
        taken
            .map(|taken| taken.outcome)
            .map_err(|why| self.broken(why))
    }

    pub fn require(&self, holds: bool, why: impl FnOnce() -> String) -> Result<(), Broken> {
        if holds {
            Ok(())
        } else {
            Err(self.broken(why()))
        }
    }

    fn broken(&self, why: String) -> Broken {
        Broken {
            turns: self.turns.clone(),
            why,
        }
    }

    /// Reset, the same settings, and initialise.
    pub fn power_on(&mut self, setup: &Setup) -> Result<(), Broken> {
        for call in &setup.calls {
            let answer = self.take(call.clone())?.answer;
            self.require(answer == 0, || format!("a power-on answers {answer}"))?;
        }
        Ok(())
    }

    /// Takes until none waits.
    pub fn take_all(&mut self, setup: &Setup) -> Result<Vec<Scan>, Broken> {
        let mut list = Vec::new();
        loop {
            let told = self.take(Call::TakeScan {
                pages: setup.pages,
                image_words: setup.image_words(),
                steps: 1,
            })?;
            if told.answer == u32::from(NO_SCAN) {
                return Ok(list);
            }
            self.require(told.answer == 0, || {
                format!("a take answers {}", told.answer)
            })?;
            list.push(handed_out(&told.taken));
        }
    }
}
