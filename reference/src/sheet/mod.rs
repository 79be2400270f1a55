//! 02, L4: bench sheets, read whole and then run on the second program.

mod entries;
mod judge;
mod run;

pub use entries::Entry;
pub use judge::{expanded, judged};
pub use run::Ran;
use std::fmt::{Display, Formatter, Result};

/// What becomes of a sheet; it shows as what the program prints.
#[derive(Clone, Debug, PartialEq, Eq)]
pub enum Outcome {
    /// The place of the fault.
    Bad(usize),
    /// The operations, in order.
    Good(Vec<Ran>),
}

pub fn run(sheet: &[u8]) -> Outcome {
    match judged(sheet) {
        Ok(block) => Outcome::Good(run::run(&block)),
        Err(place) => Outcome::Bad(place),
    }
}

impl Display for Outcome {
    fn fmt(&self, text: &mut Formatter) -> Result {
        match self {
            Outcome::Bad(place) => writeln!(text, "bad {place}"),
            Outcome::Good(ran) => ran.iter().try_for_each(|ran| writeln!(text, "{ran}")),
        }
    }
}
