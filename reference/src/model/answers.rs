//! 01, "When the desk says no": what a call gives beside its refusal number;
//! 02, L1: what a round tells each side; L2: who decided, exactly if the refusal is 9;
//! L11: what a call with a number of steps tells.

use super::deciders::Decider;
use super::refusals::Refusal;
use super::scans::Scan;

pub const SEED_WORDS: usize = 8;

#[derive(Clone, Copy, Debug, Default, PartialEq, Eq)]
pub struct Initialised {
    pub refusal: u8,
    pub seeds_given: bool,
    pub creator_seed: [u32; SEED_WORDS],
    pub owner_seed: [u32; SEED_WORDS],
}

#[derive(Clone, Copy, Debug, Default, PartialEq, Eq)]
pub struct Started {
    pub refusal: u8,
    pub decider: Option<Decider>,
}

impl From<Refusal> for Started {
    fn from(refusal: Refusal) -> Self {
        Started {
            refusal: refusal.number,
            decider: refusal.decider,
        }
    }
}

#[derive(Clone, Copy, Debug, PartialEq, Eq)]
pub enum Progress {
    Moved,
    Finished,
    Waiting,
}

#[derive(Clone, Copy, Debug, Default, PartialEq, Eq)]
pub struct Stepped {
    pub refusal: u8,
    /// None exactly if the step is refused.
    pub progress: Option<Progress>,
    /// Bits changed in flash.
    pub bits: u32,
}

/// The answer of a pop.
#[derive(Clone, Copy, Debug, Default, PartialEq, Eq)]
pub struct WordGiven {
    pub refusal: u8,
    pub word: u32,
}

/// The answer of a host read.
#[derive(Clone, Copy, Debug, Default, PartialEq, Eq)]
pub struct HostGiven {
    pub refusal: u8,
    pub decider: Option<Decider>,
    pub word: u32,
}

#[derive(Clone, Copy, Debug, Default, PartialEq, Eq)]
pub struct WholeDone {
    pub refusal: u8,
    pub decider: Option<Decider>,
    /// Bits changed in flash.
    pub bits: u32,
}

/// The answer of an operation with a number of steps.
#[derive(Clone, Copy, Debug, Default, PartialEq, Eq)]
pub struct RanFor {
    pub refusal: u8,
    pub decider: Option<Decider>,
    /// Bits changed in flash.
    pub bits: u32,
    /// The steps that were not used.
    pub left: u32,
    /// The operation is still in progress.
    pub cut: bool,
}

#[derive(Clone, Copy, Debug, Default, PartialEq, Eq)]
pub struct ScanWritten {
    pub refusal: u8,
    /// An operation of the write is still in progress.
    pub cut: bool,
}

#[derive(Clone, Debug, Default, PartialEq, Eq)]
pub struct ScanTaken {
    pub refusal: u8,
    /// The mark's program is still in progress.
    pub cut: bool,
    /// None if the take is refused or cut.
    pub scan: Option<Scan>,
}

/// What one side of a round is told.
#[derive(Clone, Copy, Debug, PartialEq, Eq)]
pub enum Turn<T> {
    Unasked,
    Waiting,
    /// The answer that the side's own call gives.
    Served(T),
}

/// A side that asks is served.
impl<T> From<Option<T>> for Turn<T> {
    fn from(answer: Option<T>) -> Self {
        answer.map_or(Turn::Unasked, Turn::Served)
    }
}

#[derive(Clone, Copy, Debug, PartialEq, Eq)]
pub struct Rounded {
    pub host: Turn<HostGiven>,
    pub step: Turn<Stepped>,
}

/// Bus words `start .. start + length` of the lent image; refused: 0 and 0.
#[derive(Clone, Copy, Debug, Default, PartialEq, Eq)]
pub struct View {
    pub refusal: u8,
    pub decider: Option<Decider>,
    pub start: usize,
    pub length: usize,
}
