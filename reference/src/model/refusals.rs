//! 01, "When the desk says no": the refusal numbers, and the record of errors;
//! 02, L2: what a refusal reports; L11: the refusals of scans.

use super::deciders::Decider;
use super::state::Controller;

pub const NONE: u8 = 0;
pub const INVALID: u8 = 1;
pub const DISABLED: u8 = 2;
pub const UNINITIALISED: u8 = 3;
pub const BUSY: u8 = 4;
pub const MALFORMED: u8 = 5;
pub const SHORT_BUFFER: u8 = 6;
pub const OUT_OF_RANGE: u8 = 7;
pub const CROSSES_WINDOW: u8 = 8;
pub const DENIED: u8 = 9;
pub const QUEUE_EMPTY: u8 = 10;
pub const QUEUE_FULL: u8 = 11;
pub const UNEXPECTED: u8 = 12;
pub const BAD_SETTING: u8 = 13;
pub const BAD_PAGES: u8 = 16;
pub const SCANS_FULL: u8 = 17;
pub const BAD_SCAN: u8 = 18;
pub const NO_SCAN: u8 = 19;

/// A refusal number, 0 for none, and who decided, which 9 reports and no other.
#[derive(Clone, Copy, Debug, Default, PartialEq, Eq)]
pub struct Refusal {
    pub number: u8,
    pub decider: Option<Decider>,
}

impl Refusal {
    pub fn denied(decider: Decider) -> Self {
        Refusal {
            number: DENIED,
            decider: Some(decider),
        }
    }
}

/// A number other than 9.
impl From<u8> for Refusal {
    fn from(number: u8) -> Self {
        Refusal {
            number,
            decider: None,
        }
    }
}

pub(super) fn bit(kind: u8) -> u32 {
    1 << kind
}

pub(super) fn record(c: &mut Controller, kind: u8, address: u32) {
    c.recorded |= bit(kind);
    c.last_address = address;
}
