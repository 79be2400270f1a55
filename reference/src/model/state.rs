//! 01, "What may be asked": the phases, the settings and the whole state.

use super::geometry::{BANKS, INFO_PAGES_PER_BANK};
use super::operation::Operation;
use super::queue::Queue;

pub(super) const REGIONS: usize = 8;
const INFO_PAGES: usize = (BANKS * INFO_PAGES_PER_BANK) as usize;

#[derive(Clone, Copy, Debug, Default, PartialEq, Eq)]
pub enum Phase {
    #[default]
    Uninitialised,
    Ready,
    Disabled,
}

#[derive(Clone, Copy, Debug, Default, PartialEq, Eq)]
pub struct Region {
    pub on: bool,
    pub first_page: u32,
    pub page_count: u32,
    pub rights: u8,
}

#[derive(Clone, Copy, Debug, Default, PartialEq, Eq)]
pub struct InfoSetting {
    pub on: bool,
    pub rights: u8,
}

#[derive(Clone, Copy, Debug, Default, PartialEq, Eq)]
pub enum InProgress {
    #[default]
    Nothing,
    /// `readable` of its words are the stored ones; those after them are ones.
    Read {
        operation: Operation,
        moved: u32,
        readable: u32,
    },
    Program {
        operation: Operation,
        moved: u32,
    },
    Erase {
        operation: Operation,
        moved: u32,
    },
}

impl InProgress {
    /// The operation, and how many words it has moved.
    pub(super) fn operation(self) -> Option<(Operation, u32)> {
        match self {
            InProgress::Nothing => None,
            InProgress::Read {
                operation, moved, ..
            }
            | InProgress::Program { operation, moved }
            | InProgress::Erase { operation, moved } => Some((operation, moved)),
        }
    }
}

/// The default has every field off or 0, so its D is wrong: reset it first.
#[derive(Clone, Debug, Default, PartialEq, Eq)]
pub struct Controller {
    /// D, the data pages in each bank.
    pub data_pages: u32,
    pub phase: Phase,
    pub provision_enabled: bool,
    pub seeds_locked: bool,
    pub regions: [Region; REGIONS],
    pub default_rights: u8,
    /// Bank 0's pages, then bank 1's: type 0, type 1, type 2.
    pub info_settings: [InfoSetting; INFO_PAGES],
    pub bank_erase_permissions: [bool; BANKS as usize],
    /// Bit k is set if an error of kind k is recorded.
    pub recorded: u32,
    /// Byte address of the last recorded error.
    pub last_address: u32,
    pub read_queue: Queue,
    pub program_queue: Queue,
    pub in_progress: InProgress,
    /// Of each bank, the contests that the controller has lost since it last won one.
    pub lost: [u32; BANKS as usize],
}
