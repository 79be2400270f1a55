//! 01, "What may be asked": an operation, and the words that it moves.

use super::geometry::{bank_of, bank_words, word_place, PAGE_BYTES, PAGE_WORDS, WORD_BYTES};

pub const READ: u8 = 0;
pub const PROGRAM: u8 = 1;
pub const PAGE_ERASE: u8 = 2;
pub const BANK_ERASE: u8 = 3;

pub const DATA: u8 = 0;
pub const INFORMATION: u8 = 1;

pub const MAX_COUNT: u32 = 1024;

/// Unused fields (the type of a data operation or bank erase, the count of an
/// erase) are kept as given.
#[derive(Clone, Copy, Debug, Default, PartialEq, Eq)]
pub struct Operation {
    pub kind: u8,
    pub partition: u8,
    pub info_type: u8,
    /// A byte address.
    pub address: u32,
    /// Bus words.
    pub count: u32,
}

pub(super) fn uses_type(operation: &Operation) -> bool {
    operation.partition == INFORMATION && operation.kind != BANK_ERASE
}

pub(super) fn uses_count(operation: &Operation) -> bool {
    matches!(operation.kind, READ | PROGRAM)
}

/// How many bus words an operation moves, one for each moving step.
pub fn words_to_move(data_pages: u32, operation: &Operation) -> u64 {
    match (operation.kind, operation.partition) {
        (READ | PROGRAM, _) => u64::from(operation.count),
        (PAGE_ERASE, _) => PAGE_WORDS,
        (_, DATA) => u64::from(data_pages) * PAGE_WORDS,
        _ => bank_words(data_pages),
    }
}

/// The image place of an operation's next word, `moved` words after its first.
pub(super) fn moving_place(data_pages: u32, operation: &Operation, moved: u32) -> usize {
    let d = data_pages;
    let address = u64::from(operation.address);
    let moved = u64::from(moved);
    let place =
        |byte_address| word_place(d, operation.partition, operation.info_type, byte_address);
    match operation.kind {
        READ | PROGRAM => place(address + WORD_BYTES * moved),
        PAGE_ERASE => place(address / PAGE_BYTES * PAGE_BYTES + WORD_BYTES * moved),
        // Data pages come first in a bank and all information pages follow.
        _ => (bank_of(d, address) * bank_words(d) + moved) as usize,
    }
}

/// The byte addresses by which an operation is judged, one in each page that it
/// touches: of a read or program the first of its words there, the one address
/// of a page erase, none for a bank erase.
pub(super) fn touched_addresses(operation: &Operation) -> impl Iterator<Item = u64> {
    let first = u64::from(operation.address);
    let first_page = first / PAGE_BYTES;
    let end_page = match operation.kind {
        READ | PROGRAM => (first + WORD_BYTES * u64::from(operation.count)).div_ceil(PAGE_BYTES),
        PAGE_ERASE => first_page + 1,
        _ => first_page,
    };
    (first_page..end_page).map(move |page| first.max(page * PAGE_BYTES))
}
