//! 01, "When the desk says no", rows 5, 7, 8 and 9: an operation by itself.

use super::geometry::{
    address_end, bank_of, is_aligned, is_info_type, page_in_bank, INFO_PAGES_OF_TYPE, WORD_BYTES,
};
use super::operation::{
    touched_addresses, uses_count, uses_type, Operation, BANK_ERASE, DATA, INFORMATION, MAX_COUNT,
    PROGRAM,
};
use super::refusals::{Refusal, CROSSES_WINDOW, MALFORMED, NONE, OUT_OF_RANGE};
use super::rights::denied_by;
use super::state::Controller;

const PROGRAM_WINDOW_BYTES: u64 = 64;

/// The first refusal of 5, 7, 8 and 9 that applies.
pub(super) fn operation_refusal(c: &Controller, operation: &Operation) -> Refusal {
    if !well_formed(operation) {
        MALFORMED.into()
    } else if !inside(c.data_pages, operation) {
        OUT_OF_RANGE.into()
    } else if operation.kind == PROGRAM && !in_one_window(operation) {
        CROSSES_WINDOW.into()
    } else if let Some(decider) = denied_by(c, operation) {
        Refusal::denied(decider)
    } else {
        NONE.into()
    }
}

/// Check 5.
pub(super) fn well_formed(operation: &Operation) -> bool {
    operation.kind <= BANK_ERASE
        && operation.partition <= INFORMATION
        && (is_info_type(operation.info_type) || !uses_type(operation))
        && is_aligned(operation.address)
        && ((1..=MAX_COUNT).contains(&operation.count) || !uses_count(operation))
}

/// Check 7, of a well-formed operation.
fn inside(data_pages: u32, operation: &Operation) -> bool {
    let home = bank_of(data_pages, u64::from(operation.address));
    u64::from(operation.address) < address_end(data_pages)
        && touched_addresses(operation).all(|address| match operation.partition {
            DATA => address < address_end(data_pages),
            _ => {
                let pages = INFO_PAGES_OF_TYPE[usize::from(operation.info_type)];
                bank_of(data_pages, address) == home && page_in_bank(data_pages, address) < pages
            }
        })
}

/// Check 8: the first and the last byte are in the same 64-byte window.
fn in_one_window(operation: &Operation) -> bool {
    let first = u64::from(operation.address);
    let last = first + WORD_BYTES * u64::from(operation.count) - 1;
    first / PROGRAM_WINDOW_BYTES == last / PROGRAM_WINDOW_BYTES
}
