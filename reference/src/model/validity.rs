//! 01, "A state is ours exactly if": the validity of a state.

use super::geometry::{d_in_range, BANKS};
use super::operation::{words_to_move, Operation, BANK_ERASE, PAGE_ERASE, PROGRAM, READ};
use super::operation_checks::operation_refusal;
use super::queue::{Queue, QUEUE_WORDS};
use super::refusals::{bit, CROSSES_WINDOW, DENIED, MALFORMED, NONE, OUT_OF_RANGE};
use super::rights::{readable_words, ALL_RIGHTS};
use super::rounds::MOST_LOST;
use super::state::{Controller, InProgress, Phase, Region};

/// The part of check 1 that needs no image.
pub fn is_valid(c: &Controller) -> bool {
    d_in_range(c.data_pages)
        && settings_pass(c)
        && record_is_valid(c)
        && queues_are_valid(c)
        && in_progress_is_valid(c)
        && lost_is_valid(c)
}

/// Settings that are off must pass 13 as well.
fn settings_pass(c: &Controller) -> bool {
    let regions = c.regions.iter().all(|r| region_passes(c.data_pages, r));
    let info = c.info_settings.iter().all(|s| s.rights <= ALL_RIGHTS);
    regions && info && c.default_rights <= ALL_RIGHTS
}

pub(super) fn region_passes(data_pages: u32, region: &Region) -> bool {
    let end = u64::from(region.first_page) + u64::from(region.page_count);
    region.rights <= ALL_RIGHTS && end <= BANKS * u64::from(data_pages)
}

fn record_is_valid(c: &Controller) -> bool {
    let known = bit(MALFORMED) | bit(OUT_OF_RANGE) | bit(CROSSES_WINDOW) | bit(DENIED);
    c.recorded & !known == 0 && (c.recorded != 0 || c.last_address == 0)
}

fn queues_are_valid(c: &Controller) -> bool {
    [c.read_queue, c.program_queue]
        .iter()
        .all(|q| q.length <= QUEUE_WORDS && (q.length == 0 || c.phase == Phase::Ready))
}

fn in_progress_is_valid(c: &Controller) -> bool {
    match c.in_progress {
        InProgress::Nothing => c.program_queue.length == 0,
        InProgress::Read {
            operation,
            moved,
            readable,
        } => {
            operation.kind == READ
                && under_way(c, &operation, moved)
                && readable_is_valid(c, &operation, readable)
                && c.program_queue.length == 0
        }
        InProgress::Program { operation, moved } => {
            operation.kind == PROGRAM
                && under_way(c, &operation, moved)
                && operation_refusal(c, &operation).number == NONE
                && words_pushed(moved, &c.program_queue) <= u64::from(operation.count)
        }
        InProgress::Erase { operation, moved } => {
            matches!(operation.kind, PAGE_ERASE | BANK_ERASE)
                && under_way(c, &operation, moved)
                && operation_refusal(c, &operation).number == NONE
                && c.program_queue.length == 0
        }
    }
}

/// In progress only when ready, and with words left to move.
fn under_way(c: &Controller, operation: &Operation, moved: u32) -> bool {
    c.phase == Phase::Ready && u64::from(moved) < words_to_move(c.data_pages, operation)
}

/// A read passes 5 and 7, and holds the number of its readable words, denied or not.
fn readable_is_valid(c: &Controller, read: &Operation, readable: u32) -> bool {
    matches!(operation_refusal(c, read).number, NONE | DENIED)
        && readable == readable_words(c, read)
}

/// 02, L1: a count over 5 isn't ours.
fn lost_is_valid(c: &Controller) -> bool {
    c.lost.iter().all(|lost| *lost <= MOST_LOST)
}

/// The words pushed are those moved and those still queued.
pub(super) fn words_pushed(moved: u32, queue: &Queue) -> u64 {
    u64::from(moved) + u64::from(queue.length)
}
