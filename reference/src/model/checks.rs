//! 01, after "When the desk says no": which checks each call makes, in order;
//! 02, L11: those of the calls for scans.

use super::geometry::{address_end, image_words, is_aligned, BANKS, PAGE_BYTES};
use super::operation::{uses_count, Operation};
use super::operation_checks::well_formed;
use super::queue::QUEUE_WORDS;
use super::refusals::{
    Refusal, BAD_PAGES, BAD_SETTING, BUSY, DISABLED, INVALID, MALFORMED, OUT_OF_RANGE, QUEUE_EMPTY,
    QUEUE_FULL, SHORT_BUFFER, UNEXPECTED, UNINITIALISED,
};
use super::rights::{data_rights, RIGHT_READ};
use super::state::{Controller, InProgress, Phase};
use super::validity::{is_valid, words_pushed};

type Check = Result<(), u8>;
/// Of a host read or a view: 9 reports who decided.
type CheckWithDecider = Result<(), Refusal>;

/// The refusal applies if `wrong`.
fn refuse_if(wrong: bool, refusal: u8) -> Check {
    if wrong {
        Err(refusal)
    } else {
        Ok(())
    }
}

pub(super) fn check_valid(c: &Controller) -> Check {
    refuse_if(!is_valid(c), INVALID)
}

/// 1 of a call that is lent an image.
fn check_valid_with(c: &Controller, image: &[u32]) -> Check {
    check_valid(c)?;
    refuse_if(image.len() as u64 != image_words(c.data_pages), INVALID)
}

fn check_not_disabled(c: &Controller) -> Check {
    refuse_if(c.phase == Phase::Disabled, DISABLED)
}

fn check_phase_is_ready(c: &Controller) -> Check {
    check_not_disabled(c)?;
    refuse_if(c.phase == Phase::Uninitialised, UNINITIALISED)
}

fn check_nothing_in_progress(c: &Controller) -> Check {
    refuse_if(c.in_progress != InProgress::Nothing, BUSY)
}

/// 1, 2, 3 of a call that is lent an image.
pub(super) fn check_ready(c: &Controller, image: &[u32]) -> Check {
    check_valid_with(c, image)?;
    check_phase_is_ready(c)
}

/// Settings and inputs: 1, 4, 13.
pub(super) fn check_setting(c: &Controller, passes: bool) -> Check {
    check_valid(c)?;
    check_nothing_in_progress(c)?;
    refuse_if(!passes, BAD_SETTING)
}

pub(super) fn check_initialise(c: &Controller, image: &[u32]) -> Check {
    check_valid_with(c, image)?;
    check_not_disabled(c)?;
    refuse_if(c.phase == Phase::Ready, UNEXPECTED)
}

pub(super) fn check_rma(c: &Controller, image: &[u32]) -> Check {
    check_valid_with(c, image)?;
    check_not_disabled(c)?;
    check_nothing_in_progress(c)
}

/// 1 to 4 of start; what follows is `operation_refusal`.
pub(super) fn check_start(c: &Controller) -> Check {
    check_valid(c)?;
    check_phase_is_ready(c)?;
    check_nothing_in_progress(c)
}

/// 1 to 4 of a whole operation.
fn check_free(c: &Controller, image: &[u32]) -> Check {
    check_ready(c, image)?;
    check_nothing_in_progress(c)?;
    let word_queued = c.read_queue.length > 0 || c.program_queue.length > 0;
    refuse_if(word_queued, BUSY)
}

/// 1 to 4 and 6 of a whole operation; start does the rest. Check 6 waits for
/// 5, so a malformed operation is left to start.
pub(super) fn check_whole(
    c: &Controller,
    operation: &Operation,
    image: &[u32],
    buffer: &[u32],
) -> Check {
    check_free(c, image)?;
    let too_short = uses_count(operation) && (buffer.len() as u64) < u64::from(operation.count);
    refuse_if(well_formed(operation) && too_short, SHORT_BUFFER)
}

pub(super) fn check_push(c: &Controller) -> Check {
    check_valid(c)?;
    check_phase_is_ready(c)?;
    let InProgress::Program { operation, moved } = c.in_progress else {
        return Err(UNEXPECTED);
    };
    let pushed = words_pushed(moved, &c.program_queue);
    refuse_if(pushed == u64::from(operation.count), UNEXPECTED)?;
    refuse_if(c.program_queue.length == QUEUE_WORDS, QUEUE_FULL)
}

pub(super) fn check_pop(c: &Controller) -> Check {
    check_valid(c)?;
    refuse_if(c.read_queue.length == 0, QUEUE_EMPTY)
}

pub(super) fn check_host_read(c: &Controller, image: &[u32], address: u32) -> CheckWithDecider {
    check_ready(c, image)?;
    refuse_if(!is_aligned(address), MALFORMED)?;
    let address = u64::from(address);
    refuse_if(address >= address_end(c.data_pages), OUT_OF_RANGE)?;
    check_readable(c, address / PAGE_BYTES)
}

pub(super) fn check_view(c: &Controller, image: &[u32], page: u32) -> CheckWithDecider {
    check_ready(c, image)?;
    let page = u64::from(page);
    refuse_if(page >= BANKS * u64::from(c.data_pages), OUT_OF_RANGE)?;
    check_readable(c, page)
}

/// 1 to 4 of a whole operation, then 16: both pages must exist, differ and allow
/// all three rights.
pub(super) fn check_scan_pages(c: &Controller, image: &[u32], pages: [u32; 2]) -> Check {
    check_free(c, image)?;
    let [page, other_page] = pages;
    let serve = page != other_page && pages.iter().all(|page| page_serves(c, *page));
    refuse_if(!serve, BAD_PAGES)
}

/// No bank's permission plays a part.
fn page_serves(c: &Controller, page: u32) -> bool {
    let page = u64::from(page);
    page < BANKS * u64::from(c.data_pages) && data_rights(c, page).gives_all()
}

/// 9 of a data page, counted over both banks.
fn check_readable(c: &Controller, page: u64) -> CheckWithDecider {
    match data_rights(c, page).denies(RIGHT_READ) {
        Some(decider) => Err(Refusal::denied(decider)),
        None => Ok(()),
    }
}
