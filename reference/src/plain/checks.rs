//! 01, "Who may touch which page" and "When the desk says no": rights and checks;
//! 02, L2: who decided; L3: how many words of a read are the stored ones.

use super::words::{erased, image_words, INFO_PAGES, INFO_TYPES, PAGE_BYTES, WORD_BYTES};
use crate::model::{
    Controller, Decider, InProgress, Operation, Phase, Refusal, Region, ALL_RIGHTS, BANK_ERASE,
    CREATOR_PAGE, CROSSES_WINDOW, DATA, DENIED, DISABLED, INFORMATION, INVALID, MALFORMED,
    MAX_COUNT, MOST_LOST, NONE, OUT_OF_RANGE, OWNER_PAGE, PAGE_ERASE, PROGRAM, QUEUE_WORDS, READ,
    RIGHT_ERASE, RIGHT_PROGRAM, RIGHT_READ, UNINITIALISED,
};
use std::ops::Range;

const WINDOW_BYTES: u32 = 64;
const RECORDED_KINDS: u32 = 1 << MALFORMED | 1 << OUT_OF_RANGE | 1 << CROSSES_WINDOW | 1 << DENIED;

pub(super) fn not_ready(c: &Controller) -> Option<u8> {
    match c.phase {
        Phase::Disabled => Some(DISABLED),
        Phase::Uninitialised => Some(UNINITIALISED),
        Phase::Ready => None,
    }
}

/// Checks 1, 2 and 3 of a call that is lent an image.
pub(super) fn not_ready_with(c: &Controller, image: &[u32]) -> Option<u8> {
    if !valid(c) || image.len() != image_words(c.data_pages) {
        return Some(INVALID);
    }
    not_ready(c)
}

/// Check 1, but for the image.
pub(super) fn valid(c: &Controller) -> bool {
    let pages = 2 * u64::from(c.data_pages);
    let region_ends = |r: &Region| u64::from(r.first_page) + u64::from(r.page_count);
    let queues = [c.read_queue.length, c.program_queue.length];
    let idle = queues == [0, 0] && c.in_progress == InProgress::Nothing;
    (10..=256).contains(&c.data_pages)
        && c.default_rights <= ALL_RIGHTS
        && (c.regions.iter()).all(|r| r.rights <= ALL_RIGHTS && region_ends(r) <= pages)
        && c.info_settings.iter().all(|s| s.rights <= ALL_RIGHTS)
        && c.recorded & !RECORDED_KINDS == 0
        && (c.recorded != 0 || c.last_address == 0)
        && queues.iter().all(|length| *length <= QUEUE_WORDS)
        && (c.phase == Phase::Ready || idle)
        && c.lost.iter().all(|lost| *lost <= MOST_LOST)
        && valid_progress(c)
}

fn valid_progress(c: &Controller) -> bool {
    let queued = c.program_queue.length;
    match &c.in_progress {
        InProgress::Nothing => queued == 0,
        InProgress::Read {
            operation,
            moved,
            readable,
        } => {
            let judged = judge(c, operation);
            operation.kind == READ
                && matches!(judged.refusal.number, NONE | DENIED)
                && *readable == judged.allowed
                && *moved < operation.count
                && queued == 0
        }
        InProgress::Program { operation, moved } => {
            operation.kind == PROGRAM
                && judge(c, operation).refusal.number == NONE
                && *moved < operation.count
                && moved + queued <= operation.count
        }
        InProgress::Erase { operation, moved } => {
            matches!(operation.kind, PAGE_ERASE | BANK_ERASE)
                && judge(c, operation).refusal.number == NONE
                && (*moved as usize) < erased(c.data_pages, operation).len()
                && queued == 0
        }
    }
}

pub(super) fn counts(operation: &Operation) -> bool {
    matches!(operation.kind, READ | PROGRAM)
}

/// What checks 5, 7, 8 and 9 give.
pub(super) struct Judged {
    pub refusal: Refusal,
    /// The words before the first denied one; 0 where no page is looked at.
    pub allowed: u32,
}

/// Judged without a look at its pages.
fn without_pages(refusal: impl Into<Refusal>) -> Judged {
    Judged {
        refusal: refusal.into(),
        allowed: 0,
    }
}

/// Of a D that is right.
pub(super) fn judge(c: &Controller, operation: &Operation) -> Judged {
    if !well_formed(operation) {
        return without_pages(MALFORMED);
    }
    let d = c.data_pages;
    if operation.address >= 2 * d * PAGE_BYTES {
        return without_pages(OUT_OF_RANGE);
    }
    let first = operation.address / PAGE_BYTES;
    if operation.kind == BANK_ERASE {
        return judge_bank_erase(c.bank_erase_permissions[(first / d) as usize]);
    }
    let last_byte = match operation.kind {
        PAGE_ERASE => operation.address,
        _ => operation.address + WORD_BYTES * operation.count - 1,
    };
    let last = last_byte / PAGE_BYTES;
    // D is at least 10, so an information span that fits its type stays in its bank.
    let fits = match operation.partition {
        DATA => last < 2 * d,
        _ => first % d + (last - first) < INFO_TYPES[usize::from(operation.info_type)].1,
    };
    if !fits {
        return without_pages(OUT_OF_RANGE);
    }
    if operation.kind == PROGRAM && operation.address / WINDOW_BYTES != last_byte / WINDOW_BYTES {
        return without_pages(CROSSES_WINDOW);
    }
    judge_pages(c, operation, first..last + 1)
}

fn judge_bank_erase(permitted: bool) -> Judged {
    if permitted {
        without_pages(NONE)
    } else {
        without_pages(Refusal::denied(Decider::BankPermission))
    }
}

/// Check 9 by the pages of an operation.
fn judge_pages(c: &Controller, operation: &Operation, mut pages: Range<u32>) -> Judged {
    let right = match operation.kind {
        READ => RIGHT_READ,
        PROGRAM => RIGHT_PROGRAM,
        _ => RIGHT_ERASE,
    };
    let denied_on = |page| Some((page, lacking(rights(c, operation, page), right)?));
    match pages.find_map(denied_on) {
        Some((page, decider)) => Judged {
            refusal: Refusal::denied(decider),
            allowed: (page * PAGE_BYTES).saturating_sub(operation.address) / WORD_BYTES,
        },
        None => Judged {
            refusal: NONE.into(),
            allowed: operation.count,
        },
    }
}

/// Of a page of the address space.
fn rights(c: &Controller, operation: &Operation, page: u32) -> (u8, Decider) {
    match operation.partition {
        DATA => data_rights(c, page),
        _ => info_rights(c, operation.info_type, page),
    }
}

/// Who decided, if the right is not among the rights.
pub(super) fn lacking((rights, decider): (u8, Decider), right: u8) -> Option<Decider> {
    (rights & right == 0).then_some(decider)
}

fn well_formed(operation: &Operation) -> bool {
    let uses_type = operation.partition == INFORMATION && operation.kind != BANK_ERASE;
    operation.kind <= BANK_ERASE
        && operation.partition <= INFORMATION
        && (operation.info_type <= 2 || !uses_type)
        && operation.address.is_multiple_of(WORD_BYTES)
        && ((1..=MAX_COUNT).contains(&operation.count) || !counts(operation))
}

/// Of a data page, counted over both banks.
pub(super) fn data_rights(c: &Controller, page: u32) -> (u8, Decider) {
    let holds = |r: &Region| r.on && r.first_page <= page && page - r.first_page < r.page_count;
    match c.regions.iter().position(holds) {
        Some(number) => (c.regions[number].rights, Decider::Region(number as u8)),
        None => (c.default_rights, Decider::Default),
    }
}

/// Of an information page, by the data page that has its addresses.
fn info_rights(c: &Controller, info_type: u8, page: u32) -> (u8, Decider) {
    let (bank, page) = (page / c.data_pages, page % c.data_pages);
    let index = bank * INFO_PAGES + INFO_TYPES[usize::from(info_type)].0 + page;
    let setting = c.info_settings[index as usize];
    let seed_page = |number| bank == 0 && info_type == 0 && u64::from(page) == number;
    let closed = seed_page(CREATOR_PAGE) && (!c.provision_enabled || c.seeds_locked)
        || seed_page(OWNER_PAGE) && !c.provision_enabled;
    match (closed, setting.on) {
        (true, _) => (0, Decider::SeedLock),
        (false, true) => (setting.rights, Decider::PageSetting),
        (false, false) => (0, Decider::PageSetting),
    }
}
