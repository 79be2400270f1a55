//! 01, "Steps": an operation in parts; 02, L3: what a denied read delivers.

use super::answers::{Progress, Started, Stepped, WordGiven};
use super::checks::{check_pop, check_push, check_ready, check_start};
use super::geometry::{ONES, WORD_BYTES};
use super::operation::{moving_place, words_to_move, Operation, PROGRAM, READ};
use super::operation_checks::operation_refusal;
use super::queue::QUEUE_WORDS;
use super::refusals::{record, DENIED, NONE, UNEXPECTED};
use super::rights::readable_words;
use super::state::{Controller, InProgress};

/// Checks 1, 2, 3, 4, 5, 7, 8, 9. A denied read gives 9 and starts, cut at its
/// first denied word.
pub fn start(c: &mut Controller, operation: Operation) -> Started {
    if let Err(refusal) = check_start(c) {
        return Started {
            refusal,
            ..Started::default()
        };
    }
    let refusal = operation_refusal(c, &operation);
    let cut_read = refusal.number == DENIED && operation.kind == READ;
    if cut_read {
        record(c, DENIED, first_denied_address(c, &operation));
    } else if refusal.number != NONE {
        record(c, refusal.number, operation.address);
    }
    if refusal.number == NONE || cut_read {
        c.in_progress = begin(c, operation);
    }
    refusal.into()
}

/// The byte address of a cut read's first denied word.
fn first_denied_address(c: &Controller, read: &Operation) -> u32 {
    read.address + WORD_BYTES as u32 * readable_words(c, read)
}

fn begin(c: &Controller, operation: Operation) -> InProgress {
    let moved = 0;
    match operation.kind {
        READ => InProgress::Read {
            operation,
            moved,
            readable: readable_words(c, &operation),
        },
        PROGRAM => InProgress::Program { operation, moved },
        _ => InProgress::Erase { operation, moved },
    }
}

/// Checks 1, 2, 3, 12.
pub fn step(c: &mut Controller, image: &mut [u32]) -> Stepped {
    if let Err(refusal) = check_ready(c, image) {
        return step_refused(refusal);
    }
    if waits(c) {
        return step_waits();
    }
    match c.in_progress {
        InProgress::Nothing => step_refused(UNEXPECTED),
        InProgress::Read {
            operation,
            moved,
            readable,
        } => step_read(c, image, operation, moved, readable),
        InProgress::Program { operation, moved } => step_program(c, image, operation, moved),
        InProgress::Erase { operation, moved } => step_erase(c, image, operation, moved),
    }
}

/// A read waits for room in its queue and a program for a word; an erase never waits.
pub(super) fn waits(c: &Controller) -> bool {
    match c.in_progress {
        InProgress::Read { .. } => c.read_queue.length == QUEUE_WORDS,
        InProgress::Program { .. } => c.program_queue.length == 0,
        InProgress::Nothing | InProgress::Erase { .. } => false,
    }
}

fn step_read(
    c: &mut Controller,
    image: &[u32],
    operation: Operation,
    moved: u32,
    readable: u32,
) -> Stepped {
    let word = delivered_word(c, image, &operation, moved, readable);
    c.read_queue.add(word);
    let next = InProgress::Read {
        operation,
        moved: moved + 1,
        readable,
    };
    step_moved(c, &operation, moved + 1, next, 0)
}

/// Word `number` of a read: the stored one if it is readable, else ones, also on
/// a page that allows reading.
fn delivered_word(
    c: &Controller,
    image: &[u32],
    read: &Operation,
    number: u32,
    readable: u32,
) -> u32 {
    if number < readable {
        image[moving_place(c.data_pages, read, number)]
    } else {
        ONES
    }
}

/// A bit stays one only if both are one.
fn step_program(
    c: &mut Controller,
    image: &mut [u32],
    operation: Operation,
    moved: u32,
) -> Stepped {
    let place = moving_place(c.data_pages, &operation, moved);
    let old = image[place];
    let new = old & c.program_queue.take_oldest();
    image[place] = new;
    let next = InProgress::Program {
        operation,
        moved: moved + 1,
    };
    step_moved(c, &operation, moved + 1, next, bits_changed(old, new))
}

fn step_erase(c: &mut Controller, image: &mut [u32], operation: Operation, moved: u32) -> Stepped {
    let place = moving_place(c.data_pages, &operation, moved);
    let old = image[place];
    image[place] = ONES;
    let next = InProgress::Erase {
        operation,
        moved: moved + 1,
    };
    step_moved(c, &operation, moved + 1, next, bits_changed(old, ONES))
}

fn step_refused(refusal: u8) -> Stepped {
    Stepped {
        refusal,
        progress: None,
        bits: 0,
    }
}

fn step_waits() -> Stepped {
    Stepped {
        refusal: NONE,
        progress: Some(Progress::Waiting),
        bits: 0,
    }
}

/// One word has moved; with the last one nothing is in progress any more.
fn step_moved(
    c: &mut Controller,
    operation: &Operation,
    moved: u32,
    next: InProgress,
    bits: u32,
) -> Stepped {
    let finished = u64::from(moved) == words_to_move(c.data_pages, operation);
    c.in_progress = if finished { InProgress::Nothing } else { next };
    Stepped {
        refusal: NONE,
        progress: Some(if finished {
            Progress::Finished
        } else {
            Progress::Moved
        }),
        bits,
    }
}

fn bits_changed(old: u32, new: u32) -> u32 {
    (old ^ new).count_ones()
}

/// Checks 1, 2, 3, 12, 11.
pub fn push(c: &mut Controller, word: u32) -> u8 {
    if let Err(refusal) = check_push(c) {
        return refusal;
    }
    c.program_queue.add(word);
    NONE
}

/// Checks 1, 10.
pub fn pop(c: &mut Controller) -> WordGiven {
    if let Err(refusal) = check_pop(c) {
        return WordGiven { refusal, word: 0 };
    }
    WordGiven {
        refusal: NONE,
        word: c.read_queue.take_oldest(),
    }
}
