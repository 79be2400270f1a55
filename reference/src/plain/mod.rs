//! The calls that `speed` measures, as plain Rust on the second program's state:
//! every check of documents 01 and 02, made once in a call, and the words of a whole
//! operation moved page by page.
//!
//! It is there to be measured against; what is compared call by call with the
//! proved model is the second program.

mod checks;
mod queue;
mod rounds;
mod words;

use crate::model::{
    Controller, HostGiven, InProgress, Operation, Progress, Queue, Refusal, Started, Stepped,
    WholeDone, WordGiven, BUSY, DENIED, INVALID, MALFORMED, NONE, ONES, OUT_OF_RANGE, PROGRAM,
    QUEUE_EMPTY, QUEUE_FULL, QUEUE_WORDS, READ, RIGHT_READ, SHORT_BUFFER, UNEXPECTED,
};
use checks::{counts, data_rights, judge, lacking, not_ready, not_ready_with, valid, Judged};
use queue::{add, take_oldest};
use words::{erase, erased, place, program, put, read, PAGE_BYTES, WORD_BYTES};

pub use rounds::round;

pub fn start(c: &mut Controller, operation: Operation) -> Started {
    if !valid(c) {
        return Refusal::from(INVALID).into();
    }
    if let Some(refusal) = not_ready(c) {
        return Refusal::from(refusal).into();
    }
    if c.in_progress != InProgress::Nothing {
        return Refusal::from(BUSY).into();
    }
    let judged = judge(c, &operation);
    record(c, &operation, &judged);
    let Judged { refusal, allowed } = judged;
    let moved = 0;
    match (operation.kind, refusal.number) {
        (READ, NONE | DENIED) => {
            c.in_progress = InProgress::Read {
                operation,
                moved,
                readable: allowed,
            }
        }
        (PROGRAM, NONE) => c.in_progress = InProgress::Program { operation, moved },
        (_, NONE) => c.in_progress = InProgress::Erase { operation, moved },
        _ => {}
    }
    refusal.into()
}

pub fn step(c: &mut Controller, image: &mut [u32]) -> Stepped {
    match not_ready_with(c, image) {
        Some(refusal) => step_refused(refusal),
        None => move_word(c, image),
    }
}

fn step_refused(refusal: u8) -> Stepped {
    Stepped {
        refusal,
        ..Stepped::default()
    }
}

/// A step of a controller that is ready.
fn move_word(c: &mut Controller, image: &mut [u32]) -> Stepped {
    let d = c.data_pages;
    let waiting = Stepped {
        progress: Some(Progress::Waiting),
        ..Stepped::default()
    };
    let (finished, bits) = match &mut c.in_progress {
        InProgress::Nothing => return step_refused(UNEXPECTED),
        InProgress::Read {
            operation,
            moved,
            readable,
        } => {
            if c.read_queue.length == QUEUE_WORDS {
                return waiting;
            }
            let word = if *moved < *readable {
                image[place(d, operation, operation.address + WORD_BYTES * *moved)]
            } else {
                ONES
            };
            add(&mut c.read_queue, word);
            *moved += 1;
            (*moved == operation.count, 0)
        }
        InProgress::Program { operation, moved } => {
            if c.program_queue.length == 0 {
                return waiting;
            }
            let word = &mut image[place(d, operation, operation.address + WORD_BYTES * *moved)];
            let bits = put(word, *word & take_oldest(&mut c.program_queue));
            *moved += 1;
            (*moved == operation.count, bits)
        }
        InProgress::Erase { operation, moved } => {
            let erased = erased(d, operation);
            let bits = put(&mut image[erased.start + *moved as usize], ONES);
            *moved += 1;
            (*moved as usize == erased.len(), bits)
        }
    };
    if finished {
        c.in_progress = InProgress::Nothing;
    }
    Stepped {
        refusal: NONE,
        progress: Some(if finished {
            Progress::Finished
        } else {
            Progress::Moved
        }),
        bits,
    }
}

pub fn push(c: &mut Controller, word: u32) -> u8 {
    if !valid(c) {
        return INVALID;
    }
    if let Some(refusal) = not_ready(c) {
        return refusal;
    }
    let InProgress::Program { operation, moved } = &c.in_progress else {
        return UNEXPECTED;
    };
    if moved + c.program_queue.length == operation.count {
        return UNEXPECTED;
    }
    if c.program_queue.length == QUEUE_WORDS {
        return QUEUE_FULL;
    }
    add(&mut c.program_queue, word);
    NONE
}

pub fn pop(c: &mut Controller) -> WordGiven {
    let refused = |refusal| WordGiven { refusal, word: 0 };
    if !valid(c) {
        return refused(INVALID);
    }
    if c.read_queue.length == 0 {
        return refused(QUEUE_EMPTY);
    }
    WordGiven {
        refusal: NONE,
        word: take_oldest(&mut c.read_queue),
    }
}

pub fn whole(
    c: &mut Controller,
    operation: Operation,
    image: &mut [u32],
    buffer: &mut [u32],
) -> WholeDone {
    let done = |refusal: Refusal, bits| WholeDone {
        refusal: refusal.number,
        decider: refusal.decider,
        bits,
    };
    if let Some(refusal) = not_ready_with(c, image) {
        return done(refusal.into(), 0);
    }
    let queued = c.read_queue.length + c.program_queue.length;
    if c.in_progress != InProgress::Nothing || queued > 0 {
        return done(BUSY.into(), 0);
    }
    let judged = judge(c, &operation);
    let count = operation.count as usize;
    if judged.refusal.number != MALFORMED && counts(&operation) && buffer.len() < count {
        return done(SHORT_BUFFER.into(), 0);
    }
    record(c, &operation, &judged);
    let Judged { refusal, allowed } = judged;
    let d = c.data_pages;
    let bits = match (operation.kind, refusal.number) {
        (READ, NONE | DENIED) => {
            let (stored, denied) = buffer[..count].split_at_mut(allowed as usize);
            read(stored, image, d, &operation);
            denied.fill(ONES);
            c.read_queue = Queue::default();
            0
        }
        (PROGRAM, NONE) => {
            c.program_queue = Queue::default();
            program(image, &buffer[..count], d, &operation)
        }
        (_, NONE) => erase(&mut image[erased(d, &operation)]),
        _ => 0,
    };
    done(refusal, bits)
}

pub fn host_read(c: &Controller, image: &[u32], address: u32) -> HostGiven {
    match not_ready_with(c, image) {
        Some(refusal) => host_refused(refusal.into()),
        None => fetch(c, image, address),
    }
}

fn host_refused(refusal: Refusal) -> HostGiven {
    HostGiven {
        refusal: refusal.number,
        decider: refusal.decider,
        word: 0,
    }
}

/// A host read of a controller that is ready.
fn fetch(c: &Controller, image: &[u32], address: u32) -> HostGiven {
    if !address.is_multiple_of(WORD_BYTES) {
        return host_refused(MALFORMED.into());
    }
    if address >= 2 * c.data_pages * PAGE_BYTES {
        return host_refused(OUT_OF_RANGE.into());
    }
    if let Some(decider) = lacking(data_rights(c, address / PAGE_BYTES), RIGHT_READ) {
        return host_refused(Refusal::denied(decider));
    }
    HostGiven {
        refusal: NONE,
        decider: None,
        word: image[place(c.data_pages, &Operation::default(), address)],
    }
}

/// The address of the first denied word; programs and erases have it on their one page.
fn record(c: &mut Controller, operation: &Operation, judged: &Judged) {
    if judged.refusal.number != NONE {
        c.recorded |= 1 << judged.refusal.number;
        c.last_address = operation.address + WORD_BYTES * judged.allowed;
    }
}
