//! 01, "Steps": a whole operation; 02, L11: the same for a number of steps.

use super::answers::{RanFor, Started, WholeDone};
use super::checks::check_whole;
use super::operation::Operation;
use super::state::{Controller, InProgress};
use super::steps::{pop, push, start, step};

/// More steps than any operation has words.
const ENOUGH_STEPS: u32 = u32::MAX;

/// Checks 1, 2, 3, 4, 5, 6, 7, 8, 9; then steps, pushes and pops until the
/// operation is finished and drained.
pub fn whole(
    c: &mut Controller,
    operation: Operation,
    image: &mut [u32],
    buffer: &mut [u32],
) -> WholeDone {
    let ran = run_for(c, operation, image, buffer, ENOUGH_STEPS);
    WholeDone {
        refusal: ran.refusal,
        decider: ran.decider,
        bits: ran.bits,
    }
}

/// A whole operation that is left in progress after so many steps.
pub fn run_for(
    c: &mut Controller,
    operation: Operation,
    image: &mut [u32],
    buffer: &mut [u32],
    steps: u32,
) -> RanFor {
    if let Err(refusal) = check_whole(c, &operation, image, buffer) {
        return RanFor {
            refusal,
            left: steps,
            ..RanFor::default()
        };
    }
    let Started { refusal, decider } = start(c, operation);
    let (made, bits) = make_steps(c, image, buffer, steps);
    RanFor {
        refusal,
        decider,
        bits,
        left: steps - made,
        cut: c.in_progress != InProgress::Nothing,
    }
}

/// Makes at most so many steps, one for each word: a word to program is pushed before
/// its step, a word read popped after it. Gives the steps made and the bits changed.
fn make_steps(c: &mut Controller, image: &mut [u32], buffer: &mut [u32], steps: u32) -> (u32, u32) {
    let mut made = 0;
    let mut bits = 0;
    while c.in_progress != InProgress::Nothing && made < steps {
        if matches!(c.in_progress, InProgress::Program { .. }) {
            push(c, buffer[made as usize]);
        }
        bits += step(c, image).bits;
        if c.read_queue.length > 0 {
            buffer[made as usize] = pop(c).word;
        }
        made += 1;
    }
    (made, bits)
}
