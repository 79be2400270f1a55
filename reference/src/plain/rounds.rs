//! 02, L1: a round.

use super::checks::not_ready_with;
use super::words::{PAGE_BYTES, WORD_BYTES};
use super::{fetch, host_refused, move_word, step_refused};
use crate::model::{Controller, InProgress, Rounded, Turn, MOST_LOST, QUEUE_WORDS};

pub fn round(c: &mut Controller, image: &mut [u32], host: Option<u32>, steps: bool) -> Rounded {
    if let Some(refusal) = not_ready_with(c, image) {
        return Rounded {
            host: host.map(|_| host_refused(refusal.into())).into(),
            step: steps.then(|| step_refused(refusal)).into(),
        };
    }
    let mut told = Rounded {
        host: Turn::Waiting,
        step: Turn::Waiting,
    };
    let winner = settle(c, host, steps);
    if winner != Some(Side::Step) {
        told.host = host.map(|address| fetch(c, image, address)).into();
    }
    if winner != Some(Side::Host) {
        told.step = steps.then(|| move_word(c, image)).into();
    }
    told
}

#[derive(PartialEq)]
enum Side {
    Host,
    Step,
}

/// Who wins the bank that both ask for, counted; None if they do not ask for one.
fn settle(c: &mut Controller, host: Option<u32>, steps: bool) -> Option<Side> {
    let asked = host.filter(|_| steps).map(|address| bank_at(c, address));
    let bank = asked.filter(|bank| next_bank(c) == Some(*bank))?;
    let lost = &mut c.lost[bank];
    if *lost < MOST_LOST {
        *lost += 1;
        Some(Side::Host)
    } else {
        *lost = 0;
        Some(Side::Step)
    }
}

/// Of the word that a step would move. A program stays in its window, an erase in its bank.
fn next_bank(c: &Controller) -> Option<usize> {
    let address = match &c.in_progress {
        InProgress::Read {
            operation, moved, ..
        } if c.read_queue.length < QUEUE_WORDS => operation.address + WORD_BYTES * moved,
        InProgress::Program { operation, .. } if c.program_queue.length > 0 => operation.address,
        InProgress::Erase { operation, .. } => operation.address,
        _ => return None,
    };
    Some(bank_at(c, address))
}

/// An address past the end counts as bank 1.
fn bank_at(c: &Controller, address: u32) -> usize {
    usize::from(address >= c.data_pages * PAGE_BYTES)
}
