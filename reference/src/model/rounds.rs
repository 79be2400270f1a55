//! 02, L1 "Fair turns": a round, in which the host and the controller may ask
//! for the same bank.

use super::answers::{Rounded, Turn};
use super::checks::check_ready;
use super::geometry::{bank_of, bank_words, BANKS};
use super::host::host_read;
use super::operation::moving_place;
use super::state::Controller;
use super::steps::{step, waits};

/// At this lost count the controller goes instead of the host.
pub const MOST_LOST: u32 = 5;

/// `host` is the byte address that the host asks for; `steps` asks for a step.
pub fn round(c: &mut Controller, image: &mut [u32], host: Option<u32>, steps: bool) -> Rounded {
    let Some(bank) = contested_bank(c, image, host, steps) else {
        return served(c, image, host, steps);
    };
    if c.lost[bank] < MOST_LOST {
        // A refused host read uses its turn, so the count rises whatever it is answered.
        c.lost[bank] += 1;
        Rounded {
            step: Turn::Waiting,
            ..served(c, image, host, false)
        }
    } else {
        c.lost[bank] = 0;
        Rounded {
            host: Turn::Waiting,
            ..served(c, image, None, steps)
        }
    }
}

/// Whoever asks is served, host first; the counts stay.
fn served(c: &mut Controller, image: &mut [u32], host: Option<u32>, steps: bool) -> Rounded {
    Rounded {
        host: host.map(|address| host_read(c, image, address)).into(),
        step: steps.then(|| step(c, image)).into(),
    }
}

/// The bank that both sides ask for, if they do.
fn contested_bank(c: &Controller, image: &[u32], host: Option<u32>, steps: bool) -> Option<usize> {
    let address = host.filter(|_| steps)?;
    let bank = moving_bank(c, image)?;
    (bank == host_bank(c, address)).then_some(bank)
}

/// The bank of the step's next word. None if the step would wait or be refused: it doesn't compete.
fn moving_bank(c: &Controller, image: &[u32]) -> Option<usize> {
    check_ready(c, image).ok()?;
    let (operation, moved) = c.in_progress.operation().filter(|_| !waits(c))?;
    let place = moving_place(c.data_pages, &operation, moved);
    Some(place / bank_words(c.data_pages) as usize)
}

/// An address past 2D pages counts as bank 1.
fn host_bank(c: &Controller, address: u32) -> usize {
    let bank = bank_of(c.data_pages, u64::from(address));
    bank.min(BANKS - 1) as usize
}
