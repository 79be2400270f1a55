//! 01, "Phases": reset, initialise and RMA; also clearing the error record.

use super::answers::{Initialised, SEED_WORDS};
use super::checks::{check_initialise, check_rma, check_valid};
use super::geometry::{
    d_in_range, data_page_place, info_page_place, BANKS, CREATOR_PAGE, ISOLATED_PAGE, ONES,
    OWNER_PAGE, PAGE_WORDS,
};
use super::queue::Queue;
use super::refusals::{INVALID, NONE};
use super::state::{Controller, Phase};

/// Takes any state and checks only the new D.
pub fn reset(controller: &mut Controller, data_pages: u32) -> u8 {
    if !d_in_range(data_pages) {
        return INVALID;
    }
    *controller = Controller {
        data_pages,
        ..Controller::default()
    };
    NONE
}

/// Checks 1, 2, 12. Seeds are given if provision is enabled, locked or not.
pub fn initialise(c: &mut Controller, image: &[u32]) -> Initialised {
    if let Err(refusal) = check_initialise(c, image) {
        return Initialised {
            refusal,
            ..Initialised::default()
        };
    }
    c.phase = Phase::Ready;
    if !c.provision_enabled {
        return Initialised::default();
    }
    Initialised {
        refusal: NONE,
        seeds_given: true,
        creator_seed: seed(c.data_pages, CREATOR_PAGE, image),
        owner_seed: seed(c.data_pages, OWNER_PAGE, image),
    }
}

/// The first 8 bus words of a seed page, which is in bank 0, type 0.
fn seed(data_pages: u32, page: u64, image: &[u32]) -> [u32; SEED_WORDS] {
    let begin = info_page_place(data_pages, 0, 0, page);
    let mut words = [0; SEED_WORDS];
    words.copy_from_slice(&image[begin..begin + SEED_WORDS]);
    words
}

/// Checks 1 only, so it is allowed in any phase and during an operation.
pub fn clear(c: &mut Controller) -> u8 {
    if let Err(refusal) = check_valid(c) {
        return refusal;
    }
    c.recorded = 0;
    c.last_address = 0;
    NONE
}

/// Checks 1, 2, 4. Wipes every data page and the three special pages.
pub fn rma(c: &mut Controller, image: &mut [u32]) -> u8 {
    if let Err(refusal) = check_rma(c, image) {
        return refusal;
    }
    for bank in 0..BANKS {
        for page in 0..u64::from(c.data_pages) {
            wipe_page(image, data_page_place(c.data_pages, bank, page));
        }
    }
    for page in [CREATOR_PAGE, OWNER_PAGE, ISOLATED_PAGE] {
        wipe_page(image, info_page_place(c.data_pages, 0, 0, page));
    }
    c.read_queue = Queue::default();
    c.program_queue = Queue::default();
    c.phase = Phase::Disabled;
    NONE
}

/// Sets the page that begins at an image place to ones.
fn wipe_page(image: &mut [u32], begin: usize) {
    image[begin..begin + PAGE_WORDS as usize].fill(ONES);
}
