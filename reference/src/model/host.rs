//! 01, "Who may touch which page": the host read and the page view.

use super::answers::{HostGiven, View};
use super::checks::{check_host_read, check_view};
use super::geometry::{data_page_place, word_place, PAGE_WORDS};
use super::operation::DATA;
use super::refusals::NONE;
use super::state::Controller;

/// Checks 1, 2, 3, 5, 7, 9; never recorded.
pub fn host_read(c: &Controller, image: &[u32], address: u32) -> HostGiven {
    match check_host_read(c, image, address) {
        Err(refusal) => HostGiven {
            refusal: refusal.number,
            decider: refusal.decider,
            word: 0,
        },
        Ok(()) => HostGiven {
            refusal: NONE,
            decider: None,
            word: image[word_place(c.data_pages, DATA, 0, u64::from(address))],
        },
    }
}

/// Checks 1, 2, 3, 7, 9; not recorded. `page` counts over both banks.
pub fn view(c: &Controller, image: &[u32], page: u32) -> View {
    if let Err(refusal) = check_view(c, image, page) {
        return View {
            refusal: refusal.number,
            decider: refusal.decider,
            ..View::default()
        };
    }
    let bank = u64::from(page / c.data_pages);
    let page_in_bank = u64::from(page % c.data_pages);
    View {
        refusal: NONE,
        decider: None,
        start: data_page_place(c.data_pages, bank, page_in_bank),
        length: PAGE_WORDS as usize,
    }
}
