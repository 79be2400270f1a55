//! A look at the slots of two pages. It reads the lent words and changes nothing.

use super::slots::{slot, Slot, SLOTS, SLOT_BYTES, SLOT_WORDS};
use crate::model::geometry::{word_place, PAGE_BYTES};
use crate::model::operation::DATA;

/// A slot, and the byte address where it begins.
pub(super) struct Found {
    pub(super) address: u32,
    pub(super) slot: Slot,
}

/// The slots of both pages, lowest place first.
pub(super) fn look(data_pages: u32, image: &[u32], mut pages: [u32; 2]) -> Vec<Found> {
    pages.sort_unstable();
    let addresses = pages.into_iter().flat_map(slot_addresses);
    let found = addresses.map(|address| Found {
        address,
        slot: slot(words_at(data_pages, image, address)),
    });
    found.collect()
}

fn slot_addresses(page: u32) -> impl Iterator<Item = u32> {
    let begin = page * PAGE_BYTES as u32;
    (0..SLOTS).map(move |number| begin + number * SLOT_BYTES)
}

fn words_at(data_pages: u32, image: &[u32], address: u32) -> &[u32; SLOT_WORDS] {
    let place = word_place(data_pages, DATA, 0, u64::from(address));
    image[place..]
        .first_chunk()
        .expect("a page has whole slots")
}
