//! What stands in two pages, by the second program's reading of a slot.

use crate::bench::Bench;
use crate::layout::words_of_data_page;
use reference::interface::flat;
use reference::model::{slot, Scan, Slot};

/// The slots of two pages, lowest place first.
pub fn slots(bench: &Bench, mut pages: [u32; 2]) -> Vec<Slot> {
    pages.sort_unstable();
    let data_pages = bench.flat().data_pages;
    let words = |page| &bench.image()[words_of_data_page(data_pages, page)];
    let slots = pages.into_iter().flat_map(|page| words(page).as_chunks().0);
    slots.map(slot).collect()
}

pub fn waits(slot: &Slot) -> bool {
    matches!(slot, Slot::Waiting(_))
}

/// Each page has a waiting slot.
pub fn both_wait(slots: &[Slot]) -> bool {
    let mut pages = slots.chunks(slots.len() / 2);
    pages.all(|page| page.iter().any(waits))
}

/// What waits, oldest first: the lowest serial, then the lowest place.
pub fn waiting(slots: &[Slot]) -> Vec<Scan> {
    let waiting = slots.iter().filter(|slot| waits(slot));
    let mut list: Vec<Scan> = waiting.filter_map(sealed).cloned().collect();
    list.sort_by_key(|scan| scan.serial);
    list
}

/// One above the highest sealed, or 1.
pub fn new_serial(slots: &[Slot]) -> u32 {
    1 + highest(slots).unwrap_or(0)
}

/// The highest sealed serial.
pub fn highest(slots: &[Slot]) -> Option<u32> {
    let sealed = slots.iter().filter_map(sealed);
    sealed.map(|scan| scan.serial).max()
}

fn sealed(slot: &Slot) -> Option<&Scan> {
    match slot {
        Slot::Waiting(scan) | Slot::Taken(scan) | Slot::OddMark(scan) => Some(scan),
        Slot::Unused | Slot::Dead => None,
    }
}

/// The scan of a take that is accepted.
pub fn handed_out(told: &flat::ScanTaken) -> Scan {
    Scan {
        serial: told.serial,
        bytes: told.bytes.0[..told.length as usize].to_vec(),
    }
}
