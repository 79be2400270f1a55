//! Where 01 puts pages and words, as the comparison itself reckons: it asks
//! neither program.

use reference::interface::flat::{self, Operation, Progress};
use std::ops::{Range, RangeInclusive};

pub const MOST_DATA_PAGES: u32 = 256;
/// Smallest and largest D.
pub const DATA_PAGES: RangeInclusive<u32> = 10..=MOST_DATA_PAGES;
pub const WORD_BYTES: u32 = 4;
pub const PAGE_WORDS: u32 = 256;
pub const PAGE_BYTES: u32 = PAGE_WORDS * WORD_BYTES;
pub const INFO_PAGES: u32 = 13;
/// The most words of a read or program.
pub const MOST_WORDS: u32 = 1024;
/// Where each type begins among its bank's information pages, and how many it has.
const INFO_TYPES: [(u32, u32); 3] = [(0, 10), (10, 1), (11, 2)];

/// Where a type begins among its bank's information pages.
pub fn type_begin(info_type: u32) -> u32 {
    INFO_TYPES[info_type as usize].0
}

/// A type that is none has no pages; one stands for it, so that numbers can be drawn.
pub fn pages_of_type(info_type: u32) -> u32 {
    let of_type = INFO_TYPES.get(info_type as usize);
    of_type.map_or(1, |&(_, pages)| pages)
}

/// The type of one of a bank's information pages, and its number in the type.
pub fn type_and_page(info_page: u32) -> (u32, u32) {
    let begun = |&(begin, _): &(u32, u32)| begin <= info_page;
    let info_type = INFO_TYPES.iter().rposition(begun).expect("type 0 is first");
    (info_type as u32, info_page - INFO_TYPES[info_type].0)
}

/// The pages of one bank in the image, data and information.
pub fn bank_pages(data_pages: u32) -> u32 {
    data_pages + INFO_PAGES
}

/// The image's page with which the bank of an address begins.
pub fn first_page_of_bank(data_pages: u32, address: u32) -> u32 {
    address / PAGE_BYTES / data_pages * bank_pages(data_pages)
}

/// The image's page with the word at an address of an operation that is inside.
pub fn image_page(data_pages: u32, operation: &Operation, address: u32) -> u32 {
    let begin = match operation.partition {
        flat::DATA => 0,
        _ => data_pages + type_begin(operation.info_type),
    };
    first_page_of_bank(data_pages, address) + begin + address / PAGE_BYTES % data_pages
}

/// The bank of an address; past the end it counts as bank 1.
pub fn bank(data_pages: u32, address: u32) -> usize {
    usize::from(address / PAGE_BYTES >= data_pages)
}

/// The data pages beside the bank border, three in each bank.
pub fn beside_the_border(data_pages: u32) -> Range<u32> {
    data_pages - 3..data_pages + 3
}

/// An address in the bank of the next word of what is in progress; an erase stays in its bank.
pub fn next_address(progress: &Progress) -> u32 {
    let operation = &progress.operation;
    match operation.kind {
        flat::READ | flat::PROGRAM => {
            let moved = progress.moved.wrapping_mul(WORD_BYTES);
            operation.address.wrapping_add(moved)
        }
        _ => operation.address,
    }
}

/// The bus words of a page of the image.
pub fn words_of(page: u32) -> Range<usize> {
    let begin = (page * PAGE_WORDS) as usize;
    begin..begin + PAGE_WORDS as usize
}

/// The bus words of a data page, counted over both banks.
pub fn words_of_data_page(data_pages: u32, page: u32) -> Range<usize> {
    words_of(page / data_pages * bank_pages(data_pages) + page % data_pages)
}

pub fn words_to_move(data_pages: u32, operation: &Operation) -> u32 {
    match (operation.kind, operation.partition) {
        (flat::READ | flat::PROGRAM, _) => operation.count,
        (flat::PAGE_ERASE, _) => PAGE_WORDS,
        (_, flat::DATA) => data_pages * PAGE_WORDS,
        _ => bank_pages(data_pages) * PAGE_WORDS,
    }
}
