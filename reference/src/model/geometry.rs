//! 01, "The shelf: pages and words": pages, byte addresses and image places.

use super::operation::DATA;
use std::ops::RangeInclusive;

pub const BANKS: u64 = 2;
/// D, the data pages in each bank.
const DATA_PAGES: RangeInclusive<u32> = 10..=256;
pub const WORD_BYTES: u64 = 4;
pub const PAGE_WORDS: u64 = 256;
pub const PAGE_BYTES: u64 = PAGE_WORDS * WORD_BYTES;
/// Information pages of type 0, 1 and 2 in each bank.
pub const INFO_PAGES_OF_TYPE: [u64; 3] = [10, 1, 2];
/// Where each type begins among its bank's information pages.
const INFO_TYPE_BEGIN: [u64; 3] = {
    let [of_type_0, of_type_1, _] = INFO_PAGES_OF_TYPE;
    [0, of_type_0, of_type_0 + of_type_1]
};
pub const INFO_PAGES_PER_BANK: u64 = {
    let [of_type_0, of_type_1, of_type_2] = INFO_PAGES_OF_TYPE;
    of_type_0 + of_type_1 + of_type_2
};
/// Special pages, all of bank 0, type 0.
pub const CREATOR_PAGE: u64 = 1;
pub const OWNER_PAGE: u64 = 2;
pub const ISOLATED_PAGE: u64 = 3;
/// An erased bus word.
pub const ONES: u32 = u32::MAX;

pub(super) fn d_in_range(data_pages: u32) -> bool {
    DATA_PAGES.contains(&data_pages)
}

pub(super) fn is_info_type(info_type: u8) -> bool {
    usize::from(info_type) < INFO_PAGES_OF_TYPE.len()
}

pub(super) fn is_aligned(address: u32) -> bool {
    u64::from(address).is_multiple_of(WORD_BYTES)
}

/// The bus words of a whole image.
pub fn image_words(data_pages: u32) -> u64 {
    BANKS * bank_words(data_pages)
}

/// The bus words of one bank in the image, data and information.
pub(super) fn bank_words(data_pages: u32) -> u64 {
    (u64::from(data_pages) + INFO_PAGES_PER_BANK) * PAGE_WORDS
}

/// The byte addresses of one bank.
fn bank_bytes(data_pages: u32) -> u64 {
    u64::from(data_pages) * PAGE_BYTES
}

/// The first byte address past the data pages.
pub(super) fn address_end(data_pages: u32) -> u64 {
    BANKS * bank_bytes(data_pages)
}

pub(super) fn bank_of(data_pages: u32, address: u64) -> u64 {
    address / bank_bytes(data_pages)
}

pub(super) fn page_in_bank(data_pages: u32, address: u64) -> u64 {
    address % bank_bytes(data_pages) / PAGE_BYTES
}

/// The image place of the bus word at a byte address of a partition.
pub(super) fn word_place(data_pages: u32, partition: u8, info_type: u8, address: u64) -> usize {
    let bank = bank_of(data_pages, address);
    let page = page_in_bank(data_pages, address);
    let page_place = if partition == DATA {
        data_page_place(data_pages, bank, page)
    } else {
        info_page_place(data_pages, bank, info_type, page)
    };
    page_place + (address % PAGE_BYTES / WORD_BYTES) as usize
}

/// The image place where a data page begins.
pub(super) fn data_page_place(data_pages: u32, bank: u64, page: u64) -> usize {
    (bank * bank_words(data_pages) + page * PAGE_WORDS) as usize
}

/// The image place where an information page begins.
pub(super) fn info_page_place(data_pages: u32, bank: u64, info_type: u8, page: u64) -> usize {
    let page_in_image = u64::from(data_pages) + INFO_TYPE_BEGIN[usize::from(info_type)] + page;
    (bank * bank_words(data_pages) + page_in_image * PAGE_WORDS) as usize
}

/// Where an information page stands among the settings.
pub(super) fn info_index(bank: u64, info_type: u8, page: u64) -> usize {
    (bank * INFO_PAGES_PER_BANK + INFO_TYPE_BEGIN[usize::from(info_type)] + page) as usize
}
