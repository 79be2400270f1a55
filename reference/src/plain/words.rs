//! 01, "The shelf: pages and words" and "Steps": the places of an operation's
//! words, and moving them page by page.

use crate::model::{Operation, DATA, ONES, PAGE_ERASE};
use std::ops::Range;

pub(super) const PAGE_BYTES: u32 = 1024;
const PAGE_WORDS: u32 = 256;
pub(super) const WORD_BYTES: u32 = 4;
pub(super) const INFO_PAGES: u32 = 13;
/// Where each type begins among its bank's information pages, and how many it has.
pub(super) const INFO_TYPES: [(u32, u32); 3] = [(0, 10), (10, 1), (11, 2)];

/// The first words of a read, as many as the buffer takes.
pub(super) fn read(buffer: &mut [u32], image: &[u32], d: u32, operation: &Operation) {
    let words = buffer.len() as u32;
    let mut left = buffer;
    for piece in pieces(d, operation, words) {
        let (part, rest) = left.split_at_mut(piece.len());
        part.copy_from_slice(&image[piece]);
        left = rest;
    }
}

pub(super) fn program(image: &mut [u32], buffer: &[u32], d: u32, operation: &Operation) -> u32 {
    let mut left = buffer;
    let mut bits = 0;
    for piece in pieces(d, operation, operation.count) {
        let (part, rest) = left.split_at(piece.len());
        for (word, new) in image[piece].iter_mut().zip(part) {
            bits += put(word, *word & new);
        }
        left = rest;
    }
    bits
}

pub(super) fn erase(words: &mut [u32]) -> u32 {
    words.iter_mut().map(|word| put(word, ONES)).sum()
}

/// Gives how many bits it changes.
pub(super) fn put(word: &mut u32, new: u32) -> u32 {
    let bits = (*word ^ new).count_ones();
    *word = new;
    bits
}

/// The places of a read's or program's first words, page by page.
fn pieces(d: u32, operation: &Operation, words: u32) -> impl Iterator<Item = Range<usize>> + '_ {
    let end = operation.address + WORD_BYTES * words;
    let mut address = operation.address;
    std::iter::from_fn(move || {
        if address == end {
            return None;
        }
        let page_end = (address / PAGE_BYTES + 1) * PAGE_BYTES;
        let piece_end = page_end.min(end);
        let start = place(d, operation, address);
        let words = (piece_end - address) / WORD_BYTES;
        address = piece_end;
        Some(start..start + words as usize)
    })
}

/// The places that an erase covers.
pub(super) fn erased(d: u32, operation: &Operation) -> Range<usize> {
    let page = operation.address / PAGE_BYTES;
    let (start, words) = match (operation.kind, operation.partition) {
        (PAGE_ERASE, _) => (place(d, operation, page * PAGE_BYTES), PAGE_WORDS),
        (_, DATA) => (bank_start(d, page / d), d * PAGE_WORDS),
        _ => (bank_start(d, page / d), bank_words(d)),
    };
    start..start + words as usize
}

/// The place of the word at an address of the operation's pages.
pub(super) fn place(d: u32, operation: &Operation, address: u32) -> usize {
    let page = address / PAGE_BYTES;
    let (bank, page_in_bank) = (page / d, page % d);
    let page = match operation.partition {
        DATA => page_in_bank,
        _ => d + INFO_TYPES[usize::from(operation.info_type)].0 + page_in_bank,
    };
    let word = page * PAGE_WORDS + address % PAGE_BYTES / WORD_BYTES;
    bank_start(d, bank) + word as usize
}

fn bank_start(d: u32, bank: u32) -> usize {
    (bank * bank_words(d)) as usize
}

fn bank_words(d: u32) -> u32 {
    (d + INFO_PAGES) * PAGE_WORDS
}

pub(super) fn image_words(d: u32) -> usize {
    2 * bank_words(d) as usize
}
