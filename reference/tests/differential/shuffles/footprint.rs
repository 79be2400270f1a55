//! Which pages a list of whole operations touches.

use super::{Ended, Item};
use crate::layout::{first_page_of_bank, image_page, words_to_move, PAGE_WORDS, WORD_BYTES};
use crate::pages::readable_words;
use reference::interface::flat::{self, Controller};
use std::collections::BTreeSet;

/// The image's pages that a list touches.
#[derive(Default)]
pub struct Footprint {
    pub read: BTreeSet<u32>,
    pub written: BTreeSet<u32>,
}

/// No page that one list programs or erases is read, programmed or erased by the other.
pub fn keep_apart([one, other]: &[Footprint; 2]) -> bool {
    spares(one, other) && spares(other, one)
}

fn spares(writer: &Footprint, other: &Footprint) -> bool {
    writer.written.is_disjoint(&other.read) && writer.written.is_disjoint(&other.written)
}

/// How far a denied read reads.
#[derive(Clone, Copy)]
pub enum Denied {
    /// Up to its first denied page, as 02's L3 says.
    Cut,
    /// To its end, if it has a readable word: this is not the rule, but tells
    /// what the rule keeps apart.
    Whole,
}

/// An accepted operation touches the pages of its words, a denied read those of
/// its readable words, and any other refused one none. The controller is the
/// beginning's: no operation changes a setting.
pub fn footprint(c: &Controller, items: &[Item], ended: &Ended, denied: Denied) -> Footprint {
    let mut footprint = Footprint::default();
    for (item, given) in items.iter().zip(&ended.given) {
        let operation = &item.operation;
        match (operation.kind, given.done.answer) {
            (flat::READ, 0 | 9) => {
                let words = words_read(c, operation, denied);
                footprint.read.extend(pages_of_words(c, operation, words));
            }
            (_, 0) => footprint.written.extend(pages_written(c, operation)),
            _ => {}
        }
    }
    footprint
}

/// Of a read that starts.
fn words_read(c: &Controller, read: &flat::Operation, denied: Denied) -> u32 {
    let readable = readable_words(c, read).expect("it starts");
    match denied {
        Denied::Whole if readable > 0 => read.count,
        _ => readable,
    }
}

/// The image's pages that a program or erase writes.
fn pages_written(c: &Controller, operation: &flat::Operation) -> Vec<u32> {
    match operation.kind {
        flat::PROGRAM => pages_of_words(c, operation, operation.count),
        flat::PAGE_ERASE => pages_of_words(c, operation, 1),
        _ => {
            let first = first_page_of_bank(c.data_pages, operation.address);
            let covered = words_to_move(c.data_pages, operation) / PAGE_WORDS;
            (first..first + covered).collect()
        }
    }
}

/// The image's pages with one of an operation's first words.
fn pages_of_words(c: &Controller, operation: &flat::Operation, words: u32) -> Vec<u32> {
    let page_of = |word| {
        let address = operation.address + WORD_BYTES * word;
        image_page(c.data_pages, operation, address)
    };
    (0..words).map(page_of).collect()
}
