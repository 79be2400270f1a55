//! What the 16 words of a slot mean, and the words that hold a scan.

use crate::model::geometry::{ONES, WORD_BYTES};
use crate::numbers::{groups, Reader};
use std::ops::RangeInclusive;

/// A page has 16 slots.
pub(super) const SLOTS: u32 = 16;
pub(super) const SLOT_WORDS: usize = 16;
pub(super) const SLOT_BYTES: u32 = SLOT_WORDS as u32 * WORD_BYTES as u32;
/// The seal, the taken mark, and the first word of the scan.
pub(super) const SEAL: usize = 0;
pub(super) const MARK: usize = 1;
pub(super) const SCAN: usize = 2;
/// The words 2 to 15, and their bytes.
const SCAN_WORDS: usize = SLOT_WORDS - SCAN;
const SCAN_BYTES: usize = SCAN_WORDS * WORD_BYTES as usize;
/// Serials are below it.
pub(super) const SERIAL_END: u32 = 1 << 28;
/// How many bytes a scan has.
pub(super) const LENGTHS: RangeInclusive<usize> = 1..=48;
/// An erased byte.
const BLANK: u8 = 0xFF;

#[derive(Clone, Debug, PartialEq, Eq)]
pub struct Scan {
    pub serial: u32,
    pub bytes: Vec<u8>,
}

#[derive(Clone, Debug, PartialEq, Eq)]
pub enum Slot {
    Unused,
    Dead,
    Waiting(Scan),
    Taken(Scan),
    /// Sealed, with a mark that is neither ones nor 0.
    OddMark(Scan),
}

impl Slot {
    /// The scan, if the slot is sealed.
    pub(super) fn sealed(&self) -> Option<&Scan> {
        match self {
            Slot::Unused | Slot::Dead => None,
            Slot::Waiting(scan) | Slot::Taken(scan) | Slot::OddMark(scan) => Some(scan),
        }
    }
}

/// The byte address of a word of the slot that begins at a byte address.
pub(super) fn word_address(slot: u32, word: usize) -> u32 {
    slot + word as u32 * WORD_BYTES as u32
}

/// What the words of a slot mean.
pub fn slot(words: &[u32; SLOT_WORDS]) -> Slot {
    if words.iter().all(|word| *word == ONES) {
        return Slot::Unused;
    }
    match well_formed(&words[SCAN..]) {
        Some(scan) if words[SEAL] == 0 => sealed(words[MARK], scan),
        _ => Slot::Dead,
    }
}

fn sealed(mark: u32, scan: Scan) -> Slot {
    match mark {
        ONES => Slot::Waiting(scan),
        0 => Slot::Taken(scan),
        _ => Slot::OddMark(scan),
    }
}

/// A serial, a length, so many bytes, and ones to the end of word 15.
fn well_formed(words: &[u32]) -> Option<Scan> {
    let bytes: Vec<u8> = words.iter().flat_map(|word| word.to_le_bytes()).collect();
    let mut reader = Reader::new(&bytes);
    let serial = reader.number().ok().filter(|n| *n < SERIAL_END)?;
    let length = reader.number().ok().map(|n| n as usize)?;
    if !LENGTHS.contains(&length) {
        return None;
    }
    let (own, rest) = bytes[reader.place..].split_at(length);
    let rest_is_blank = rest.iter().all(|byte| *byte == BLANK);
    rest_is_blank.then(|| Scan {
        serial,
        bytes: own.to_vec(),
    })
}

/// The words 2 to 15 of a scan, lowest byte of a word first.
pub(super) fn words(scan: &Scan) -> Vec<u32> {
    let length = scan.bytes.len() as u32;
    let mut bytes = [groups(scan.serial), groups(length), scan.bytes.clone()].concat();
    bytes.resize(SCAN_BYTES, BLANK);
    let (words, _) = bytes.as_chunks();
    words.iter().copied().map(u32::from_le_bytes).collect()
}
