//! Whether a sheet is good, before any of it is run.

use super::entries::{block, Entry};
use crate::numbers::Reader;

const MOST_BYTES: usize = 4_096;
/// Entries 1 and 3, after expansion.
const MOST_EXPANDED: u128 = 4_096;

/// The block of a good sheet, or the place that a bad one prints.
pub fn judged(sheet: &[u8]) -> Result<Vec<Entry>, usize> {
    if sheet.len() > MOST_BYTES {
        return Err(MOST_BYTES);
    }
    let mut reader = Reader::new(sheet);
    let block = block(&mut reader, 0)?;
    if reader.place < sheet.len() {
        return Err(reader.place);
    }
    if expanded(&block) > MOST_EXPANDED {
        return Err(0);
    }
    Ok(block)
}

/// How many entries 1 and 3 a block runs: at most 255^8 for each, far below 2^128.
pub fn expanded(block: &[Entry]) -> u128 {
    let runs = |entry: &Entry| match entry {
        Entry::Operation(..) | Entry::Rights(_) => 1,
        Entry::Repeat(count, inner) => u128::from(*count) * expanded(inner),
    };
    block.iter().map(runs).sum()
}
