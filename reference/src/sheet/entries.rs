//! The entries of a sheet, as a tree.

use crate::model::{Operation, ALL_RIGHTS, PROGRAM};
use crate::numbers::Reader;

/// The tags.
const END: u32 = 0;
const OPERATION: u32 = 1;
const REPEAT: u32 = 2;
const RIGHTS: u32 = 3;

/// A program of more words carries none.
const MOST_CARRIED: u32 = 16;
const DEEPEST: u32 = 8;

#[derive(Clone, Debug, PartialEq, Eq)]
pub enum Entry {
    /// With the words that it carries.
    Operation(Operation, Vec<u32>),
    Repeat(u8, Vec<Entry>),
    /// Default rights.
    Rights(u8),
}

/// The entries up to the 0 that ends their block, which stands in `depth` repeats;
/// or where the first number begins that cannot stand there.
pub(super) fn block(reader: &mut Reader, depth: u32) -> Result<Vec<Entry>, usize> {
    let mut entries = Vec::new();
    loop {
        let begin = reader.place;
        entries.push(match reader.number()? {
            END => return Ok(entries),
            OPERATION => operation(reader)?,
            REPEAT if depth < DEEPEST => repeat(reader, depth + 1)?,
            RIGHTS => Entry::Rights(reader.number_in(0..=ALL_RIGHTS)?),
            _ => return Err(begin),
        });
    }
}

fn operation(reader: &mut Reader) -> Result<Entry, usize> {
    let operation = Operation {
        kind: reader.number_in(0..=255)?,
        partition: reader.number_in(0..=255)?,
        info_type: reader.number_in(0..=255)?,
        address: reader.number()?,
        count: reader.number()?,
    };
    let carried = 0..carried(&operation);
    let words: Result<_, _> = carried.map(|_| reader.number()).collect();
    Ok(Entry::Operation(operation, words?))
}

/// How many words follow an operation's count.
fn carried(operation: &Operation) -> u32 {
    if operation.kind == PROGRAM && operation.count <= MOST_CARRIED {
        operation.count
    } else {
        0
    }
}

fn repeat(reader: &mut Reader, depth: u32) -> Result<Entry, usize> {
    let count = reader.number_in(1..=255)?;
    Ok(Entry::Repeat(count, block(reader, depth)?))
}
