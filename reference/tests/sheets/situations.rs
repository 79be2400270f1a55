//! What a good sheet's operations must have met in a run.

use crate::generator;
use reference::model::{
    Operation, BANK_ERASE, DATA, INFORMATION, MAX_COUNT, PAGE_ERASE, PROGRAM, READ,
};
use reference::sheet::{expanded, Entry, Ran};

/// A good sheet and its operations.
pub struct Met<'a> {
    pub sheet: &'a [u8],
    pub block: &'a [Entry],
    pub ran: &'a [Ran],
}

type Situation = (&'static str, fn(&Met) -> bool);

const DATA_END: u64 = generator::DATA_END as u64;
/// Where bank 1 begins.
const BORDER: u64 = DATA_END / 2;

pub const SITUATIONS: [Situation; 39] = [
    ("program that changes bits", |met| {
        met.any(PROGRAM, 0, |ran| ran.bits > 0)
    }),
    ("program that changes none", |met| {
        met.any(PROGRAM, 0, |ran| ran.bits == 0)
    }),
    (
        "program that changes bits of a word programmed before",
        |met| {
            met.later(|one, other| {
                let both = [one, other]
                    .iter()
                    .all(|ran| ran.operation.kind == PROGRAM && ran.bits > 0);
                both && one.operation.address == other.operation.address
            })
        },
    ),
    ("program of 16 words", |met| {
        met.any(PROGRAM, 0, |ran| ran.operation.count == 16)
    }),
    ("program up to its window's end", |met| {
        met.any(PROGRAM, 0, |ran| end(&ran.operation).is_multiple_of(64))
    }),
    ("program of no words", |met| {
        met.any(PROGRAM, 5, |ran| ran.operation.count == 0)
    }),
    ("program of up to 16 words over two windows", |met| {
        met.any(PROGRAM, 8, |ran| ran.operation.count <= 16)
    }),
    ("program of 17 words", |met| {
        met.any(PROGRAM, 8, |ran| ran.operation.count == 17)
    }),
    ("program of 1,024 words", |met| {
        met.any(PROGRAM, 8, |ran| ran.operation.count == MAX_COUNT)
    }),
    ("program of 1,025 words", |met| {
        met.any(PROGRAM, 5, |ran| ran.operation.count == MAX_COUNT + 1)
    }),
    ("program of over 16 words, outside", |met| {
        met.any(PROGRAM, 7, |ran| ran.operation.count > 16)
    }),
    ("program of an information page", |met| {
        met.any(PROGRAM, 9, |ran| ran.operation.partition == INFORMATION)
    }),
    ("page erase that changes bits", |met| {
        met.any(PAGE_ERASE, 0, |ran| ran.bits > 0)
    }),
    ("page erase of a blank page", |met| {
        met.any(PAGE_ERASE, 0, |ran| ran.bits == 0)
    }),
    ("page erase with n = 0", |met| {
        met.any(PAGE_ERASE, 0, |ran| ran.operation.count == 0)
    }),
    ("page erase with n over 1,024", |met| {
        met.any(PAGE_ERASE, 0, |ran| ran.operation.count > MAX_COUNT)
    }),
    ("page erase of an information page", |met| {
        met.any(PAGE_ERASE, 9, |ran| ran.operation.partition == INFORMATION)
    }),
    ("bank erase of data", |met| {
        met.any(BANK_ERASE, 9, |ran| ran.operation.partition == DATA)
    }),
    ("bank erase with information and no type", |met| {
        met.any(BANK_ERASE, 9, |ran| {
            ran.operation.partition == INFORMATION && ran.operation.info_type > 2
        })
    }),
    ("read of 1,024 words", |met| {
        met.any(READ, 0, |ran| ran.operation.count == MAX_COUNT)
    }),
    ("read of 1,025 words", |met| {
        met.any(READ, 5, |ran| ran.operation.count == MAX_COUNT + 1)
    }),
    ("read of no words", |met| {
        met.any(READ, 5, |ran| ran.operation.count == 0)
    }),
    ("read of the data's last word", |met| {
        met.any(READ, 0, |ran| end(&ran.operation) == DATA_END)
    }),
    ("read one word past the data's end", |met| {
        met.any(READ, 7, |ran| end(&ran.operation) == DATA_END + 4)
    }),
    ("read over the bank border", |met| {
        met.any(READ, 0, |ran| crosses(&ran.operation, BORDER))
    }),
    ("denied read over pages", |met| {
        met.any(READ, 9, |ran| ran.operation.count > 256)
    }),
    ("read of an information page", |met| {
        met.any(READ, 9, |ran| ran.operation.partition == INFORMATION)
    }),
    ("information page that is not there", |met| {
        met.ran(7, |o| {
            o.partition == INFORMATION && u64::from(o.address) < DATA_END
        })
    }),
    ("information type over 2", |met| {
        met.ran(5, |o| o.partition == INFORMATION && o.info_type > 2)
    }),
    ("data operation of a type over 2", |met| {
        met.ran(0, |o| o.info_type > 2)
    }),
    ("partition over 1", |met| met.ran(5, |o| o.partition > 1)),
    ("address that is no multiple of 4", |met| {
        met.ran(5, |o| !o.address.is_multiple_of(4) && o.kind <= BANK_ERASE)
    }),
    ("rights given and taken between rounds", |met| {
        let answers = |one: &Ran, other: &Ran| one.answer == 0 && other.answer == 9;
        let same = |one: &Ran, other: &Ran| one.operation == other.operation;
        met.block
            .iter()
            .any(|entry| matches!(entry, Entry::Repeat(2.., block) if gives(block)))
            && met.later(|one, other| same(one, other) && answers(one, other))
    }),
    ("sheet that prints nothing", |met| {
        met.ran.is_empty() && expanded(met.block) > 0
    }),
    ("repeat of nothing", |met| {
        met.block
            .iter()
            .any(|entry| matches!(entry, Entry::Repeat(_, block) if block.is_empty()))
    }),
    ("7 deep", |met| depth(met.block) == 7),
    ("8 deep", |met| depth(met.block) == 8),
    ("4,096 entries", |met| expanded(met.block) == 4_096),
    ("4,096 bytes", |met| met.sheet.len() == 4_096),
];

impl Met<'_> {
    /// An operation of this kind has this answer.
    fn any(&self, kind: u8, answer: u8, is: impl Fn(&Ran) -> bool) -> bool {
        let met = |ran: &Ran| ran.operation.kind == kind && ran.answer == answer && is(ran);
        self.ran.iter().any(met)
    }

    fn ran(&self, answer: u8, is: impl Fn(&Operation) -> bool) -> bool {
        let met = |ran: &Ran| ran.answer == answer && is(&ran.operation);
        self.ran.iter().any(met)
    }

    /// One operation and one of the next twenty.
    fn later(&self, is: impl Fn(&Ran, &Ran) -> bool) -> bool {
        let after = |place: usize| self.ran[place + 1..].iter().take(20);
        let mut each = self.ran.iter().enumerate();
        each.any(|(place, one)| after(place).any(|other| is(one, other)))
    }
}

/// The byte address past an operation's last word.
fn end(operation: &Operation) -> u64 {
    u64::from(operation.address) + 4 * u64::from(operation.count)
}

fn crosses(operation: &Operation, border: u64) -> bool {
    u64::from(operation.address) < border && end(operation) > border
}

/// An operation, and rights for its next round.
fn gives(block: &[Entry]) -> bool {
    let operation = block
        .iter()
        .position(|entry| matches!(entry, Entry::Operation(..)));
    let rights = block
        .iter()
        .rposition(|entry| matches!(entry, Entry::Rights(_)));
    operation
        .zip(rights)
        .is_some_and(|(operation, rights)| operation < rights)
}

fn depth(block: &[Entry]) -> u32 {
    let of = |entry: &Entry| match entry {
        Entry::Repeat(_, block) => 1 + depth(block),
        Entry::Operation(..) | Entry::Rights(_) => 0,
    };
    block.iter().map(of).max().unwrap_or(0)
}
