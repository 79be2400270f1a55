//! The work of a row, and how a program does it.

use crate::programs::Program;
use reference::interface::flat;
use reference::model::{
    self, Operation, Region, ALL_RIGHTS, BANKS, BANK_ERASE, DATA, DENIED, INFORMATION, NONE, ONES,
    PAGE_BYTES, PAGE_ERASE, PROGRAM, READ, RIGHT_READ, WORD_BYTES,
};
use std::time::{Duration, Instant};

#[derive(Clone, Copy)]
pub enum By {
    /// Start, then for every word a step, with its push or pop.
    Parts,
    Whole,
    /// One word, without an operation.
    HostRead,
    /// Start, then for every word a round with a step alone.
    LoneRounds,
    /// Start, then rounds in which the host asks for the same bank.
    Contests,
    /// Start, then for every word a round in which the host asks for the other bank.
    SharedRounds,
}

/// Where a row's operation is done.
#[derive(Clone, Copy, PartialEq, Eq)]
pub enum At {
    /// At every place of the data pages in turn.
    EveryPlace,
    /// With half of its words in each bank, again and again.
    Border,
    /// With its second half denied, again and again.
    DeniedHalf,
}

/// What a row's time is divided by.
#[derive(Clone, Copy, PartialEq, Eq)]
pub enum Per {
    Word,
    Call,
}

/// A row of the table: one operation, done at several places or at one several times.
pub struct Work {
    pub name: &'static str,
    pub by: By,
    pub per: Per,
    pub data_pages: u32,
    pub at: At,
    pub operation: Operation,
}

impl Work {
    /// Bus words that one operation moves.
    pub fn words(&self) -> u64 {
        model::words_to_move(self.data_pages, &self.operation)
    }

    /// The calls of one operation; its start, pushes and pops are not counted.
    pub fn calls(&self) -> u64 {
        match self.by {
            By::Whole | By::HostRead => 1,
            By::Parts | By::LoneRounds | By::SharedRounds => self.words(),
            By::Contests => ROUNDS_PER_WORD * self.words(),
        }
    }

    /// The byte addresses at which the operation is done, one after the other.
    pub fn addresses(&self) -> Vec<u32> {
        match self.at {
            At::EveryPlace => self.every_place(),
            At::Border => vec![self.bank_bytes() - self.bytes() / 2; TIMES],
            At::DeniedHalf => vec![0; TIMES],
        }
    }

    fn every_place(&self) -> Vec<u32> {
        let stride = match self.operation.kind {
            BANK_ERASE => self.bank_bytes(),
            _ => self.bytes(),
        };
        let places = BANKS as u32 * self.bank_bytes() / stride;
        (0..places).map(|i| i * stride).collect()
    }

    /// The bytes of one operation's words.
    fn bytes(&self) -> u32 {
        (self.words() * WORD_BYTES) as u32
    }

    /// The byte addresses of one bank.
    fn bank_bytes(&self) -> u32 {
        self.data_pages * PAGE_BYTES as u32
    }

    /// The same place in the other bank.
    fn in_other_bank(&self, address: u32) -> u32 {
        (address + self.bank_bytes()) % (BANKS as u32 * self.bank_bytes())
    }

    /// The region that denies a part of the operation, if one does.
    pub fn denying_region(&self) -> Option<Region> {
        let half = self.bytes() / 2 / PAGE_BYTES as u32;
        (self.at == At::DeniedHalf).then_some(Region {
            on: true,
            first_page: half,
            page_count: half,
            rights: ALL_RIGHTS & !RIGHT_READ,
        })
    }

    /// What every call of the row answers.
    fn answer(&self) -> u32 {
        match self.at {
            At::EveryPlace | At::Border => NONE.into(),
            At::DeniedHalf => DENIED.into(),
        }
    }
}

/// The host wins five, then a word moves.
const ROUNDS_PER_WORD: u64 = 6;
/// How often an operation is done that has one place.
const TIMES: usize = 32;

type Line = (&'static str, By, u8, u8, u32);

/// Parts and whole operations by the word.
const BY_WORD: [Line; 9] = [
    (
        "read of 1,024 words: start, step, pop",
        By::Parts,
        READ,
        DATA,
        1_024,
    ),
    (
        "program of 16 words: start, push, step",
        By::Parts,
        PROGRAM,
        DATA,
        16,
    ),
    ("page erase: start, step", By::Parts, PAGE_ERASE, DATA, 0),
    ("whole read of 256 words", By::Whole, READ, DATA, 256),
    ("whole read of 1,024 words", By::Whole, READ, DATA, 1_024),
    ("whole program of 16 words", By::Whole, PROGRAM, DATA, 16),
    ("whole page erase", By::Whole, PAGE_ERASE, DATA, 0),
    ("whole bank erase, data", By::Whole, BANK_ERASE, DATA, 0),
    (
        "whole bank erase with information",
        By::Whole,
        BANK_ERASE,
        INFORMATION,
        0,
    ),
];

/// The words lie half in each bank.
const BOTH_BANKS: [Line; 1] = [(
    "whole read of 1,024 words, both banks",
    By::Whole,
    READ,
    DATA,
    1_024,
)];

/// The second half of the words is denied.
const HALF_DENIED: [Line; 1] = [(
    "whole read of 1,024 words, half denied",
    By::Whole,
    READ,
    DATA,
    1_024,
)];

/// The calls of one word; a start is a 4,096th, a 1,024th or a 16th of them.
const WORD_CALLS: [Line; 3] = [
    ("erase step", By::Parts, BANK_ERASE, DATA, 0),
    ("step + pop", By::Parts, READ, DATA, 1_024),
    ("push + step, 1/16 of a start", By::Parts, PROGRAM, DATA, 16),
];

const CALLS: [Line; 11] = [
    ("host read", By::HostRead, READ, DATA, 1),
    ("round, step alone", By::LoneRounds, BANK_ERASE, DATA, 0),
    (
        "round, host and step in one bank",
        By::Contests,
        BANK_ERASE,
        DATA,
        0,
    ),
    (
        "round, host and step in two banks",
        By::SharedRounds,
        BANK_ERASE,
        DATA,
        0,
    ),
    ("whole read of 1 word", By::Whole, READ, DATA, 1),
    ("whole read of 16 words", By::Whole, READ, DATA, 16),
    ("whole read of 256 words", By::Whole, READ, DATA, 256),
    ("whole read of 1,024 words", By::Whole, READ, DATA, 1_024),
    ("whole program of 1 word", By::Whole, PROGRAM, DATA, 1),
    ("whole program of 16 words", By::Whole, PROGRAM, DATA, 16),
    ("whole page erase", By::Whole, PAGE_ERASE, DATA, 0),
];

pub fn rows() -> Vec<Work> {
    let tables = [
        (Per::Word, 16, At::EveryPlace, &BY_WORD[..]),
        (Per::Word, 16, At::Border, &BOTH_BANKS[..]),
        (Per::Word, 16, At::DeniedHalf, &HALF_DENIED[..]),
        (Per::Word, 256, At::EveryPlace, &BY_WORD[..]),
        (Per::Word, 256, At::Border, &BOTH_BANKS[..]),
        (Per::Word, 16, At::EveryPlace, &WORD_CALLS[..]),
        (Per::Call, 16, At::EveryPlace, &CALLS[..]),
    ];
    let row = |per, data_pages, at, (name, by, kind, partition, count): Line| Work {
        name,
        by,
        per,
        data_pages,
        at,
        operation: Operation {
            kind,
            partition,
            count,
            ..Operation::default()
        },
    };
    tables
        .iter()
        .flat_map(|&(per, d, at, table)| table.iter().map(move |&line| row(per, d, at, line)))
        .collect()
}

// -- lent memory --------------------------------------------------------------------

/// Every operation has its own part of the buffer.
#[derive(Clone, PartialEq)]
pub struct Memory {
    pub image: Vec<u32>,
    buffer: Vec<u32>,
}

/// The word at a place.
type Fill = fn(u32) -> u32;

/// As the notes say it stands before a round.
pub fn memory(work: &Work) -> Memory {
    let (flash, buffered): (Fill, Fill) = match work.operation.kind {
        READ => (mixed, |_| 0),
        PROGRAM => (|_| ONES, mixed),
        _ => (|_| 0, mixed),
    };
    let image_words = model::image_words(work.data_pages) as u32;
    let buffer_words = work.operation.count * work.addresses().len() as u32;
    Memory {
        image: (0..image_words).map(flash).collect(),
        buffer: (0..buffer_words).map(buffered).collect(),
    }
}

/// A word of ones and zeros, another at each place.
fn mixed(place: u32) -> u32 {
    (place + 1).wrapping_mul(0x9E37_79B9)
}

// -- doing the work -----------------------------------------------------------------

/// What an operation told: refusals are 0 if none was.
#[derive(Clone, Copy, Default, PartialEq, Eq, Debug)]
pub struct Told {
    refusals: u32,
    bits: u32,
    /// The step or round that told it finished; 0 of a whole operation.
    finished_at: u64,
    /// The sum of the words that rounds gave the host.
    host_words: u32,
}

fn in_parts(
    program: &mut impl Program,
    operation: Operation,
    words: u64,
    image: &mut [u32],
    buffer: &mut [u32],
) -> Told {
    let mut told = Told {
        refusals: program.start(operation),
        ..Told::default()
    };
    for moved in 1..=words {
        let place = moved as usize - 1;
        if operation.kind == PROGRAM {
            told.refusals |= program.push(buffer[place]);
        }
        let (answer, finished, bits) = program.step(image);
        told.refusals |= answer;
        told.bits += bits;
        if finished {
            told.finished_at = moved;
        }
        if operation.kind == READ {
            let (answer, word) = program.pop();
            told.refusals |= answer;
            buffer[place] = word;
        }
    }
    told
}

fn whole(
    program: &mut impl Program,
    operation: Operation,
    image: &mut [u32],
    buffer: &mut [u32],
) -> Told {
    let (refusals, bits) = program.whole(operation, image, buffer);
    Told {
        refusals,
        bits,
        ..Told::default()
    }
}

fn host_read(program: &impl Program, address: u32, image: &[u32], buffer: &mut [u32]) -> Told {
    let (refusals, word) = program.host_read(image, address);
    buffer[0] = word;
    Told {
        refusals,
        ..Told::default()
    }
}

fn in_rounds(
    program: &mut impl Program,
    operation: Operation,
    host: Option<u32>,
    rounds: u64,
    image: &mut [u32],
) -> Told {
    let mut told = Told {
        refusals: program.start(operation),
        ..Told::default()
    };
    for round in 1..=rounds {
        let given = program.round(image, host);
        told.refusals |= given.host_answer | given.step_answer;
        told.bits += given.bits;
        told.host_words = told.host_words.wrapping_add(given.word);
        if given.movement == flat::MOVEMENT_FINISHED {
            told.finished_at = round;
        }
    }
    told
}

/// All that a program told and left behind.
#[derive(PartialEq)]
pub struct Left {
    pub told: Vec<Told>,
    memory: Memory,
    state: flat::Controller,
}

/// The time of the operations alone; what they need is made ready before, and
/// they are done once untimed, so that every program's code is warm.
pub fn timed(program: impl Program, work: &Work, memory: &Memory) -> (Duration, Left) {
    done(program.clone(), work, memory.clone());
    done(program, work, memory.clone())
}

fn done(mut program: impl Program, work: &Work, mut memory: Memory) -> (Duration, Left) {
    let calls = work.calls();
    let addresses = work.addresses();
    let mut told = Vec::with_capacity(addresses.len());
    let image = &mut memory.image[..];
    let mut unused = &mut memory.buffer[..];
    let begun = Instant::now();
    for address in addresses {
        let operation = Operation {
            address,
            ..work.operation
        };
        let (buffer, rest) = unused.split_at_mut(operation.count as usize);
        unused = rest;
        told.push(match work.by {
            By::Parts => in_parts(&mut program, operation, calls, image, buffer),
            By::Whole => whole(&mut program, operation, image, buffer),
            By::HostRead => host_read(&program, address, image, buffer),
            By::LoneRounds => in_rounds(&mut program, operation, None, calls, image),
            By::Contests => in_rounds(&mut program, operation, Some(address), calls, image),
            By::SharedRounds => {
                let host = work.in_other_bank(address);
                in_rounds(&mut program, operation, Some(host), calls, image)
            }
        });
    }
    let time = begun.elapsed();
    let state = program.state();
    (
        time,
        Left {
            told,
            memory,
            state,
        },
    )
}

/// All answered as they should, parts and rounds finished with the last word, and an erase of zeros changed every bit.
pub fn assert_all_done(work: &Work, told: &[Told]) {
    let finished_at = match work.by {
        By::Parts | By::LoneRounds | By::Contests | By::SharedRounds => work.calls(),
        By::Whole | By::HostRead => 0,
    };
    let erases = matches!(work.operation.kind, PAGE_ERASE | BANK_ERASE);
    for told in told {
        assert_eq!(
            (told.refusals, told.finished_at),
            (work.answer(), finished_at)
        );
        assert!(!erases || u64::from(told.bits) == 32 * work.words());
    }
}
