//! A good sheet's operations, one after the other on one bench.

use super::entries::Entry;
use super::judge::expanded;
use crate::model::{
    image_words, initialise, reset, set_default_rights, whole, Controller, Operation, MAX_COUNT,
    NONE, ONES,
};
use std::fmt::{Display, Formatter, Result};

/// D of a bench program.
const DATA_PAGES: u32 = 16;

/// An operation that was run, and what its line tells.
#[derive(Clone, Copy, Debug, PartialEq, Eq)]
pub struct Ran {
    pub operation: Operation,
    pub answer: u8,
    pub bits: u32,
}

impl Display for Ran {
    fn fmt(&self, text: &mut Formatter) -> Result {
        write!(text, "{} {}", self.answer, self.bits)
    }
}

/// Runs the block of a good sheet, from ready and flash of all ones.
pub(super) fn run(block: &[Entry]) -> Vec<Ran> {
    let mut bench = Bench::ready();
    bench.run(block);
    bench.ran
}

struct Bench {
    controller: Controller,
    image: Vec<u32>,
    ran: Vec<Ran>,
}

impl Bench {
    fn ready() -> Self {
        let mut controller = Controller::default();
        let image = vec![ONES; image_words(DATA_PAGES) as usize];
        assert_eq!(reset(&mut controller, DATA_PAGES), NONE);
        assert_eq!(initialise(&mut controller, &image).refusal, NONE);
        Bench {
            controller,
            image,
            ran: Vec::new(),
        }
    }

    fn run(&mut self, block: &[Entry]) {
        for entry in block {
            match entry {
                Entry::Operation(operation, words) => self.operate(*operation, words),
                Entry::Repeat(count, inner) => self.repeat(*count, inner),
                Entry::Rights(rights) => self.give(*rights),
            }
        }
    }

    /// The buffer has room for the longest read; a program that carries no words finds zeros.
    fn operate(&mut self, operation: Operation, words: &[u32]) {
        let mut buffer = vec![0; MAX_COUNT as usize];
        buffer[..words.len()].copy_from_slice(words);
        let (controller, image) = (&mut self.controller, &mut self.image);
        let done = whole(controller, operation, image, &mut buffer);
        self.ran.push(Ran {
            operation,
            answer: done.refusal,
            bits: done.bits,
        });
    }

    /// A block that runs nothing is passed over: its repeats may be 255^8.
    fn repeat(&mut self, count: u8, block: &[Entry]) {
        if expanded(block) == 0 {
            return;
        }
        for _ in 0..count {
            self.run(block);
        }
    }

    fn give(&mut self, rights: u8) {
        assert_eq!(set_default_rights(&mut self.controller, rights), NONE);
    }
}
