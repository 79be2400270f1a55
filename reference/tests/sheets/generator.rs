//! Random sheets that are good, or bad in one known way only.

use crate::draft::Draft;
use crate::rng::Rng;
use reference::model::{Operation, BANK_ERASE, MAX_COUNT, PAGE_ERASE, PROGRAM, READ};

const PAGE_BYTES: u32 = 1_024;
/// The first byte address past the data pages of a bench program.
pub const DATA_END: u32 = 0x8000;
/// Bank borders, page borders, the last words of the data and of the information types.
const EDGES: [u32; 12] = [
    0x3C, 0x40, 0x3FC, 0x400, 0x7FC, 0x800, 0x27FC, 0x2800, 0x3FFC, 0x4000, 0x7FC0, 0x7FFC,
];
/// Pages that are there or not, by the information type.
const PAGES: [u32; 12] = [0, 1, 2, 3, 9, 10, 15, 16, 17, 26, 30, 31];
/// More would be slow for the second program, which judges the state at each step.
const MOST_WORDS: u32 = 6_000;
/// Entries 1 and 3 after expansion, of a sheet that is not to be at that limit.
const MOST_RUN: u32 = 400;
const LONGEST: usize = 3_000;
const DEEPEST: u32 = 8;

pub struct Generator<'a> {
    rng: &'a mut Rng,
    draft: Draft,
    /// Where most operations go, so that they meet each other's words.
    pages: [u32; 2],
    entries_left: u32,
    words_left: u32,
}

impl<'a> Generator<'a> {
    pub fn new(rng: &'a mut Rng) -> Self {
        let pages = [rng.pick(&PAGES), rng.pick(&PAGES)];
        Generator {
            rng,
            draft: Draft::default(),
            pages,
            entries_left: MOST_RUN,
            words_left: MOST_WORDS,
        }
    }

    /// Entries of every kind, repeats within repeats.
    pub fn mixed(mut self) -> Draft {
        if self.rng.percent(85) {
            self.draft.rights(7);
        }
        self.entries(0, 1);
        self.ended()
    }

    /// So many entries 1 and 3 after expansion.
    pub fn expanding_to(mut self, expanded: u32) -> Draft {
        let mut left = expanded;
        while left > 0 {
            left -= self.repeated_part(left);
        }
        self.ended()
    }

    /// So many bytes, some hundreds more than `LONGEST`.
    pub fn of_length(mut self, bytes: usize) -> Draft {
        while self.draft.bytes.len() + 200 < bytes {
            self.entry(0, 1);
        }
        if (bytes - self.draft.bytes.len()).is_multiple_of(2) {
            self.empty_repeat();
        }
        while self.draft.bytes.len() + 1 < bytes {
            let rights = self.rights();
            self.draft.rights(rights);
        }
        self.ended()
    }

    /// Repeats so deep, around an operation or around nothing; the place of the ninth one's tag.
    pub fn nested(mut self, depth: u32) -> (Draft, Option<usize>) {
        let mut ninth = None;
        for level in 0..depth {
            if self.rng.percent(20) {
                self.draft.rights(7);
            }
            if level == DEEPEST {
                ninth = Some(self.draft.bytes.len());
            }
            let count = self.rng.pick(&[1, 2]);
            self.draft.begin_repeat(count);
        }
        if self.rng.percent(70) {
            self.cheap_entry();
        }
        self.end_repeats(depth);
        (self.ended(), ninth)
    }

    /// Repeats of nothing, many and deep, beside a few operations.
    pub fn hollow(mut self) -> Draft {
        for _ in 0..self.rng.between(1, 4) {
            let depth = self.rng.between(1, DEEPEST);
            for _ in 0..depth {
                let count = self.rng.between(1, 255) as u8;
                self.draft.begin_repeat(count);
            }
            self.end_repeats(depth);
            self.entry(0, 1);
        }
        self.ended()
    }

    /// Repeats of 128, with as many entries that a count of 16, 32 or 64 bits comes back to 0.
    pub fn wrapping(mut self) -> Draft {
        let (depth, entries) = self.rng.pick(&[(2, 4), (4, 16), (8, 256)]);
        (0..depth).for_each(|_| self.draft.begin_repeat(128));
        (0..entries).for_each(|_| self.draft.rights(7));
        self.end_repeats(depth);
        self.ended()
    }

    fn end_repeats(&mut self, depth: u32) {
        (0..depth).for_each(|_| self.draft.end());
    }

    fn ended(mut self) -> Draft {
        self.draft.end();
        self.draft
    }

    fn entries(&mut self, depth: u32, times: u32) {
        for _ in 0..self.rng.between(1, 14) {
            if self.draft.bytes.len() < LONGEST {
                self.entry(depth, times);
            }
        }
    }

    /// An entry that is run so many times.
    fn entry(&mut self, depth: u32, times: u32) {
        match self.rng.weighted(&[76, 10, 12, 2]) {
            1 => self.rights_entry(times),
            2 if depth < DEEPEST => self.repeat(depth + 1, times),
            3 if depth < DEEPEST => self.empty_repeat(),
            _ => self.operation_entry(times),
        }
    }

    fn repeat(&mut self, depth: u32, times: u32) {
        let count = [1, 2, 3, 7, 20][self.rng.weighted(&[10, 40, 30, 15, 5])];
        self.draft.begin_repeat(count);
        self.entries(depth, times.saturating_mul(count.into()));
        self.draft.end();
    }

    fn empty_repeat(&mut self) {
        self.draft.begin_repeat(1);
        self.draft.end();
    }

    fn rights_entry(&mut self, times: u32) {
        if times <= self.entries_left {
            self.entries_left -= times;
            let rights = self.rights();
            self.draft.rights(rights);
        }
    }

    fn rights(&mut self) -> u8 {
        let any = self.rng.below(8) as u8;
        [7, any][self.rng.weighted(&[60, 40])]
    }

    fn operation_entry(&mut self, times: u32) {
        let operation = self.operation();
        let words = words(&operation).saturating_mul(times);
        if times <= self.entries_left && words <= self.words_left {
            self.entries_left -= times;
            self.words_left -= words;
            self.write(&operation);
        }
    }

    fn write(&mut self, operation: &Operation) {
        let words = self.rng.flash_words(16);
        self.draft.operation(operation, &words);
    }

    /// A repeat in a repeat, of few entries; how many they are after expansion.
    fn repeated_part(&mut self, left: u32) -> u32 {
        let outer = self.rng.between(1, left.min(255));
        let inner = self.rng.between(1, (left / outer).min(255));
        let entries = self.rng.between(1, (left / outer / inner).min(5));
        self.draft.begin_repeat(outer as u8);
        self.draft.begin_repeat(inner as u8);
        (0..entries).for_each(|_| self.cheap_entry());
        self.end_repeats(2);
        outer * inner * entries
    }

    /// Rights, or an operation of one word.
    fn cheap_entry(&mut self) {
        if self.rng.percent(30) {
            self.draft.rights(7);
            return;
        }
        let operation = Operation {
            kind: self.rng.pick(&[READ, PROGRAM, BANK_ERASE, 4]),
            address: self.address(),
            count: 1,
            ..Operation::default()
        };
        self.write(&operation);
    }

    fn operation(&mut self) -> Operation {
        let no_kind = self.rng.between(4, 255) as u8;
        let kinds = [READ, PROGRAM, PAGE_ERASE, BANK_ERASE, no_kind];
        let kind = kinds[self.rng.weighted(&[28, 42, 20, 5, 5])];
        let no_partition = self.rng.between(2, 255) as u8;
        let no_type = self.rng.between(3, 255) as u8;
        let address = self.address();
        Operation {
            kind,
            partition: [0, 1, no_partition][self.rng.weighted(&[82, 15, 3])],
            info_type: [0, 1, 2, no_type][self.rng.weighted(&[60, 15, 15, 10])],
            address,
            count: self.count(kind, address),
        }
    }

    fn address(&mut self) -> u32 {
        let page = self.rng.pick(&self.pages);
        let hot = page * PAGE_BYTES + 4 * self.rng.below(24);
        match self.rng.weighted(&[70, 12, 8, 5, 5]) {
            0 => hot,
            1 => self.rng.pick(&EDGES),
            2 => 4 * self.rng.below(DATA_END / 4),
            3 => hot + self.rng.between(1, 3),
            _ => self
                .rng
                .pick(&[DATA_END, DATA_END + 4, 1 << 16, u32::MAX - 3, u32::MAX]),
        }
    }

    fn count(&mut self, kind: u8, address: u32) -> u32 {
        match kind {
            PROGRAM => self.program_count(address),
            READ => self.read_count(address),
            _ => self.rng.pick(&[0, 1, 2, 16, 17, 1_024, 1_025, u32::MAX]),
        }
    }

    fn program_count(&mut self, address: u32) -> u32 {
        let to_window_end = 16 - address % 64 / 4;
        match self.rng.weighted(&[64, 8, 10, 10, 4, 4]) {
            0 => self.rng.between(1, to_window_end),
            1 => to_window_end,
            2 => self.rng.between(1, 16),
            3 => self.rng.pick(&[0, 16, 17, 18]),
            4 => MAX_COUNT + self.rng.below(2),
            _ => self.rng.pick(&[100, 10_000, u32::MAX]),
        }
    }

    fn read_count(&mut self, address: u32) -> u32 {
        let to_the_end = DATA_END.saturating_sub(address) / 4;
        match self.rng.weighted(&[64, 12, 12, 6, 6]) {
            0 => self.rng.between(1, 20),
            1 => self.rng.between(200, 700),
            2 => to_the_end.min(300) + self.rng.below(2),
            3 => MAX_COUNT + self.rng.below(2),
            _ => self.rng.pick(&[0, 100_000, u32::MAX]),
        }
    }
}

/// How many words an operation moves, at the most.
fn words(operation: &Operation) -> u32 {
    match operation.kind {
        READ | PROGRAM => operation.count.min(MAX_COUNT),
        PAGE_ERASE => PAGE_BYTES / 4,
        _ => 0,
    }
}
