//! Arguments of calls: mostly sensible and near a border, sometimes nonsense.

use crate::calls::AskedInRound;
use crate::layout::{
    bank, beside_the_border, next_address, pages_of_type, words_to_move, DATA_PAGES, INFO_PAGES,
    MOST_WORDS, PAGE_BYTES, PAGE_WORDS, WORD_BYTES,
};
use crate::pages::{denier, rights};
use crate::rng::Rng;
use reference::interface::{flat, from_reference};
use reference::model::Controller;
use std::ops::Range;

/// Of a hundred operations, so many are reads over a denied page, if there is one.
const READS_OVER_A_DENIED_PAGE: u32 = 8;
/// And so many are data reads at the bank border.
const READS_AT_THE_BORDER: u32 = 3;

/// Draws arguments that suit a state.
pub struct Arguments<'a> {
    pub rng: &'a mut Rng,
    pub state: &'a Controller,
}

impl Arguments<'_> {
    /// D, also of a broken state.
    fn data_pages(&self) -> u32 {
        self.state.data_pages.clamp(1, 0x10_0000)
    }

    // -- settings ------------------------------------------------------------

    /// A flag argument is true at any other number than 0.
    pub fn flag(&mut self) -> u32 {
        self.rng
            .pick(&[0, 0, 0, 0, 1, 1, 1, 1, 2, 255, 256, 1 << 31])
    }

    /// Over 255, often with the low bits of a small number, which they must not be taken for.
    fn large(&mut self) -> u32 {
        let small = self.rng.below(8);
        match self.rng.below(4) {
            0 => 256 + small,
            1 => (1 << self.rng.between(8, 31)) + small,
            2 => self.rng.pick(&[300, 511, 1 << 16, 1 << 31, u32::MAX]),
            _ => self.rng.word().max(256),
        }
    }

    /// Often all rights or all but one.
    pub fn rights(&mut self) -> u32 {
        match self.rng.below(40) {
            0 => self.rng.pick(&[8, 9, 15, 128, 255]),
            1 => self.large(),
            2..=13 => 7,
            14..=19 => 7 ^ self.rng.pick(&[1, 2, 4]),
            _ => self.rng.below(8),
        }
    }

    pub fn region_number(&mut self) -> u32 {
        match self.rng.below(16) {
            0 => self.rng.pick(&[8, 9, 16, 256, u32::MAX]),
            _ => self.rng.below(8),
        }
    }

    /// Overlapping regions of any length, often ending or beginning at a border.
    pub fn region(&mut self) -> flat::Region {
        let pages = 2 * self.data_pages();
        let first_page = match self.rng.below(4) {
            0 => self.border_page(),
            _ => self.rng.below(pages + 1),
        };
        let room = pages.saturating_sub(first_page);
        let page_count = match self.rng.below(12) {
            0 => room,
            1 => room + 1,
            2 => self.rng.pick(&[0, u32::MAX, first_page.wrapping_neg()]),
            3..=7 => room.min(self.rng.between(1, 4)),
            _ => self.rng.below(room + 1),
        };
        flat::Region {
            first_page,
            page_count,
            on: self.flag(),
            rights: self.rights(),
        }
    }

    pub fn info_setting(&mut self) -> flat::PageSetting {
        flat::PageSetting {
            on: self.flag(),
            rights: self.rights(),
        }
    }

    pub fn bank(&mut self) -> u32 {
        match self.rng.below(16) {
            0 => self.rng.pick(&[2, 3, u32::MAX]),
            _ => self.rng.below(2),
        }
    }

    pub fn info_type(&mut self) -> u32 {
        match self.rng.below(48) {
            0 => self.rng.pick(&[3, 4, 255]),
            1 => self.large(),
            2..=11 => 1,
            12..=23 => 2,
            _ => 0,
        }
    }

    /// A page number in a type: also the first past its last.
    pub fn page_of_type(&mut self, info_type: u32) -> u32 {
        let pages = pages_of_type(info_type);
        match self.rng.below(16) {
            0 => pages,
            1 => self.rng.pick(&[pages + 1, INFO_PAGES, u32::MAX]),
            _ => self.rng.below(pages),
        }
    }

    // -- pages and addresses -------------------------------------------------

    /// A data page: of a region's or bank's border, or held by a region, else any; rarely past the last.
    pub fn data_page(&mut self) -> u32 {
        match self.rng.below(14) {
            0..=3 => self.border_page(),
            4 => 2 * self.data_pages(),
            5..=8 => self.held_page(),
            _ => self.rng.below(2 * self.data_pages()),
        }
    }

    /// A page of a region that is on, if it holds one; else any.
    fn held_page(&mut self) -> u32 {
        let pages = 2 * self.data_pages();
        let region = self.state.regions[self.rng.below(8) as usize];
        let count = region.page_count.min(pages);
        if !region.on || count == 0 {
            return self.rng.below(pages);
        }
        let page = region.first_page.saturating_add(self.rng.below(count));
        page.min(pages)
    }

    fn border_page(&mut self) -> u32 {
        let d = self.data_pages();
        let region = self.state.regions[self.rng.below(8) as usize];
        let end = region.first_page.saturating_add(region.page_count);
        let border = self.rng.pick(&[
            0,
            1,
            d - 1,
            d,
            2 * d - 1,
            region.first_page,
            region.first_page.saturating_sub(1),
            end,
            end.saturating_sub(1),
        ]);
        border.min(2 * d)
    }

    /// A page of the address space that holds information pages of a type, or is next to them.
    fn info_page(&mut self, info_type: u32) -> u32 {
        let bank = self.rng.below(2) * self.data_pages();
        let page = match self.rng.below(8) {
            0 => self.data_pages() - 1,
            1 => self.rng.below(self.data_pages()),
            2 => pages_of_type(info_type) - 1,
            _ => self.page_of_type(info_type).min(self.data_pages()),
        };
        bank + page
    }

    /// The offset of a word in its page, often beside the end of a window or of the page.
    fn offset(&mut self) -> u32 {
        let window = 64 * self.rng.below(16);
        match self.rng.below(7) {
            0 => 0,
            1 | 2 => PAGE_BYTES - 4 * self.rng.between(1, 4),
            3 => window,
            4 => window + 64 - 4 * self.rng.between(1, 3),
            _ => 4 * self.rng.below(PAGE_WORDS),
        }
    }

    /// Rarely spoiled: unaligned, or far outside.
    fn address(&mut self, page: u32) -> u32 {
        let address = page
            .saturating_mul(PAGE_BYTES)
            .saturating_add(self.offset());
        match self.rng.below(40) {
            0 => address | self.rng.between(1, 3),
            1 => self.rng.word(),
            2 => u32::MAX - self.rng.below(8),
            3 => u32::MAX - 4 * self.rng.below(300) - 3,
            _ => address,
        }
    }

    pub fn host_address(&mut self) -> u32 {
        let page = self.data_page();
        self.address(page)
    }

    /// Each side asks in most cases.
    pub fn round(&mut self) -> AskedInRound {
        AskedInRound {
            host_asks: self.flag() | u32::from(self.rng.percent(60)),
            host_address: self.round_address(),
            step_asks: self.flag() | u32::from(self.rng.percent(60)),
        }
    }

    /// In 2 of 3 in the bank of the next word, so that the host and the step compete.
    fn round_address(&mut self) -> u32 {
        let address = self.host_address();
        let progress = from_reference(self.state).progress;
        if progress.running == 0 || self.rng.below(3) == 0 {
            return address;
        }
        let bank_bytes = self.data_pages() * PAGE_BYTES;
        let bank = bank(self.data_pages(), next_address(&progress)) as u32;
        bank * bank_bytes + address % bank_bytes
    }

    pub fn view_page(&mut self) -> u32 {
        match self.rng.below(16) {
            0 => self.rng.pick(&[u32::MAX, 1 << 22, 1 << 30, 4096, 513]),
            _ => self.data_page(),
        }
    }

    // -- operations ----------------------------------------------------------

    pub fn operation(&mut self) -> flat::Operation {
        let read = if self.rng.percent(READS_OVER_A_DENIED_PAGE) {
            self.read_over_a_denied_page()
        } else if self.rng.percent(READS_AT_THE_BORDER) {
            Some(self.read_at_the_border())
        } else {
            None
        };
        read.unwrap_or_else(|| self.any_operation())
    }

    /// A data read that ends at the bank border, begins at it or runs over it.
    fn read_at_the_border(&mut self) -> flat::Operation {
        let border = self.data_pages() * PAGE_WORDS;
        let (before, past) = match self.rng.below(6) {
            0 => (self.words_beside_the_border(), 0),
            1 => (0, self.words_beside_the_border()),
            _ => (
                self.words_beside_the_border(),
                self.words_beside_the_border(),
            ),
        };
        flat::Operation {
            address: border.saturating_sub(before) * WORD_BYTES,
            count: before + past,
            kind: flat::READ,
            ..flat::Operation::default()
        }
    }

    /// Mostly few, at most half of the longest read.
    fn words_beside_the_border(&mut self) -> u32 {
        let few = self.rng.between(1, 6);
        match self.rng.below(12) {
            0 => PAGE_WORDS,
            1 => PAGE_WORDS + few,
            2 => MOST_WORDS / 2,
            _ => few,
        }
    }

    /// A read of up to five pages whose first denied one is at any place among
    /// them; None if no page is denied.
    pub fn read_over_a_denied_page(&mut self) -> Option<flat::Operation> {
        let read = flat::Operation {
            kind: flat::READ,
            partition: self.rng.below(2),
            info_type: self.rng.pick(&[0, 0, 2]),
            ..flat::Operation::default()
        };
        let pages = self.pages_beside(&read)?;
        let c = from_reference(self.state);
        let denied: Vec<bool> = pages
            .clone()
            .map(|page| denier(&c, &read, page).is_some())
            .collect();
        let place = self.denied_place(&denied)?;
        let allowed = denied[..place].iter().rev().take_while(|denied| !**denied);
        let before = allowed.count().min(self.rng.weighted(&[1, 10, 5, 5, 5]));
        let after = self.rng.weighted(&[10, 4, 2, 1, 1]);
        let page = |place: usize| pages.start + place.min(denied.len() - 1) as u32;
        Some(self.read_of_pages(read, page(place - before), page(place), page(place + after)))
    }

    /// The place of a denied page, mostly of one after an allowed page.
    fn denied_place(&mut self, denied: &[bool]) -> Option<usize> {
        let all = (0..denied.len()).filter(|&place| denied[place]);
        let all: Vec<usize> = all.collect();
        let after_allowed = |&place: &usize| place > 0 && !denied[place - 1];
        let seams: Vec<usize> = all.iter().copied().filter(after_allowed).collect();
        let list = if seams.is_empty() || self.rng.percent(10) {
            all
        } else {
            seams
        };
        (!list.is_empty()).then(|| self.rng.pick(&list))
    }

    /// A read from the first page on that reaches the second and, if it has words enough, the last.
    fn read_of_pages(
        &mut self,
        read: flat::Operation,
        first: u32,
        reached: u32,
        last: u32,
    ) -> flat::Operation {
        let least = (reached * PAGE_WORDS + 1).saturating_sub(MOST_WORDS);
        let begin = (first * PAGE_WORDS + self.first_word_of_span()).max(least);
        let end = (last * PAGE_WORDS + self.rng.between(1, 8)).max(begin + 1);
        flat::Operation {
            address: begin * WORD_BYTES,
            count: (end - begin).min(MOST_WORDS),
            ..read
        }
    }

    /// The pages, one beside the other, that a read of this partition and type can have, or those of the bank border.
    fn pages_beside(&mut self, read: &flat::Operation) -> Option<Range<u32>> {
        let d = self.state.data_pages;
        if !DATA_PAGES.contains(&d) {
            return None;
        }
        Some(match read.partition {
            flat::DATA if self.rng.percent(50) => beside_the_border(d),
            flat::DATA => 0..2 * d,
            _ => {
                let bank = self.rng.below(2) * d;
                bank..bank + pages_of_type(read.info_type)
            }
        })
    }

    /// The place of a word in its page, mostly one of the last.
    fn first_word_of_span(&mut self) -> u32 {
        match self.rng.below(6) {
            0 => 0,
            1 => self.rng.below(PAGE_WORDS),
            _ => PAGE_WORDS - self.rng.between(1, 8),
        }
    }

    fn any_operation(&mut self) -> flat::Operation {
        let kind = match self.rng.weighted(&[36, 36, 16, 8, 2, 1]) {
            4 => self.rng.pick(&[4, 5, 9, 128, 255]),
            5 => self.large(),
            known => known as u32,
        };
        let partition = match self.rng.weighted(&[58, 40, 1, 1]) {
            2 => self.rng.pick(&[2, 3, 255]),
            3 => self.large(),
            known => known as u32,
        };
        let info_type = self.info_type();
        let page = match partition {
            flat::INFORMATION => self.info_page(info_type),
            _ => self.data_page(),
        };
        let address = self.address(page);
        flat::Operation {
            address,
            count: self.count(kind, address),
            kind,
            partition,
            info_type,
        }
    }

    fn count(&mut self, kind: u32, address: u32) -> u32 {
        if self.rng.percent(4) {
            return self.rng.pick(&[
                0,
                1025,
                2048,
                u32::MAX,
                1 << 30,
                (1 << 30) + 1,
                1 << 16,
                0x1_0001,
            ]);
        }
        match kind {
            flat::READ => self.read_count(address),
            flat::PROGRAM => self.program_count(address),
            _ => self.rng.word(),
        }
    }

    /// Long reads are rare: the second program judges each of their words at each call.
    fn read_count(&mut self, address: u32) -> u32 {
        let to_page_end = PAGE_WORDS - address / 4 % PAGE_WORDS;
        match self.rng.weighted(&[50, 20, 24, 4, 2]) {
            0 => self.rng.between(1, 20),
            1 => self.rng.pick(&[15, 16, 17, 32, 33]),
            2 => to_page_end.min(40) + self.rng.below(2),
            3 => to_page_end + self.rng.below(3) * PAGE_WORDS,
            _ => self.rng.pick(&[1024, 1023, 512, 768, 769]),
        }
    }

    /// Mostly up to its window's end, sometimes one past it.
    fn program_count(&mut self, address: u32) -> u32 {
        let to_window_end = 16 - address / 4 % 16;
        match self.rng.below(16) {
            0 => to_window_end + 1,
            1 => self.rng.between(1, 40),
            2 => self.rng.pick(&[1024, 1023, 256, 17]),
            3..=8 => to_window_end,
            _ => self.rng.between(1, to_window_end),
        }
    }

    /// Long enough in most cases; else too short by one or more, or none at all.
    pub fn buffer_words(&mut self, operation: &flat::Operation) -> usize {
        let count = operation.count.min(1025);
        let words = match self.rng.below(12) {
            0 => count.saturating_sub(1),
            1 => 0,
            2 => self.rng.below(count + 1),
            3..=6 => count,
            _ => count + self.rng.between(1, 15),
        };
        words as usize
    }

    /// So many as the operation has words, one more or less, or few; else any number of them.
    pub fn steps(&mut self, operation: &flat::Operation) -> u32 {
        let words = words_to_move(self.data_pages(), operation);
        match self.rng.below(12) {
            0 => words,
            1 => words.saturating_sub(1),
            2 => words.saturating_add(1),
            3 => u32::MAX,
            4 => 0,
            5 => self.rng.below(words.clamp(1, PAGE_WORDS)),
            _ => self.rng.below(words.clamp(1, 20)),
        }
    }

    // -- scans ---------------------------------------------------------------

    /// Mostly two pages that allow all three rights; rarely the same twice.
    pub fn scan_pages(&mut self) -> [u32; 2] {
        let page = self.scan_page();
        let same = self.rng.percent(4);
        let other_page = if same { page } else { self.scan_page() };
        [page, other_page]
    }

    fn scan_page(&mut self) -> u32 {
        if self.rng.percent(10) {
            return self.view_page();
        }
        let c = from_reference(self.state);
        let mut page = self.data_page();
        for _ in 0..8 {
            if rights(&c, page) == 7 {
                break;
            }
            page = self.rng.below(2 * self.data_pages());
        }
        page
    }

    /// So many as a write needs, with an erase or without, or fewer.
    pub fn write_steps(&mut self) -> u32 {
        match self.rng.below(8) {
            0 => self.rng.pick(&[13, 14, 15, 16]),
            1 => self.rng.pick(&[255, 256, 257, 269, 270, 271, 272]),
            2 => self.rng.below(16),
            3 => self.rng.below(272),
            _ => u32::MAX,
        }
    }
}

/// A scan has 1 to 48 bytes.
pub fn scan_length(rng: &mut Rng) -> usize {
    let length = match rng.below(8) {
        0 => rng.pick(&[0, 49]),
        1 => rng.pick(&[1, 2, 47, 48]),
        2 => rng.below(300),
        _ => rng.between(1, 48),
    };
    length as usize
}
