//! Random pairs of lists that mostly keep out of each other's pages.

use super::{claim, Beginning, Item, List};
use crate::arguments::Arguments;
use crate::layout::{bank_pages, type_and_page, PAGE_BYTES, PAGE_WORDS, WORD_BYTES};
use crate::pages::{readable_words, span};
use crate::rng::Rng;
use crate::shrink::shortest;
use crate::watch::watched;
use reference::interface::{flat, from_reference, to_reference};
use reference::model::{self, Controller};
use std::fmt::Write;
use std::time::{Duration, Instant};

const WORKERS: u64 = 2;
const SHRINK_TIME: Duration = Duration::from_secs(20);

/// How many trials a run of them made.
#[derive(Clone, Copy, Debug, Default)]
pub struct Counts {
    pub trials: u64,
    /// The premise held.
    pub held: u64,
    /// It held, and both lists programmed or erased.
    pub both_wrote: u64,
    /// It held because a denied read stops at its first denied page.
    pub apart_by_a_cut: u64,
}

/// Whose page it is; a list mostly keeps to its own and reads what is nobody's.
#[derive(Clone, Copy, Debug, PartialEq, Eq)]
enum Owner {
    One(List),
    Nobody,
}

struct Trials {
    rng: Rng,
}

impl Trials {
    fn beginning(&mut self) -> Beginning {
        let data_pages = self.rng.pick(&[10, 10, 11, 12]);
        let mut c = Controller {
            data_pages,
            phase: model::Phase::Ready,
            provision_enabled: self.rng.percent(80),
            seeds_locked: self.rng.percent(30),
            default_rights: self.rights(),
            bank_erase_permissions: [self.rng.percent(80), self.rng.percent(80)],
            lost: [self.rng.below(6), self.rng.below(6)],
            ..Controller::default()
        };
        for setting in &mut c.info_settings {
            setting.on = self.rng.percent(90);
            setting.rights = self.rights();
        }
        for region in c.regions.iter_mut().take(3) {
            region.on = self.rng.percent(30);
            region.first_page = self.rng.below(2 * data_pages);
            region.page_count = self.rng.below(2 * data_pages - region.first_page + 1);
            region.rights = self.rights();
        }
        if self.rng.percent(20) {
            c.recorded = self.rng.pick(&[1 << 5, 1 << 9, 0x3A0]);
            c.last_address = self.rng.word();
        }
        let words = model::image_words(data_pages) as usize;
        // Where check 1 fails, every operation gives 1.
        let wrong = self.rng.percent(1);
        Beginning {
            controller: from_reference(&c),
            image: self.rng.flash_words(words - usize::from(wrong)),
        }
    }

    fn rights(&mut self) -> u8 {
        if self.rng.percent(80) {
            7
        } else {
            self.rng.below(8) as u8
        }
    }

    /// Every page of the image has an owner: by bank, or page by page.
    fn owners(&mut self, data_pages: u32) -> Vec<Owner> {
        let bank_pages = bank_pages(data_pages) as usize;
        let by_bank = self.rng.percent(25);
        let owner = [
            Owner::One(List::Left),
            Owner::One(List::Right),
            Owner::Nobody,
        ];
        (0..2 * bank_pages)
            .map(|page| match by_bank {
                true => owner[page / bank_pages],
                false => self.rng.pick(&owner),
            })
            .collect()
    }

    fn shuffle(&mut self, data_pages: u32) -> Vec<Item> {
        let owners = self.owners(data_pages);
        let mut left = [self.rng.below(7), self.rng.below(7)];
        let mut items = Vec::new();
        while left[0] + left[1] > 0 {
            let list = [List::Left, List::Right][self.rng.weighted(&left)];
            left[list as usize] -= 1;
            items.push(self.item(data_pages, list, &owners));
        }
        items
    }

    /// At any place among the items, a denied read of one list and, of the
    /// other, a program or erase of a page that the read does not reach.
    fn add_denied_read(&mut self, c: &flat::Controller, items: &mut Vec<Item>) {
        let mut arguments = Arguments {
            rng: &mut self.rng,
            state: &to_reference(c).expect("a beginning encodes a state"),
        };
        let Some(read) = arguments.read_over_a_denied_page() else {
            return;
        };
        let write = self.write_behind(c, &read);
        let [reader, writer] = self
            .rng
            .pick(&[[List::Left, List::Right], [List::Right, List::Left]]);
        for (list, operation) in [(reader, read), (writer, write)] {
            let place = self.rng.below(items.len() as u32 + 1);
            let item = Item {
                list,
                operation,
                buffer: self.rng.flash_words(operation.count as usize),
            };
            items.insert(place as usize, item);
        }
    }

    /// A program or erase of one of a denied read's pages, from the first denied one on.
    fn write_behind(&mut self, c: &flat::Controller, read: &flat::Operation) -> flat::Operation {
        let readable = readable_words(c, read).expect("it is denied");
        let first_denied = (read.address + WORD_BYTES * readable) / PAGE_BYTES;
        let page = self.rng.between(first_denied, span(read).1);
        flat::Operation {
            address: page * PAGE_BYTES + 64 * self.rng.below(16),
            count: self.rng.between(1, 16),
            kind: self.rng.pick(&[flat::PROGRAM, flat::PAGE_ERASE]),
            ..*read
        }
    }

    fn item(&mut self, data_pages: u32, list: List, owners: &[Owner]) -> Item {
        let kind = [0, 1, 2, 3, 4, 256][self.rng.weighted(&[80, 80, 32, 6, 1, 1])];
        let page = self.page_for(list, kind, owners);
        let operation = self.operation_on(data_pages, kind, page);
        let room = operation.count + self.rng.below(4);
        let words = room - u32::from(self.rng.percent(3)).min(room);
        Item {
            list,
            operation,
            buffer: self.rng.flash_words(words as usize),
        }
    }

    fn page_for(&mut self, list: List, kind: u32, owners: &[Owner]) -> u32 {
        let anywhere = self.rng.percent(2);
        loop {
            let page = self.rng.below(owners.len() as u32);
            let owner = owners[page as usize];
            let shared = kind == flat::READ && owner == Owner::Nobody;
            if anywhere || shared || owner == Owner::One(list) {
                return page;
            }
            // A list may own no page at all.
            if self.rng.percent(1) {
                return page;
            }
        }
    }

    /// An operation on a page of the image, rarely spoiled.
    fn operation_on(&mut self, data_pages: u32, kind: u32, page: u32) -> flat::Operation {
        let bank_pages = bank_pages(data_pages);
        let (bank, place) = (page / bank_pages, page % bank_pages);
        let (partition, info_type, page_in_bank) = match place.checked_sub(data_pages) {
            None => (flat::DATA, self.rng.word(), place),
            Some(info_page) => {
                let (info_type, page_in_type) = type_and_page(info_page);
                (flat::INFORMATION, info_type, page_in_type)
            }
        };
        let (word, count) = self.words_of(kind);
        let spoiled = u32::from(self.rng.percent(3));
        flat::Operation {
            address: (bank * data_pages + page_in_bank) * PAGE_BYTES + WORD_BYTES * word + spoiled,
            count,
            kind,
            partition,
            info_type,
        }
    }

    /// The first word of an operation in its page, and how many it has; a read may run over pages.
    fn words_of(&mut self, kind: u32) -> (u32, u32) {
        if kind == flat::READ && self.rng.percent(15) {
            let in_first_page = self.rng.between(1, 8);
            let whole_pages = self.rng.weighted(&[6, 2, 1]) as u32;
            let count = in_first_page + whole_pages * PAGE_WORDS + self.rng.between(1, 8);
            return (PAGE_WORDS - in_first_page, count);
        }
        let word = self.rng.below(PAGE_WORDS);
        let count = match kind {
            flat::PROGRAM if self.rng.percent(88) => self.rng.between(1, 16 - word % 16),
            _ => self.rng.between(1, 20),
        };
        (word, count)
    }
}

fn trial(seed: u64) -> (Beginning, Vec<Item>) {
    let mut trials = Trials {
        rng: Rng::new(seed),
    };
    let beginning = trials.beginning();
    let mut shuffle = trials.shuffle(beginning.controller.data_pages);
    if trials.rng.percent(20) {
        trials.add_denied_read(&beginning.controller, &mut shuffle);
    }
    (beginning, shuffle)
}

/// The trials of all workers; the first that fails is shrunk and told.
pub fn trials(seed: u64, number: u64) -> Result<Counts, String> {
    let parts = watched(WORKERS, move |worker, watch| {
        let mut counts = Counts::default();
        let mut place = worker;
        while place < number && watch.begins(worker, place) {
            let own_seed = Rng::new(seed.wrapping_add(place << 32)).seed();
            if let Err(told) = count_trial(own_seed, &mut counts) {
                watch.stop();
                return Err(format!("seed {seed:#x}, trial {place}: {told}"));
            }
            place += WORKERS;
        }
        Ok(counts)
    });
    let mut all = Counts::default();
    for part in parts {
        let part = part?;
        all.trials += part.trials;
        all.held += part.held;
        all.both_wrote += part.both_wrote;
        all.apart_by_a_cut += part.apart_by_a_cut;
    }
    Ok(all)
}

fn count_trial(seed: u64, counts: &mut Counts) -> Result<(), String> {
    let (beginning, shuffle) = trial(seed);
    counts.trials += 1;
    match claim(&beginning, &shuffle) {
        None => {}
        Some(Ok(apart)) => {
            counts.held += 1;
            counts.both_wrote += u64::from(apart.both_write);
            counts.apart_by_a_cut += u64::from(apart.by_a_cut);
        }
        Some(Err(_)) => return Err(shrunk(&beginning, &shuffle)),
    }
    Ok(())
}

/// The fewest operations found for which the premise holds and the claim fails.
fn shrunk(beginning: &Beginning, shuffle: &[Item]) -> String {
    let until = Instant::now() + SHRINK_TIME;
    let few = shortest(shuffle, until, |items| {
        matches!(claim(beginning, items), Some(Err(_)))
    });
    let Some(Err(mut told)) = claim(beginning, &few) else {
        unreachable!("what is kept fails");
    };
    told.push('\n');
    for item in few {
        let words = item.buffer.len();
        writeln!(
            told,
            "  {:?}: {:?}, buffer of {words}",
            item.list, item.operation
        )
        .unwrap();
    }
    told
}
