//! Random runs: every call answers, refused calls leave what 01 says, states
//! stay valid, a whole operation is the sum of its parts, and a denied read
//! tells its readable words and no other.

use crate::helpers::*;
use reference::model::*;

/// A small generator (xorshift), so that runs repeat.
pub struct Rng(pub u64);

impl Rng {
    pub fn word(&mut self) -> u32 {
        self.0 ^= self.0 << 13;
        self.0 ^= self.0 >> 7;
        self.0 ^= self.0 << 17;
        (self.0 >> 16) as u32
    }

    pub fn below(&mut self, bound: u32) -> u32 {
        self.word() % bound
    }

    pub fn flag(&mut self) -> bool {
        self.below(2) == 1
    }

    /// Mostly small, sometimes near a border, sometimes anything.
    fn number(&mut self) -> u32 {
        match self.below(8) {
            0 => self.word(),
            1 => u32::MAX - self.below(3),
            2 => 14 + self.below(5),
            3 => self.below(300),
            _ => self.below(4),
        }
    }

    pub fn region(&mut self) -> Region {
        Region {
            on: self.flag(),
            first_page: self.below(36),
            page_count: self.below(6),
            rights: self.below(9) as u8,
        }
    }

    fn info_setting(&mut self) -> InfoSetting {
        InfoSetting {
            on: self.below(4) > 0,
            rights: self.below(9) as u8,
        }
    }

    /// Mostly well formed, often near the borders.
    pub fn operation(&mut self) -> Operation {
        if self.below(8) == 0 {
            return self.long_read();
        }
        let near = [0, 0x400, 0x800, 0x2800, 0x4000, 0x6800, 0x8000];
        let base = near[self.below(7) as usize];
        let address = (base as u32)
            .wrapping_add(4 * self.below(40))
            .wrapping_sub(80);
        let odd = self.below(12) == 0;
        Operation {
            kind: [0, 0, 0, 0, 1, 1, 1, 1, 2, 2, 3, 4][self.below(12) as usize],
            partition: if odd {
                self.number() as u8
            } else {
                self.below(2) as u8
            },
            info_type: if odd {
                self.number() as u8
            } else {
                self.below(3) as u8
            },
            address: if odd { self.word() } else { address },
            count: match self.below(10) {
                0 => self.number(),
                1 => self.below(700),
                _ => self.below(18),
            },
        }
    }

    /// A read of up to 1,024 words, mostly inside.
    fn long_read(&mut self) -> Operation {
        let partition = self.below(2) as u8;
        let (info_type, pages) = match (partition, self.below(3)) {
            (DATA, _) => (0, 2 * D),
            (_, 0) => (2, 2),
            _ => (0, 10),
        };
        let bank = self.below(2) * D * u32::from(partition);
        Operation {
            kind: READ,
            partition,
            info_type,
            address: 4 * (256 * bank + self.below(256 * pages)),
            count: 1 + self.below(1_024),
        }
    }

    /// The right number in most cases, else one off or any.
    fn readable(&mut self, c: &Controller, read: Operation) -> u32 {
        let idle = Controller {
            in_progress: InProgress::Nothing,
            ..c.clone()
        };
        match self.below(6) {
            0 => self.number(),
            1 => readable_words(&idle, read).wrapping_sub(1),
            2 => readable_words(&idle, read) + 1,
            _ => readable_words(&idle, read),
        }
    }

    fn queue(&mut self) -> Queue {
        Queue {
            words: std::array::from_fn(|_| self.word()),
            length: self.number(),
        }
    }

    fn in_progress(&mut self, c: &Controller) -> InProgress {
        let operation = self.operation();
        let moved = self.number();
        match self.below(4) {
            0 => InProgress::Nothing,
            1 => InProgress::Read {
                operation,
                moved,
                readable: self.readable(c, operation),
            },
            2 => InProgress::Program { operation, moved },
            _ => InProgress::Erase { operation, moved },
        }
    }

    /// Ready, with rights that differ from page to page.
    pub fn with_mixed_rights(&mut self) -> Controller {
        let mut c = ready();
        set_inputs(&mut c, self.flag(), self.flag());
        for number in 0..8 {
            set_region(&mut c, number, self.region());
        }
        for _ in 0..4 {
            let (info_type, page) = (self.below(3) as u8, self.below(10));
            set_info_page(&mut c, self.below(2), info_type, page, self.info_setting());
        }
        c
    }

    /// A word of the data pages or just past them, sometimes unaligned.
    pub fn host_address(&mut self) -> u32 {
        self.below(0x2100) * 4 + self.below(2)
    }

    /// A ready controller with all rights, but for a few fields.
    pub fn controller(&mut self) -> Controller {
        let mut c = ready();
        for _ in 0..1 + self.below(3) {
            match self.below(15) {
                0 => c.data_pages = self.number(),
                1 => {
                    c.phase = [Phase::Uninitialised, Phase::Ready, Phase::Disabled]
                        [self.below(3) as usize]
                }
                2 => c.provision_enabled = self.flag(),
                3 => c.seeds_locked = self.flag(),
                4 => c.regions[self.below(8) as usize] = self.region(),
                5 => c.default_rights = self.below(9) as u8,
                6 => c.info_settings[self.below(26) as usize] = self.info_setting(),
                7 => c.bank_erase_permissions = [self.flag(), self.flag()],
                8 => c.recorded = self.number(),
                9 => c.last_address = self.number(),
                10 => c.read_queue = self.queue(),
                11 => c.program_queue = self.queue(),
                12 => c.lost = [self.below(7), self.below(7)],
                _ => c.in_progress = self.in_progress(&c),
            }
        }
        c
    }
}

/// An operation that a call asks for, whole or in parts.
#[derive(Clone, Copy)]
struct Asked {
    operation: Operation,
    whole: bool,
}

/// One random call other than reset and RMA; gives its refusal and the
/// operation that it asks for.
fn random_call(
    rng: &mut Rng,
    c: &mut Controller,
    image: &mut [u32],
    buffer: &mut [u32],
) -> (u8, Option<Asked>) {
    let refusal = match rng.below(24) {
        0 => set_inputs(c, rng.below(4) > 0, rng.flag()),
        1 => set_region(c, rng.below(9), rng.region()),
        2 => set_default_rights(c, rng.below(9) as u8),
        3 => set_info_page(
            c,
            rng.below(3),
            rng.below(4) as u8,
            rng.below(11),
            rng.info_setting(),
        ),
        4 => set_bank_erase_permission(c, rng.below(3), rng.below(4) > 0),
        5 => initialise(c, image).refusal,
        6 => clear(c),
        7 => host_read(c, image, rng.host_address()).refusal,
        8 => view(c, image, rng.below(34)).refusal,
        9..=11 => {
            let (refusal, asked) = random_operation(rng, c, image, buffer);
            return (refusal, Some(asked));
        }
        12..=14 => push(c, rng.word()),
        15..=17 => pop(c).refusal,
        18 | 19 => step_refusal(round(c, image, Some(rng.host_address()), true)),
        _ => step(c, image).refusal,
    };
    (refusal, None)
}

fn random_operation(
    rng: &mut Rng,
    c: &mut Controller,
    image: &mut [u32],
    buffer: &mut [u32],
) -> (u8, Asked) {
    let asked = Asked {
        operation: rng.operation(),
        whole: rng.flag(),
    };
    let refusal = if asked.whole {
        whole(c, asked.operation, image, buffer).refusal
    } else {
        start(c, asked.operation).refusal
    };
    (refusal, asked)
}

/// Leaves the record of a refusal of 5, 7, 8 or 9.
fn leave_record(c: &mut Controller, refusal: u8, address: u32) {
    c.recorded |= 1 << refusal;
    c.last_address = address;
}

/// Leaves what a denied read leaves, its record and its start or its words; gives
/// how many of its words are readable.
fn leave_cut_read(c: &mut Controller, asked: Asked, image: &mut [u32], buffer: &mut [u32]) -> u32 {
    let operation = asked.operation;
    let readable = readable_words(c, operation);
    if asked.whole {
        let (stored, denied) = buffer[..operation.count as usize].split_at_mut(readable as usize);
        for (number, word) in (0..).zip(stored) {
            *word = read_alone(c, operation, number, image);
        }
        denied.fill(ONES);
        c.read_queue = Queue::default();
    } else {
        c.in_progress = InProgress::Read {
            operation,
            moved: 0,
            readable,
        };
    }
    leave_record(c, DENIED, operation.address + 4 * readable);
    readable
}

/// Of a round with a step; one that waits for its turn is not refused.
fn step_refusal(told: Rounded) -> u8 {
    match told.step {
        Turn::Served(given) => given.refusal,
        _ => NONE,
    }
}

#[test]
fn long_runs_stay_valid_and_refusals_leave_what_they_should() {
    let mut rng = Rng(0x1234_5678_9ABC_DEF1);
    let mut image = patterned();
    let mut c = uninitialised_with_all_rights(D);
    let mut buffer = vec![0; 700];
    let mut seen = [0; 14];
    let mut with_readable_words = [0; 2];
    for turn in 0..40_000 {
        match turn % 200 {
            0 => c = uninitialised_with_all_rights(D),
            100 | 120 | 140 | 160 | 180 => c = rng.with_mixed_rights(),
            _ => {}
        }
        let before = (c.clone(), image.clone(), buffer.clone());
        let (refusal, asked) = random_call(&mut rng, &mut c, &mut image, &mut buffer);
        seen[usize::from(refusal)] += 1;
        assert!(is_valid(&c));
        if refusal == NONE {
            continue;
        }
        assert!(image == before.1, "a refused call moves no flash");
        let (mut expected, _, mut expected_buffer) = before;
        match asked.map(|asked| (refusal, asked, asked.operation)) {
            Some((DENIED, asked, Operation { kind: READ, .. })) => {
                let readable =
                    leave_cut_read(&mut expected, asked, &mut image, &mut expected_buffer);
                with_readable_words[usize::from(asked.whole)] += u32::from(readable > 0);
            }
            Some((5 | 7 | 8 | 9, _, operation)) => {
                leave_record(&mut expected, refusal, operation.address);
            }
            _ => {}
        }
        assert_eq!(c, expected);
        assert_eq!(buffer, expected_buffer);
    }
    for refusal in [0, 3, 4, 5, 6, 7, 8, 9, 10, 12, 13] {
        assert!(seen[refusal] > 0, "refusal {refusal} never seen");
    }
    let both = with_readable_words.iter().all(|count| *count > 5);
    assert!(both, "{with_readable_words:?}");
    assert_eq!(seen[usize::from(QUEUE_FULL)], 0);
}

#[test]
fn nonsense_states_are_answered() {
    let mut rng = Rng(0xFEED_0BAD_CAFE_0001);
    let mut valid = 0;
    for _ in 0..5_000 {
        let c = rng.controller();
        valid += u32::from(is_valid(&c));
        let mut image = vec![0x5555_5555; image_words(D) as usize];
        let mut after = c.clone();
        let (refusal, _) = random_call(&mut rng, &mut after, &mut image, &mut [0; 20]);
        if !is_valid(&c) {
            assert_eq!(refusal, INVALID);
            assert_eq!(after, c);
        }
        rma(&mut c.clone(), &mut image);
        reset(&mut c.clone(), rng.number());
    }
    assert!((500..4_500).contains(&valid), "{valid} were valid");
}

/// Runs an operation by its parts in another rhythm than the whole call:
/// all pushes first, then steps in bursts, then pops in bursts.
fn by_parts(
    rng: &mut Rng,
    c: &mut Controller,
    op: Operation,
    image: &mut [u32],
    buffer: &mut [u32],
) -> WholeDone {
    let Started { refusal, decider } = start(c, op);
    let (mut bits, mut pushed, mut popped) = (0, 0, 0);
    while c.in_progress != InProgress::Nothing || c.read_queue.length > 0 {
        for _ in 0..rng.below(20) {
            if pushed < buffer.len() && push(c, buffer[pushed]) == NONE {
                pushed += 1;
            }
        }
        for _ in 0..rng.below(40) {
            bits += step(c, image).bits;
        }
        for _ in 0..rng.below(20) {
            let given = pop(c);
            if given.refusal == NONE {
                buffer[popped] = given.word;
                popped += 1;
            }
        }
    }
    WholeDone {
        refusal,
        decider,
        bits,
    }
}

#[test]
fn a_whole_operation_is_the_sum_of_its_parts() {
    let mut rng = Rng(0x00DD_BA11_5EED);
    for _ in 0..300 {
        let mut c = rng.with_mixed_rights();
        let mut image = patterned();
        for _ in 0..5 {
            let op = rng.operation();
            let mut buffer: Vec<u32> = (0..1_024).map(|_| rng.word()).collect();
            let mut parts = (c.clone(), image.clone(), buffer.clone());
            let done = whole(&mut c, op, &mut image, &mut buffer);
            let sum = by_parts(&mut rng, &mut parts.0, op, &mut parts.1, &mut parts.2);
            assert_eq!(done, sum);
            assert_eq!(c, parts.0);
            assert!(image == parts.1 && buffer == parts.2);
        }
    }
}

/// Every word of the image is another, but for these words of the patterned one.
fn other_image(words: &[u32]) -> Vec<u32> {
    let mut image: Vec<u32> = patterned().iter().map(|word| !word).collect();
    for &word in words {
        image[(word - mark(0)) as usize] = word;
    }
    image
}

/// Each readable word is the one that a read of it alone gives, and the same
/// is told on every image that has these words.
#[test]
fn a_denied_read_tells_its_readable_words_and_no_other() {
    let mut rng = Rng(0x0C07_0FF5_EED5_0001);
    let mut met = [0; 2];
    for _ in 0..3_000 {
        let c = rng.with_mixed_rights();
        let read = rng.long_read();
        if start_answer(&c, read) != DENIED {
            continue;
        }
        let readable = readable_words(&c, read);
        let (words, address) = cut_read(&c, read, &patterned());
        let (stored, denied) = words.split_at(readable as usize);
        for (number, word) in (0..).zip(stored) {
            assert_eq!(*word, read_alone(&c, read, number, &mut patterned()));
        }
        assert!(denied.iter().all(|word| *word == ONES));
        assert_eq!(address, read.address + 4 * readable);
        assert_eq!(
            cut_read(&c, read, &other_image(stored)),
            (words.clone(), address)
        );
        met[usize::from(readable > 0)] += 1;
    }
    assert!(met.iter().all(|count| *count > 100), "{met:?}");
}
