//! What most tests need: a ready controller with all rights, and images.

use reference::model::*;

/// The D of a bench program.
pub const D: u32 = 16;

// What an accepted step tells that changes no bit.
pub const MOVED: Stepped = Stepped {
    refusal: NONE,
    progress: Some(Progress::Moved),
    bits: 0,
};
pub const FINISHED: Stepped = Stepped {
    refusal: NONE,
    progress: Some(Progress::Finished),
    bits: 0,
};
pub const WAITING: Stepped = Stepped {
    refusal: NONE,
    progress: Some(Progress::Waiting),
    bits: 0,
};

pub fn uninitialised(d: u32) -> Controller {
    let mut c = Controller::default();
    assert_eq!(reset(&mut c, d), NONE);
    c
}

/// Uninitialised, with every right given, provision enabled and seeds not locked.
pub fn uninitialised_with_all_rights(d: u32) -> Controller {
    let mut c = uninitialised(d);
    let all = InfoSetting {
        on: true,
        rights: ALL_RIGHTS,
    };
    assert_eq!(set_inputs(&mut c, true, false), NONE);
    assert_eq!(set_default_rights(&mut c, ALL_RIGHTS), NONE);
    for bank in 0..2 {
        assert_eq!(set_bank_erase_permission(&mut c, bank, true), NONE);
        for (info_type, pages) in [(0, 10), (1, 1), (2, 2)] {
            for page in 0..pages {
                assert_eq!(set_info_page(&mut c, bank, info_type, page, all), NONE);
            }
        }
    }
    c
}

/// Ready, with all rights given.
pub fn ready_for(d: u32) -> Controller {
    let mut c = uninitialised_with_all_rights(d);
    assert_eq!(initialise(&mut c, &erased_for(d)).refusal, NONE);
    c
}

pub fn ready() -> Controller {
    ready_for(D)
}

pub fn disabled() -> Controller {
    let mut c = ready();
    assert_eq!(rma(&mut c, &mut erased()), NONE);
    c
}

/// Ready, with no right at all.
pub fn ready_without_rights() -> Controller {
    let mut c = uninitialised(D);
    assert_eq!(initialise(&mut c, &erased()).refusal, NONE);
    c
}

pub fn erased_for(d: u32) -> Vec<u32> {
    vec![ONES; image_words(d) as usize]
}

pub fn erased() -> Vec<u32> {
    erased_for(D)
}

/// Every word tells its own place, so no two are alike and none is all ones.
pub fn patterned_for(d: u32) -> Vec<u32> {
    (0..image_words(d) as u32).map(mark).collect()
}

pub fn patterned() -> Vec<u32> {
    patterned_for(D)
}

pub fn mark(place: u32) -> u32 {
    0x5A00_0000 | place
}

pub fn operation(kind: u8, partition: u8, info_type: u8, address: u32, count: u32) -> Operation {
    Operation {
        kind,
        partition,
        info_type,
        address,
        count,
    }
}

pub fn data(kind: u8, address: u32, count: u32) -> Operation {
    operation(kind, DATA, 0, address, count)
}

pub fn info(kind: u8, info_type: u8, address: u32, count: u32) -> Operation {
    operation(kind, INFORMATION, info_type, address, count)
}

pub fn region(first_page: u32, page_count: u32, rights: u8) -> Region {
    Region {
        on: true,
        first_page,
        page_count,
        rights,
    }
}

/// The answer of starting the operation from this very state.
pub fn start_answer(c: &Controller, op: Operation) -> u8 {
    start(&mut c.clone(), op).refusal
}

/// How many leading words of a read may each be read alone.
pub fn readable_words(c: &Controller, read: Operation) -> u32 {
    let readable = |number: &u32| start_answer(c, word_alone(read, *number)) == NONE;
    (0..read.count).take_while(readable).count() as u32
}

/// The read of one word of a read.
fn word_alone(read: Operation, number: u32) -> Operation {
    Operation {
        address: read.address + 4 * number,
        count: 1,
        ..read
    }
}

/// One word of a read, by a whole read of it alone that is accepted.
pub fn read_alone(c: &Controller, read: Operation, number: u32, image: &mut [u32]) -> u32 {
    let mut word = [7];
    let done = whole(&mut c.clone(), word_alone(read, number), image, &mut word);
    assert_eq!(done.refusal, NONE);
    word[0]
}

/// What a whole read that is denied delivers and records.
pub fn cut_read(c: &Controller, read: Operation, image: &[u32]) -> (Vec<u32>, u32) {
    let mut c = c.clone();
    let mut image = image.to_vec();
    let mut buffer = vec![7; read.count as usize];
    let done = whole(&mut c, read, &mut image, &mut buffer);
    assert_eq!((done.refusal, done.bits), (DENIED, 0));
    assert_eq!(c.recorded, kinds(&[9]));
    (buffer, c.last_address)
}

/// The kinds as the record's bits.
pub fn kinds(list: &[u8]) -> u32 {
    list.iter().map(|kind| 1 << kind).sum()
}

/// A ready controller with this operation started.
pub fn started(op: Operation) -> Controller {
    let mut c = ready();
    assert_eq!(start(&mut c, op).refusal, NONE);
    c
}

/// Refused with this number, controller and image all unchanged.
pub fn assert_refused(
    c: &mut Controller,
    image: &mut Vec<u32>,
    refusal: u8,
    call: impl FnOnce(&mut Controller, &mut Vec<u32>) -> u8,
) {
    let before = (c.clone(), image.clone());
    assert_eq!(call(c, image), refusal);
    assert!(before == (c.clone(), image.clone()), "something changed");
}

/// The answer of a round in which both ask and neither waits: they are refused alike.
pub fn round_refusal(c: &mut Controller, image: &mut [u32]) -> u8 {
    let told = round(c, image, Some(0), true);
    let (Turn::Served(host), Turn::Served(step)) = (told.host, told.step) else {
        panic!("{told:?}");
    };
    assert_eq!(host.refusal, step.refusal);
    step.refusal
}

/// Refused with this number and recorded, nothing else changed.
pub fn assert_start_recorded(c: &mut Controller, op: Operation, refusal: u8) {
    let mut expected = c.clone();
    expected.recorded |= 1 << refusal;
    expected.last_address = op.address;
    assert_eq!(start(c, op).refusal, refusal);
    assert_eq!(*c, expected);
}

/// Steps until finished; gives the moving steps and the bits changed.
pub fn step_to_the_end(c: &mut Controller, image: &mut [u32]) -> (u32, u32) {
    let (mut steps, mut bits) = (0, 0);
    loop {
        let s = step(c, image);
        assert_eq!(s.refusal, NONE);
        steps += 1;
        bits += s.bits;
        match s.progress {
            Some(Progress::Finished) => return (steps, bits),
            progress => assert_eq!(progress, Some(Progress::Moved)),
        }
    }
}
