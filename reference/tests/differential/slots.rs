//! Slots for the two pages of a queue of scans: queues, queues that were cut, and
//! what only looks like a slot.

use crate::layout::PAGE_WORDS;
use crate::rng::Rng;

const ONES: u32 = u32::MAX;
const SLOT_WORDS: usize = 16;
const SLOTS: usize = PAGE_WORDS as usize / SLOT_WORDS;
/// The bytes of words 2 to 15.
const BODY_BYTES: usize = 56;
const LAST_SERIAL: u32 = (1 << 28) - 1;

/// What a slot is drawn as.
#[derive(Clone, Copy, Debug, PartialEq, Eq)]
enum Kind {
    Unused,
    Waiting,
    Taken,
    OddMark,
    /// All that is written before the seal.
    Unsealed,
    OddSeal,
    /// Some of the words 2 to 15, and no seal.
    CutShort,
    LongSerial,
    LongLength,
    LargeSerial,
    WrongLength,
    ByteBehind,
    NearlyBlank,
    Garbage,
}

const KINDS: [Kind; 14] = [
    Kind::Unused,
    Kind::Waiting,
    Kind::Taken,
    Kind::OddMark,
    Kind::Unsealed,
    Kind::OddSeal,
    Kind::CutShort,
    Kind::LongSerial,
    Kind::LongLength,
    Kind::LargeSerial,
    Kind::WrongLength,
    Kind::ByteBehind,
    Kind::NearlyBlank,
    Kind::Garbage,
];

/// Weights of the kinds, in their order, in a page of each mood.
const MOODS: [[u32; KINDS.len()]; 6] = [
    // Hardly written.
    [90, 5, 5, 0, 0, 0, 0, 0, 0, 0, 0, 0, 0, 0],
    // Partly used.
    [30, 30, 20, 2, 2, 2, 4, 2, 2, 2, 2, 2, 2, 2],
    // Full, some wait.
    [0, 30, 30, 3, 3, 3, 3, 3, 3, 3, 3, 3, 3, 3],
    // Full, and mostly no one waits.
    [0, 1, 60, 6, 6, 6, 6, 6, 6, 6, 6, 6, 6, 6],
    // Full of dead slots.
    [0, 0, 0, 0, 5, 5, 5, 5, 5, 5, 5, 5, 5, 5],
    // Anything.
    [5, 5, 5, 5, 5, 5, 5, 5, 5, 5, 5, 5, 5, 5],
];
/// Weights of the moods, in their order.
const MOOD_WEIGHTS: [u32; MOODS.len()] = [1, 2, 4, 2, 1, 2];

/// The words of two pages whose serials are near one another.
pub fn two_pages(rng: &mut Rng) -> [Vec<u32>; 2] {
    let first_serial = rng.pick(&[
        0,
        1,
        1,
        100,
        120,
        16_370,
        2_097_140,
        123_456_789,
        LAST_SERIAL - 70,
        LAST_SERIAL - 45,
        LAST_SERIAL - 20,
    ]);
    [first_serial; 2].map(|serial| page(rng, serial))
}

fn page(rng: &mut Rng, first_serial: u32) -> Vec<u32> {
    let weights = MOODS[rng.weighted(&MOOD_WEIGHTS)];
    let mut words = Vec::new();
    for _ in 0..SLOTS {
        let kind = KINDS[rng.weighted(&weights)];
        let serial = LAST_SERIAL.min(first_serial + rng.below(40));
        words.extend(slot(rng, kind, serial));
    }
    words
}

fn slot(rng: &mut Rng, kind: Kind, serial: u32) -> [u32; SLOT_WORDS] {
    match kind {
        Kind::Unused => [ONES; SLOT_WORDS],
        Kind::Waiting => with_body(0, ONES, right_body(rng, serial)),
        Kind::Taken => with_body(0, 0, right_body(rng, serial)),
        Kind::OddMark => with_body(0, odd(rng), right_body(rng, serial)),
        Kind::Unsealed => with_body(ONES, ONES, right_body(rng, serial)),
        Kind::OddSeal => with_body(odd(rng), ONES, right_body(rng, serial)),
        Kind::CutShort => cut_short(rng, serial),
        Kind::LongSerial | Kind::LongLength | Kind::LargeSerial | Kind::WrongLength => {
            let body = wrong_body(rng, kind, serial);
            with_body(0, ONES, body)
        }
        Kind::ByteBehind => {
            let mut body = right_body(rng, serial);
            let behind = rng.between(1, 3) as usize;
            body[BODY_BYTES - behind] = rng.pick(&[0, 0x7F, 0xFE]);
            with_body(0, ONES, body)
        }
        Kind::NearlyBlank => {
            let mut words = [ONES; SLOT_WORDS];
            words[rng.below(SLOT_WORDS as u32) as usize] = rng.pick(&[0, !1, !(1 << 31)]);
            words
        }
        Kind::Garbage => std::array::from_fn(|_| rng.flash_word()),
    }
}

/// Neither all ones nor 0.
fn odd(rng: &mut Rng) -> u32 {
    let bit = 1 << rng.below(32);
    rng.pick(&[bit, !bit, 0xFFFF_0000, 0x5555_5555])
}

/// Serial, length and bytes as they should be.
fn right_body(rng: &mut Rng, serial: u32) -> Vec<u8> {
    let length = rng.pick(&[1, 2, 20, 47, 48]);
    body(rng, groups(serial, 1), groups(length, 1), length)
}

fn wrong_body(rng: &mut Rng, kind: Kind, serial: u32) -> Vec<u8> {
    let length = match kind {
        Kind::WrongLength => rng.pick(&[0, 49, 50, 127, 128, 300]),
        _ => rng.between(1, 48),
    };
    let serial = match kind {
        Kind::LargeSerial => rng.pick(&[LAST_SERIAL + 1, u32::MAX, 1 << 31]),
        _ => serial,
    };
    let shortest = groups(serial, 1).len();
    let serial_form = match kind {
        Kind::LongSerial => groups(serial, shortest + 1),
        _ => groups(serial, shortest),
    };
    let length_groups = if kind == Kind::LongLength { 2 } else { 1 };
    body(rng, serial_form, groups(length, length_groups), length)
}

/// The bytes of words 2 to 15; what does not fit is left out.
fn body(rng: &mut Rng, serial: Vec<u8>, length: Vec<u8>, bytes: u32) -> Vec<u8> {
    let scan = (0..bytes).map(|_| rng.pick(&[0, 0x41, 0x80, 0xFF]));
    let mut body: Vec<u8> = serial.into_iter().chain(length).chain(scan).collect();
    body.resize(BODY_BYTES, 0xFF);
    body
}

/// A number in groups of seven bits, low group first, in at least so many groups.
fn groups(mut number: u32, least: usize) -> Vec<u8> {
    let mut groups = vec![(number & 0x7F) as u8];
    number >>= 7;
    while number > 0 || groups.len() < least {
        *groups.last_mut().expect("one is first") |= 0x80;
        groups.push((number & 0x7F) as u8);
        number >>= 7;
    }
    groups
}

fn with_body(seal: u32, mark: u32, body: Vec<u8>) -> [u32; SLOT_WORDS] {
    let (words, _) = body.as_chunks();
    let mut words = [seal, mark]
        .into_iter()
        .chain(words.iter().copied().map(u32::from_le_bytes));
    std::array::from_fn(|_| words.next().expect("a body has 14 words"))
}

fn cut_short(rng: &mut Rng, serial: u32) -> [u32; SLOT_WORDS] {
    let mut words = with_body(ONES, ONES, right_body(rng, serial));
    let written = rng.between(3, 15) as usize;
    words[written..].fill(ONES);
    words
}

/// 300 is 0x2C and 2 times 128.
#[test]
fn numbers_are_drawn_in_any_number_of_groups() {
    assert_eq!(groups(0, 1), [0]);
    assert_eq!(groups(127, 1), [0x7F]);
    assert_eq!(groups(300, 1), [0xAC, 2]);
    assert_eq!(groups(300, 4), [0xAC, 0x82, 0x80, 0]);
    assert_eq!(groups(LAST_SERIAL, 1), [0xFF, 0xFF, 0xFF, 0x7F]);
}
