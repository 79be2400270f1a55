//! 02, L11: the queue of scans, case by case.

use crate::helpers::*;
use reference::model::*;

/// One page in each bank.
const LOWER: u32 = 3;
const HIGHER: u32 = 20;
const PAGES: [u32; 2] = [LOWER, HIGHER];
const ALL_STEPS: u32 = u32::MAX;
const LAST_SERIAL: u32 = (1 << 28) - 1;

/// A slot from its seal, its mark and the first bytes of its words 2 to 15.
fn words(seal: u32, mark: u32, bytes: &[u8]) -> [u32; 16] {
    let mut bytes = bytes.to_vec();
    bytes.resize(56, 0xFF);
    let (body, _) = bytes.as_chunks();
    let mut words = [ONES; 16];
    words[0] = seal;
    words[1] = mark;
    for (word, bytes) in words[2..].iter_mut().zip(body) {
        *word = u32::from_le_bytes(*bytes);
    }
    words
}

/// The scan of one byte, 0x41, with a serial below 128.
fn with_serial(mark: u32, serial: u8) -> [u32; 16] {
    words(0, mark, &[serial, 1, 0x41])
}

fn waiting(serial: u8) -> [u32; 16] {
    with_serial(ONES, serial)
}

fn taken(serial: u8) -> [u32; 16] {
    with_serial(0, serial)
}

fn dead() -> [u32; 16] {
    words(ONES, ONES, &[1, 1])
}

/// The image place where a slot begins; bank 1's pages are behind bank 0's information.
fn place(page: u32, slot: usize) -> usize {
    let information = if page < D { 0 } else { 13 };
    (page + information) as usize * 256 + slot * 16
}

/// Erased, but for both pages, each with its first slots given and the others dead.
fn full_but_for(lower: &[[u32; 16]], higher: &[[u32; 16]]) -> Vec<u32> {
    let mut image = erased();
    for (page, first) in [(LOWER, lower), (HIGHER, higher)] {
        for slot in 0..16 {
            let words = first.get(slot).copied().unwrap_or(dead());
            put(&mut image, page, slot, words);
        }
    }
    image
}

fn put(image: &mut [u32], page: u32, slot: usize, words: [u32; 16]) {
    image[place(page, slot)..][..16].copy_from_slice(&words);
}

fn slot_at(image: &[u32], page: u32, slot: usize) -> &[u32] {
    &image[place(page, slot)..][..16]
}

/// A whole write that is accepted.
fn write(image: &mut [u32], bytes: &[u8]) {
    let mut c = ready();
    let told = write_scan(&mut c, image, PAGES, bytes, ALL_STEPS);
    assert_eq!(told, ScanWritten::default());
    assert_eq!(c, ready());
}

/// The serials that takes hand out until none waits.
fn serials(image: &[u32]) -> Vec<u32> {
    let mut image = image.to_vec();
    let take = || {
        let told = take_scan(&mut ready(), &mut image, PAGES, ALL_STEPS);
        assert_eq!(told.scan.is_none(), told.refusal == NO_SCAN);
        told.scan.map(|scan| scan.serial)
    };
    std::iter::from_fn(take).collect()
}

fn assert_write_refused(c: &Controller, image: &[u32], pages: [u32; 2], length: usize, no: u8) {
    let bytes = vec![0x41; length];
    assert_refused(&mut c.clone(), &mut image.to_vec(), no, |c, image| {
        let told = write_scan(c, image, pages, &bytes, ALL_STEPS);
        assert!(!told.cut);
        told.refusal
    });
}

fn assert_take_refused(c: &Controller, image: &[u32], pages: [u32; 2], no: u8) {
    assert_refused(&mut c.clone(), &mut image.to_vec(), no, |c, image| {
        let told = take_scan(c, image, pages, ALL_STEPS);
        assert_eq!((told.cut, told.scan), (false, None));
        told.refusal
    });
}

// -- slots -----------------------------------------------------------------

#[test]
fn the_first_scan_has_serial_1_and_its_lowest_byte_first() {
    let mut image = erased();
    write(&mut image, &[0xAA, 0xBB, 0xCC]);
    let mut expected = erased();
    expected[768] = 0;
    expected[770] = 0xBBAA_0301;
    expected[771] = 0xFFFF_FFCC;
    assert!(image == expected);
}

/// 2^28 - 1 has four groups; a slot then has three bytes to spare.
#[test]
fn the_longest_scan_fits() {
    let mut image = erased();
    put(
        &mut image,
        HIGHER,
        4,
        words(0, 0, &[0xFE, 0xFF, 0xFF, 0x7F, 1, 9]),
    );
    write(&mut image, &[0; 48]);
    let mut body = vec![0xFF, 0xFF, 0xFF, 0x7F, 48];
    body.extend([0; 48]);
    assert_eq!(slot_at(&image, LOWER, 0), words(0, ONES, &body));
    let scan = Scan {
        serial: LAST_SERIAL,
        bytes: vec![0; 48],
    };
    assert_eq!(slot(&words(0, ONES, &body)), Slot::Waiting(scan));
}

#[test]
fn a_slot_is_sealed_by_a_seal_of_0_alone() {
    assert_eq!(slot(&[ONES; 16]), Slot::Unused);
    let body = [5, 1, 0x41];
    for seal in [ONES, 1, 1 << 31, !1] {
        assert_eq!(slot(&words(seal, ONES, &body)), Slot::Dead);
    }
    let scan = || Scan {
        serial: 5,
        bytes: vec![0x41],
    };
    assert_eq!(slot(&words(0, ONES, &body)), Slot::Waiting(scan()));
    assert_eq!(slot(&words(0, 0, &body)), Slot::Taken(scan()));
    for mark in [1, 1 << 31, !1] {
        assert_eq!(slot(&words(0, mark, &body)), Slot::OddMark(scan()));
        assert_eq!(slot(&words(ONES, mark, &[])), Slot::Dead);
    }
}

/// Numbers not in their shortest form, numbers out of range, and a byte behind the scan.
#[test]
fn what_is_not_well_formed_is_dead() {
    let dead: [&[u8]; 10] = [
        &[0x80, 0, 1, 0x41],
        &[0x85, 0x80, 0, 1, 0x41],
        &[5, 0x81, 0, 0x41],
        &[5, 0, 0x41],
        &[5, 49],
        &[5, 0xB0, 1],
        &[0x80, 0x80, 0x80, 0x80, 1, 1, 0x41],
        &[5, 1, 0x41, 0xFE],
        &[5, 1, 0x41, 0xFF, 0],
        &[],
    ];
    for bytes in dead {
        assert_eq!(slot(&words(0, ONES, bytes)), Slot::Dead, "{bytes:x?}");
    }
    let mut last_byte = words(0, ONES, &[5, 1, 0x41]);
    last_byte[15] = 0x7FFF_FFFF;
    assert_eq!(slot(&last_byte), Slot::Dead);
}

/// A scan may end with bytes of ones, and its serial may be 0.
#[test]
fn what_is_well_formed_is_sealed() {
    let ones = Scan {
        serial: 0,
        bytes: vec![0xFF; 3],
    };
    assert_eq!(slot(&words(0, ONES, &[0, 3])), Slot::Waiting(ones));
}

// -- taking ----------------------------------------------------------------

/// Whatever their places, and however the pages are named.
#[test]
fn the_oldest_is_the_lowest_serial_then_the_lowest_place() {
    let mut image = erased();
    for (page, slot, serial, byte) in [
        (LOWER, 0, 9, 1),
        (LOWER, 15, 4, 2),
        (HIGHER, 0, 4, 3),
        (HIGHER, 7, 2, 4),
    ] {
        put(&mut image, page, slot, words(0, ONES, &[serial, 1, byte]));
    }
    put(&mut image, LOWER, 3, taken(1));
    for pages in [PAGES, [HIGHER, LOWER]] {
        let mut image = image.clone();
        for (serial, byte, mark) in [
            (2, 4, place(HIGHER, 7)),
            (4, 2, place(LOWER, 15)),
            (4, 3, place(HIGHER, 0)),
            (9, 1, place(LOWER, 0)),
        ] {
            let mut expected = image.clone();
            expected[mark + 1] = 0;
            let told = take_scan(&mut ready(), &mut image, pages, 1);
            let bytes = vec![byte];
            assert_eq!(told.scan, Some(Scan { serial, bytes }));
            assert!(image == expected);
        }
        assert_take_refused(&ready(), &image, pages, NO_SCAN);
    }
}

#[test]
fn an_odd_mark_neither_waits_nor_keeps_its_page_but_counts_for_the_highest() {
    let odd = with_serial(0xFFFF_FFFE, 80);
    let mut image = full_but_for(&[odd], &[waiting(7)]);
    assert_eq!(serials(&image), [7]);
    write(&mut image, &[1]);
    assert_eq!(slot_at(&image, LOWER, 0), words(0, ONES, &[81, 1, 1]));
    assert_eq!(slot_at(&image, LOWER, 1), [ONES; 16]);
    assert_eq!(serials(&image), [7, 81]);
}

// -- writing ---------------------------------------------------------------

#[test]
fn the_unused_slot_of_lowest_place_is_used_even_if_both_pages_wait() {
    let mut image = full_but_for(&[waiting(1)], &[waiting(2)]);
    put(&mut image, HIGHER, 9, [ONES; 16]);
    put(&mut image, HIGHER, 12, [ONES; 16]);
    write(&mut image, &[1]);
    assert_eq!(slot_at(&image, HIGHER, 9), words(0, ONES, &[3, 1, 1]));
    put(&mut image, LOWER, 15, [ONES; 16]);
    write(&mut image, &[2]);
    assert_eq!(slot_at(&image, LOWER, 15), words(0, ONES, &[4, 1, 2]));
    assert_eq!(serials(&image), [1, 2, 3, 4]);
}

#[test]
fn one_waiting_in_each_page_and_thirty_dead_is_full() {
    let full = full_but_for(&[waiting(1)], &[waiting(2)]);
    assert_write_refused(&ready(), &full, PAGES, 1, SCANS_FULL);
    assert_write_refused(&ready(), &full, PAGES, 48, SCANS_FULL);
    let mut image = full_but_for(&[waiting(1)], &[taken(2)]);
    write(&mut image, &[1]);
    assert_eq!(serials(&image), [1, 3]);
}

/// The higher page goes only if the lower has a waiting slot.
#[test]
fn the_lower_page_with_no_waiting_slot_is_erased() {
    let none_waits = full_but_for(&[taken(1)], &[taken(2)]);
    for (lower, erased_page, other) in [(taken(1), LOWER, HIGHER), (waiting(1), HIGHER, LOWER)] {
        let mut image = none_waits.clone();
        put(&mut image, LOWER, 5, lower);
        let before = image.clone();
        write(&mut image, &[7]);
        assert_eq!(slot_at(&image, erased_page, 0), words(0, ONES, &[3, 1, 7]));
        for slot in 1..16 {
            assert_eq!(slot_at(&image, erased_page, slot), [ONES; 16]);
        }
        for slot in 0..16 {
            assert_eq!(slot_at(&image, other, slot), slot_at(&before, other, slot));
        }
    }
}

/// The page that is erased holds the highest.
#[test]
fn the_new_serial_is_settled_before_the_erase() {
    let mut image = full_but_for(&[taken(90)], &[waiting(7)]);
    write(&mut image, &[1]);
    assert_eq!(serials(&image), [7, 91]);
}

// -- refusals --------------------------------------------------------------

#[test]
fn a_length_or_serial_out_of_range_is_18_before_17() {
    let full = full_but_for(&[waiting(1)], &[waiting(2)]);
    for length in [0, 49, 1_000] {
        assert_write_refused(&ready(), &full, PAGES, length, BAD_SCAN);
        assert_write_refused(&ready(), &erased(), PAGES, length, BAD_SCAN);
    }
    let last = [0xFF, 0xFF, 0xFF, 0x7F, 1, 9];
    let mut spent = full.clone();
    put(&mut spent, HIGHER, 8, words(0, 0, &last));
    assert_write_refused(&ready(), &spent, PAGES, 1, BAD_SCAN);
    // Not sealed, it does not count.
    put(&mut spent, HIGHER, 8, words(ONES, 0, &last));
    assert_write_refused(&ready(), &spent, PAGES, 1, SCANS_FULL);
}

#[test]
fn pages_that_do_not_serve_are_16_before_18_and_19() {
    let mut c = ready();
    assert_eq!(set_region(&mut c, 2, region(5, 1, 3)), NONE);
    assert_eq!(set_region(&mut c, 4, region(5, 2, 7)), NONE);
    for bad in [LOWER, 5, 2 * D, u32::MAX] {
        for pages in [[LOWER, bad], [bad, LOWER]] {
            assert_write_refused(&c, &erased(), pages, 49, BAD_PAGES);
            assert_take_refused(&c, &erased(), pages, BAD_PAGES);
        }
    }
    assert_take_refused(&c, &erased(), [2 * D - 1, 6], NO_SCAN);
    for bank in 0..2 {
        assert_eq!(set_bank_erase_permission(&mut c, bank, false), NONE);
    }
    assert_take_refused(&c, &erased(), PAGES, NO_SCAN);
}

#[test]
fn refusals_1_to_4_come_before_16() {
    let same = [LOWER, LOWER];
    let mut queued = started(data(READ, 0, 1));
    assert_eq!(step(&mut queued, &mut erased()), FINISHED);
    let mut broken = started(data(READ, 0, 1));
    broken.default_rights = 8;
    for (c, refusal) in [
        (broken, INVALID),
        (disabled(), DISABLED),
        (uninitialised(D), UNINITIALISED),
        (started(data(READ, 0, 1)), BUSY),
        (queued, BUSY),
    ] {
        assert_write_refused(&c, &erased(), same, 49, refusal);
        assert_take_refused(&c, &erased(), same, refusal);
        assert_write_refused(&c, &erased()[1..], same, 49, INVALID);
        assert_take_refused(&c, &erased()[1..], same, INVALID);
    }
}

// -- steps -----------------------------------------------------------------

/// The operation that is in progress: kind, address, count and words moved.
fn in_progress(c: &Controller) -> Option<(u8, u32, u32, u32)> {
    let (operation, moved) = match c.in_progress {
        InProgress::Program { operation, moved } => (operation, moved),
        InProgress::Erase { operation, moved } => (operation, moved),
        _ => return None,
    };
    Some((operation.kind, operation.address, operation.count, moved))
}

/// Page 3 begins at 0xC00: 256 steps of its erase, 14 of words 2 to 15, one of the seal.
#[test]
fn a_write_is_cut_in_the_operation_that_has_no_step_left() {
    let full = full_but_for(&[taken(1)], &[taken(2)]);
    for (image, steps, left) in [
        (&erased(), 0, Some((PROGRAM, 0xC08, 14, 0))),
        (&erased(), 13, Some((PROGRAM, 0xC08, 14, 13))),
        (&erased(), 14, Some((PROGRAM, 0xC00, 1, 0))),
        (&erased(), 15, None),
        (&full, 0, Some((PAGE_ERASE, 0xC00, 0, 0))),
        (&full, 255, Some((PAGE_ERASE, 0xC00, 0, 255))),
        (&full, 256, Some((PROGRAM, 0xC08, 14, 0))),
        (&full, 270, Some((PROGRAM, 0xC00, 1, 0))),
        (&full, 271, None),
    ] {
        let (mut c, mut image) = (ready(), image.clone());
        let told = write_scan(&mut c, &mut image, PAGES, &[1], steps);
        assert_eq!((told.refusal, told.cut), (NONE, left.is_some()));
        assert_eq!(in_progress(&c), left);
        assert_eq!(serials(&image).is_empty(), left.is_some());
    }
}

#[test]
fn a_take_without_a_step_hands_out_nothing() {
    let mut image = erased();
    write(&mut image, &[1]);
    let mut c = ready();
    let told = take_scan(&mut c, &mut image, PAGES, 0);
    assert_eq!((told.refusal, told.cut, told.scan), (NONE, true, None));
    assert_eq!(in_progress(&c), Some((PROGRAM, 0xC04, 1, 0)));
    assert_eq!(serials(&image), [1]);
}

/// An operation of each kind that moves 5 words or more, and the buffer that it finds.
fn operations() -> [(Operation, Vec<u32>); 4] {
    [
        (data(READ, 0x3F8, 5), vec![7; 6]),
        (data(PROGRAM, 0x400, 5), vec![0; 6]),
        (info(PAGE_ERASE, 2, 0x400, 0), vec![7; 6]),
        (data(BANK_ERASE, 0x4000, 0), vec![7; 6]),
    ]
}

/// Each word is read and popped, or pushed and programmed, before the next.
#[test]
fn an_operation_with_few_steps_is_left_as_after_so_many() {
    for (operation, buffer) in operations() {
        let (mut c, mut image, mut ran_buffer) = (ready(), patterned(), buffer.clone());
        let told = run_for(&mut c, operation, &mut image, &mut ran_buffer, 3);
        let (mut expected, mut flash, mut words) = (started(operation), patterned(), buffer);
        let mut bits = 0;
        for word in &mut words[..3] {
            if operation.kind == PROGRAM {
                assert_eq!(push(&mut expected, *word), NONE);
            }
            bits += step(&mut expected, &mut flash).bits;
            if operation.kind == READ {
                *word = pop(&mut expected).word;
            }
        }
        let cut = RanFor {
            bits,
            cut: true,
            ..RanFor::default()
        };
        assert_eq!(told, cut);
        assert!((c, image, ran_buffer) == (expected, flash, words));
    }
}

#[test]
fn an_operation_with_steps_enough_is_a_whole_one() {
    for (operation, buffer) in operations() {
        let words = words_to_move(D, &operation) as u32;
        let (mut c, mut image, mut whole_buffer) = (ready(), patterned(), buffer.clone());
        let done = whole(&mut c, operation, &mut image, &mut whole_buffer);
        for steps in [words, words + 2, ALL_STEPS] {
            let (mut ran_c, mut flash, mut ran_buffer) = (ready(), patterned(), buffer.clone());
            let told = run_for(&mut ran_c, operation, &mut flash, &mut ran_buffer, steps);
            assert_eq!((told.refusal, told.bits), (done.refusal, done.bits));
            assert_eq!((told.left, told.cut), (steps - words, false));
            assert!((ran_c, flash) == (c.clone(), image.clone()));
            assert_eq!(ran_buffer, whole_buffer);
        }
    }
}

/// A denied read goes on with its 9; what is refused keeps all its steps.
#[test]
fn an_operation_with_few_steps_answers_as_its_start() {
    let mut c = ready();
    assert_eq!(set_region(&mut c, 6, region(1, 1, 6)), NONE);
    let mut buffer = [7; 4];
    let told = run_for(
        &mut c,
        data(READ, 0x3FC, 4),
        &mut patterned(),
        &mut buffer,
        2,
    );
    let decider = Some(Decider::Region(6));
    assert_eq!((told.refusal, told.decider), (DENIED, decider));
    assert_eq!((told.left, told.cut), (0, true));
    assert_eq!(buffer, [mark(255), ONES, 7, 7]);
    for (operation, refusal) in [
        (data(9, 0, 1), MALFORMED),
        (data(READ, 0, 5), SHORT_BUFFER),
        (data(PAGE_ERASE, 0x8000, 1), OUT_OF_RANGE),
        (data(PROGRAM, 0x3C, 2), CROSSES_WINDOW),
    ] {
        let told = run_for(&mut ready(), operation, &mut patterned(), &mut buffer, 2);
        assert_eq!((told.refusal, told.bits), (refusal, 0));
        assert_eq!((told.left, told.cut), (2, false));
    }
}
