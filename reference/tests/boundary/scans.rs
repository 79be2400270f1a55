//! Calls with a number of steps: every argument, every field of the results, and
//! what is left in progress.

use crate::helpers::*;
use reference::interface::calls;
use reference::interface::flat::{
    self, Controller, Operation, RanFor, ScanBytes, ScanTaken, ScanWritten, BY_DEFAULT, NO_DECIDER,
    PAGE_ERASE, PROGRAM, READ,
};

/// One page in each bank: bus words 768 and 8,448, byte addresses 0x0C00 and 0x5000.
const PAGES: [u32; 2] = [3, 20];

fn blank() -> Vec<u32> {
    vec![u32::MAX; image().len()]
}

fn write(c: &mut Controller, flash: &mut [u32], pages: [u32; 2], bytes: &[u8]) -> ScanWritten {
    calls::write_scan_for(c, flash, pages, bytes, u32::MAX)
}

fn take(c: &mut Controller, flash: &mut [u32], pages: [u32; 2]) -> ScanTaken {
    calls::take_scan_for(c, flash, pages, u32::MAX)
}

/// 48 bytes, no two alike.
fn bytes() -> [u8; 48] {
    std::array::from_fn(|i| 0xA0 ^ i as u8)
}

#[test]
fn each_byte_of_a_scan_arrives_and_is_handed_out() {
    for length in 1..=48 {
        let (mut c, mut flash) = (ready(), blank());
        let written = write(&mut c, &mut flash, PAGES, &bytes()[..length]);
        assert_eq!(written, ScanWritten { answer: 0, cut: 0 });
        let stored: Vec<u8> = flash[770..784]
            .iter()
            .flat_map(|word| word.to_le_bytes())
            .collect();
        assert_eq!(stored[..2], [1, length as u8]);
        assert_eq!(stored[2..2 + length], bytes()[..length]);
        assert!(stored[2 + length..].iter().all(|byte| *byte == 0xFF));
        let mut given = [0; 48];
        given[..length].copy_from_slice(&bytes()[..length]);
        let taken = ScanTaken {
            answer: 0,
            cut: 0,
            serial: 1,
            length: length as u32,
            bytes: ScanBytes(given),
        };
        assert_eq!(take(&mut c, &mut flash, PAGES), taken);
        assert_eq!(flash[768..770], [0, 0]);
        assert_eq!(c, ready());
    }
}

/// The length is looked at before any byte is.
#[test]
fn the_length_of_a_scan_arrives() {
    for length in [0, 49, 256, 257, 1 << 16] {
        let told = write(&mut ready(), &mut blank(), PAGES, &vec![7; length]);
        assert_eq!(told, ScanWritten { answer: 18, cut: 0 });
    }
}

#[test]
fn a_serial_of_four_groups_is_handed_out() {
    let mut flash = blank();
    flash[8_448] = 0;
    flash[8_450] = 0x7FFE_FDFC;
    flash[8_451] = 0xFFFF_4101;
    let serial = 0x7C + (0x7D << 7) + (0x7E << 14) + (0x7F << 21);
    let told = take(&mut ready(), &mut flash, PAGES);
    assert_eq!((told.answer, told.serial, told.length), (0, serial, 1));
    assert_eq!(told.bytes.0[..2], [0x41, 0]);
}

#[test]
fn a_refused_take_gives_zeros() {
    let refused = |answer| ScanTaken {
        answer,
        ..ScanTaken::default()
    };
    assert_eq!(take(&mut ready(), &mut blank(), PAGES), refused(19));
    assert_eq!(take(&mut ready(), &mut blank(), [3, 3]), refused(16));
    let mut fresh = uninitialised();
    assert_eq!(take(&mut fresh, &mut blank(), PAGES), refused(3));
}

/// Each page by itself, past the end, and without one of its rights.
#[test]
fn each_page_arrives() {
    for (pages, answer) in [
        ([0, 2 * D - 1], 0),
        ([2 * D - 1, 0], 0),
        ([D - 1, D], 0),
        ([2 * D, 0], 16),
        ([0, 2 * D], 16),
        ([1 << 31, 0], 16),
        ([0, u32::MAX], 16),
        ([256, 0], 16),
        ([7, 7], 16),
    ] {
        assert_eq!(
            write(&mut ready(), &mut blank(), pages, &[1]).answer,
            answer
        );
        let none_waits = if answer == 0 { 19 } else { 16 };
        assert_eq!(take(&mut ready(), &mut blank(), pages).answer, none_waits);
    }
    for rights in 0..7 {
        let mut c = ready();
        c.regions[5] = flat::Region {
            first_page: 20,
            page_count: 1,
            on: 1,
            rights,
        };
        for pages in [PAGES, [20, 3]] {
            assert_eq!(write(&mut c, &mut blank(), pages, &[1]).answer, 16);
            assert_eq!(take(&mut c, &mut blank(), pages).answer, 16);
        }
        assert_eq!(write(&mut c, &mut blank(), [19, 21], &[1]).answer, 0);
    }
}

#[test]
fn the_length_of_the_image_arrives() {
    let mut flash = image();
    let right = flash.len();
    flash.push(0);
    for length in [0, 1, right - 1, right + 1] {
        let lent = &mut flash[..length];
        assert_eq!(write(&mut ready(), lent, PAGES, &[1]).answer, 1);
        assert_eq!(take(&mut ready(), lent, PAGES).answer, 1);
        let read = data(READ, 0, 1);
        assert_eq!(
            calls::run_for(&mut ready(), lent, read, &mut [0], 1).answer,
            1
        );
    }
}

/// The operation that is in progress after a cut, and how many words it has moved.
fn left_by_write(flash: &[u32], steps: u32) -> Option<(Operation, u32)> {
    let mut flash = flash.to_vec();
    let (told, after) = left(ready(), |c| {
        calls::write_scan_for(c, &mut flash, PAGES, &[1], steps)
    });
    let cut = after.progress.running;
    assert_eq!(told, ScanWritten { answer: 0, cut });
    let Controller { progress, .. } = after;
    assert_eq!(
        after,
        Controller {
            progress,
            ..ready()
        }
    );
    (cut == 1).then_some((progress.operation, progress.moved))
}

/// In an image of marks every slot is dead.
#[test]
fn each_number_of_steps_arrives() {
    let erase = data(PAGE_ERASE, 0xC00, 0);
    let fill = data(PROGRAM, 0xC08, 14);
    let seal = data(PROGRAM, 0xC00, 1);
    let from_fill = |steps| match steps {
        0..=13 => Some((fill, steps)),
        14 => Some((seal, 0)),
        _ => None,
    };
    for steps in (0..20).chain([255, 256, 1 << 16, 1 << 31]) {
        assert_eq!(left_by_write(&blank(), steps), from_fill(steps));
    }
    for steps in (0..280_u32).chain([512, 1 << 16, 1 << 31]) {
        let expected = match steps.checked_sub(256) {
            None => Some((erase, steps)),
            Some(steps) => from_fill(steps),
        };
        assert_eq!(left_by_write(&image(), steps), expected);
    }
}

#[test]
fn a_take_without_a_step_leaves_its_mark_in_progress() {
    let mut flash = blank();
    write(&mut ready(), &mut flash, PAGES, &[0x41]);
    let before = flash.clone();
    let (told, after) = left(ready(), |c| calls::take_scan_for(c, &mut flash, PAGES, 0));
    let cut = ScanTaken {
        cut: 1,
        ..ScanTaken::default()
    };
    assert_eq!(told, cut);
    assert_eq!(flash, before);
    assert_eq!(after, with_progress(ready(), data(PROGRAM, 0xC04, 1), 0));
}

/// What an operation with a number of steps tells and leaves, of an image of marks.
fn ran(
    c: Controller,
    operation: Operation,
    buffer: &mut [u32],
    steps: u32,
) -> (RanFor, Controller) {
    left(c, |c| {
        calls::run_for(c, &mut image(), operation, buffer, steps)
    })
}

#[test]
fn each_result_of_an_operation_with_steps_arrives() {
    let mut buffer = [7; 4];
    let (told, after) = ran(ready(), data(READ, 0x404, 3), &mut buffer, 2);
    let cut = |answer, decider, bits| RanFor {
        answer,
        decider,
        bits,
        left: 0,
        cut: 1,
    };
    assert_eq!(told, cut(0, NO_DECIDER, 0));
    assert_eq!(buffer, [257, 258, 7, 7]);
    assert_changed(
        &after,
        &with_progress(ready(), data(READ, 0x404, 3), 2),
        &[],
    );

    let read = data(READ, 0x404, 3);
    let mut buffer = [7; 4];
    let (told, after) = ran(ready_without_rights(), read, &mut buffer, 1);
    assert_eq!(told, cut(9, BY_DEFAULT, 0));
    assert_eq!(buffer, [u32::MAX, 7, 7, 7]);
    let denied = with(
        &with_progress(ready_without_rights(), read, 1),
        "progress.readable",
        0,
    );
    let recorded = [("recorded", 1 << 9), ("last_address", 0x404)];
    assert_changed(&after, &denied, &recorded);

    let erase = data(PAGE_ERASE, 0x404, 9);
    let (told, after) = ran(ready(), erase, &mut [], 2);
    let bits = 256_u32.count_zeros() + 257_u32.count_zeros();
    assert_eq!(told, cut(0, NO_DECIDER, bits));
    assert_changed(&after, &with_progress(ready(), erase, 2), &[]);
}

#[test]
fn steps_that_are_left_are_told() {
    for (operation, words) in [
        (data(READ, 0x404, 3), 3),
        (data(PROGRAM, 0x404, 4), 4),
        (data(PAGE_ERASE, 0x404, 9), 256),
    ] {
        for spare in [0, 1, 1_000, 1 << 31] {
            let (told, after) = ran(ready(), operation, &mut [0; 4], words + spare);
            assert_eq!((told.answer, told.left, told.cut), (0, spare, 0));
            assert_eq!(after, ready());
        }
    }
    for steps in [0, 5, u32::MAX] {
        let refused = |answer| RanFor {
            answer,
            decider: NO_DECIDER,
            left: steps,
            ..RanFor::default()
        };
        let (told, after) = ran(ready(), data(READ, 0x404, 5), &mut [7; 4], steps);
        assert_eq!((told, after), (refused(6), ready()));
        let (told, after) = ran(ready(), data(9, 0x404, 5), &mut [7; 4], steps);
        assert_eq!(told, refused(5));
        let recorded = [("recorded", 1 << 5), ("last_address", 0x404)];
        assert_changed(&after, &ready(), &recorded);
    }
}

/// From its place in the buffer, each pushed before its own step.
#[test]
fn each_word_of_a_program_with_steps_arrives() {
    let words: [u32; 16] = std::array::from_fn(|i| 0xF0F0_0000 | i as u32);
    let program = data(PROGRAM, 0x4440, 16);
    for steps in 0..=16 {
        let (mut flash, mut buffer) = (blank(), words);
        let (told, after) = left(ready(), |c| {
            calls::run_for(c, &mut flash, program, &mut buffer, steps)
        });
        let made = steps as usize;
        let bits: u32 = words[..made].iter().map(|word| word.count_zeros()).sum();
        assert_eq!((told.answer, told.bits), (0, bits));
        assert_eq!(flash[7_696..7_696 + made], words[..made]);
        assert!(flash[7_696 + made..].iter().all(|word| *word == u32::MAX));
        assert_eq!(buffer, words);
        let cut = with_progress(ready(), program, steps);
        assert_eq!(after, if steps < 16 { cut } else { ready() });
    }
}
