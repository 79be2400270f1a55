//! The operation in progress, the queues and the records, in both directions.

use crate::helpers::*;
use reference::interface::calls;
use reference::interface::flat::{
    self, Controller, Operation, BANK_ERASE, PAGE_ERASE, PROGRAM, READ,
};

/// Unused fields of the progress, to be overwritten by a start.
fn with_old_progress(mut c: Controller) -> Controller {
    c.progress = flat::Progress {
        operation: Operation {
            address: 0x1111,
            count: 0x2222,
            kind: 0x3333,
            partition: 0x4444,
            info_type: 0x5555,
        },
        moved: 0x6666,
        readable: 0x7777,
        running: 0,
    };
    c
}

#[test]
fn each_field_of_a_started_operation_is_left_in_progress() {
    for (operation, readable) in [
        (data(READ, 0x1234, 0x3FF), 0x3FF),
        (info(READ, 2, 0x4404, 9), 9),
        (info(PROGRAM, 1, 0x03C4, 15), 0),
        (data(PROGRAM, 0x7FFC, 1), 0),
        (info(PAGE_ERASE, 0, 0x67FC, 0xDEAD_BEEF), 0),
        (
            Operation {
                info_type: 0xEE,
                ..data(PAGE_ERASE, 0x7C00, 0)
            },
            0,
        ),
        (info(BANK_ERASE, 0xC3, 0x4008, 0xFFFF_FFFF), 0),
        (
            Operation {
                info_type: 0xEE,
                ..data(BANK_ERASE, 4, 7)
            },
            0,
        ),
    ] {
        for base in [ready(), with_old_progress(ready())] {
            let (answer, after) = left(base, |c| calls::start(c, operation).answer);
            let progress = flat::Progress {
                operation,
                moved: 0,
                readable,
                running: 1,
            };
            assert_eq!(answer, 0);
            assert_eq!(after, Controller { progress, ..base });
        }
    }
}

/// A kind, partition or type over 255 counts as 255, also where its low bits are those of a right one.
#[test]
fn each_large_field_of_an_operation_counts_as_255() {
    for large in [256, 257, 259, 300, 1 << 16, 1 << 31, u32::MAX] {
        let read = data(READ, 0x0404, 3);
        let malformed = [
            data(large, 0x0404, 3),
            info(READ, large, 0x0404, 3),
            Operation {
                partition: large,
                ..read
            },
        ];
        for operation in malformed {
            let (answer, after) = left(ready(), |c| calls::start(c, operation).answer);
            assert_eq!(answer, 5, "{operation:?}");
            let recorded = [("recorded", 1 << 5), ("last_address", 0x0404)];
            assert_changed(&after, &ready(), &recorded);
        }
        let unused = Operation {
            info_type: large,
            ..read
        };
        let (answer, after) = left(ready(), |c| calls::start(c, unused).answer);
        assert_eq!(answer, 0);
        assert_eq!(after.progress.operation.info_type, 255);
        assert_changed(
            &with(&after, "progress.operation.info_type", 0),
            &with_progress(ready(), read, 0),
            &[],
        );
    }
}

#[test]
fn a_read_denied_at_its_first_word_is_in_progress_with_nothing_readable() {
    let operation = data(READ, 0x0404, 3);
    let (answer, mut after) = left(with_old_progress(ready_without_rights()), |c| {
        calls::start(c, operation).answer
    });
    assert_eq!(answer, 9);
    assert_changed(
        &after,
        &ready_without_rights(),
        &[
            ("progress.operation.address", 0x0404),
            ("progress.operation.count", 3),
            ("progress.running", 1),
            ("recorded", 1 << 9),
            ("last_address", 0x0404),
        ],
    );
    calls::step(&mut after, &mut image());
    assert_eq!(after.read_queue.words[0], u32::MAX);
}

#[test]
fn a_denied_read_is_in_progress_with_its_readable_words() {
    let base = without_reading(17);
    let (answer, after) = left(with_old_progress(base), |c| {
        calls::start(c, data(READ, 0x43F8, 20)).answer
    });
    assert_eq!(answer, 9);
    assert_changed(
        &after,
        &base,
        &[
            ("progress.operation.address", 0x43F8),
            ("progress.operation.count", 20),
            ("progress.readable", 2),
            ("progress.running", 1),
            ("recorded", 1 << 9),
            ("last_address", 0x4400),
        ],
    );
}

/// Page 16 may be read, page 17 not, page 18 again.
#[test]
fn each_step_of_a_denied_read_moves_a_stored_word_or_ones() {
    let c = without_reading(17);
    let read = data(READ, 0x43F8, 300);
    for (moved, word) in [
        (0, 7_424 + 254),
        (1, 7_424 + 255),
        (2, u32::MAX),
        (257, u32::MAX),
        (258, u32::MAX),
        (299, u32::MAX),
    ] {
        let mut c = with(&with_progress(c, read, moved), "progress.readable", 2);
        assert_eq!(calls::step(&mut c, &mut image()).answer, 0);
        assert_eq!(calls::pop(&mut c).word, word, "{moved} moved");
    }
}

/// The bus word that the next step of a read delivers, which tells its place.
fn next_read(operation: Operation, moved: u32) -> u32 {
    let mut c = with_progress(ready(), operation, moved);
    assert_eq!(calls::step(&mut c, &mut image()).answer, 0);
    assert_eq!(c.progress.moved, moved + 1);
    calls::pop(&mut c).word
}

/// Each field of an operation in progress alone moves the word that is read.
#[test]
fn each_field_of_an_operation_in_progress_is_understood() {
    assert_eq!(next_read(data(READ, 0x0400, 9), 0), 256);
    assert_eq!(next_read(data(READ, 0x0404, 9), 0), 257);
    assert_eq!(next_read(data(READ, 0x0400, 9), 7), 263);
    assert_eq!(next_read(data(READ, 0x4400, 9), 0), 7_424 + 256);
    assert_eq!(next_read(info(READ, 0, 0x0400, 9), 0), 4_352);
    assert_eq!(next_read(info(READ, 1, 0x0000, 9), 0), 26 * 256);
    assert_eq!(next_read(info(READ, 2, 0x0400, 9), 0), 28 * 256);
}

/// The last moving step ends the operation, and with it every field of the progress.
#[test]
fn count_and_kind_in_progress_decide_the_end() {
    for (operation, words) in [
        (data(READ, 0x0400, 9), 9),
        (data(PAGE_ERASE, 0x0400, 9), 256),
        (data(BANK_ERASE, 0x0400, 9), 4_096),
        (info(BANK_ERASE, 9, 0x0400, 9), 7_424),
    ] {
        let mut c = with_progress(ready(), operation, words - 2);
        let mut image = image();
        let given = calls::step(&mut c, &mut image);
        assert_eq!((given.answer, given.movement), (0, flat::MOVEMENT_MOVED));
        let given = calls::step(&mut c, &mut image);
        assert_eq!((given.answer, given.movement), (0, flat::MOVEMENT_FINISHED));
        assert_eq!(c.progress, flat::Progress::default());
    }
}

/// `readable` of a program or an erase is looked at by no rule.
#[test]
fn readable_of_a_program_is_free() {
    let mut c = with_progress(ready(), data(PROGRAM, 0x0400, 4), 0);
    c.progress.readable = 0xABCD;
    let (answer, after) = left(c, |c| calls::push(c, 5));
    assert_eq!(answer, 0);
    assert_eq!(after.progress, c.progress);
}

#[test]
fn each_word_of_the_read_queue_is_popped_in_its_turn() {
    for length in 1..=16 {
        let mut c = ready();
        c.read_queue.length = length;
        c.read_queue.words = std::array::from_fn(|i| 0x0100_0000 * (i as u32 + 1) + 9);
        for i in 0..length {
            let given = calls::pop(&mut c);
            assert_eq!((given.answer, given.word), (0, 0x0100_0000 * (i + 1) + 9));
            assert_eq!(c.read_queue.length, length - 1 - i);
        }
        assert_eq!(calls::pop(&mut c).answer, 10);
        assert_eq!(c, ready());
    }
}

#[test]
fn each_read_word_lands_in_the_next_place_of_the_read_queue() {
    let (_, mut c) = left(ready(), |c| calls::start(c, data(READ, 0x0400, 20)));
    let mut image = image();
    for place in 0..16 {
        let (_, after) = left(c, |c| calls::step(c, &mut image));
        assert_changed(
            &after,
            &c,
            &[
                ("progress.moved", place + 1),
                (&format!("read_queue.words[{place}]"), 256 + place),
                ("read_queue.length", place + 1),
            ],
        );
        c = after;
    }
    let (waiting, after) = left(c, |c| calls::step(c, &mut image));
    assert_eq!(
        (waiting.answer, waiting.movement),
        (0, flat::MOVEMENT_STALLED)
    );
    assert_changed(&after, &c, &[]);
}

#[test]
fn each_pushed_word_lands_in_the_program_queue_and_then_in_flash() {
    let word = |place: u32| 0xF0F0_0000 | place;
    let (_, mut c) = left(ready(), |c| calls::start(c, data(PROGRAM, 0x0440, 16)));
    for place in 0..16 {
        let (answer, after) = left(c, |c| calls::push(c, word(place)));
        assert_eq!(answer, 0);
        let field = format!("program_queue.words[{place}]");
        assert_changed(
            &after,
            &c,
            &[(&field, word(place)), ("program_queue.length", place + 1)],
        );
        c = after;
    }
    let mut flash = vec![u32::MAX; image().len()];
    for place in 0..16 {
        let given = calls::step(&mut c, &mut flash);
        assert_eq!(given.answer, 0);
        assert_eq!(given.bits, word(place).count_zeros());
        assert_eq!(flash[272 + place as usize], word(place));
        assert_eq!(c.program_queue.length, 15 - place);
    }
    assert_eq!(c, ready());
    assert_eq!(flash.iter().filter(|word| **word != u32::MAX).count(), 16);
}

#[test]
fn each_recorded_kind_has_its_bit_and_its_address() {
    let mut c = with(&ready(), "default_rights", 5);
    let mut kinds = 0;
    for (operation, answer) in [
        (data(77, 0x11, 1), 5),
        (data(READ, 0x8000, 1), 7),
        (data(PROGRAM, 0x3C, 2), 8),
        (data(PROGRAM, 0x40, 1), 9),
    ] {
        let (given, after) = left(c, |c| calls::start(c, operation).answer);
        kinds |= 1 << answer;
        assert_eq!(given, answer);
        assert_changed(
            &after,
            &c,
            &[("recorded", kinds), ("last_address", operation.address)],
        );
        c = after;
    }
    let (_, cleared) = left(c, calls::clear_errors);
    assert_changed(&cleared, &c, &[("recorded", 0), ("last_address", 0)]);
}
