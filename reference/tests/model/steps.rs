//! Start, step, push and pop: what moves, what waits, what is counted.

use crate::helpers::*;
use reference::model::*;

#[test]
fn start_keeps_the_operation_as_given() {
    let op = operation(READ, DATA, 99, 0x100, 5);
    assert_eq!(
        started(op).in_progress,
        InProgress::Read {
            operation: op,
            moved: 0,
            readable: 5
        }
    );
    let op = operation(PROGRAM, DATA, 200, 0x100, 5);
    assert_eq!(
        started(op).in_progress,
        InProgress::Program {
            operation: op,
            moved: 0
        }
    );
    let op = operation(BANK_ERASE, INFORMATION, 255, 0x100, 77_777);
    assert_eq!(
        started(op).in_progress,
        InProgress::Erase {
            operation: op,
            moved: 0
        }
    );
}

#[test]
fn start_changes_nothing_but_what_is_in_progress() {
    let mut expected = ready();
    let c = started(data(PAGE_ERASE, 0, 0));
    expected.in_progress = c.in_progress;
    assert_eq!(c, expected);
}

#[test]
fn a_read_moves_one_word_for_each_step() {
    let mut c = started(data(READ, 0x40, 3));
    let mut image = patterned();
    assert_eq!(step(&mut c, &mut image), MOVED);
    assert_eq!(c.read_queue.length, 1);
    assert_eq!(step(&mut c, &mut image), MOVED);
    assert_eq!(step(&mut c, &mut image), FINISHED);
    assert_eq!(c.in_progress, InProgress::Nothing);
    assert_eq!(c.read_queue.words[..3], [mark(16), mark(17), mark(18)]);
    for place in 16..19 {
        let given = pop(&mut c);
        assert_eq!((given.refusal, given.word), (NONE, mark(place)));
    }
    assert_eq!(pop(&mut c).refusal, QUEUE_EMPTY);
    assert_eq!(c, ready());
}

#[test]
fn a_read_waits_when_the_read_queue_is_full() {
    let mut c = started(data(READ, 0, 18));
    let mut image = patterned();
    for _ in 0..16 {
        assert_eq!(step(&mut c, &mut image), MOVED);
    }
    let before = c.clone();
    assert_eq!(step(&mut c, &mut image), WAITING);
    assert_eq!(step(&mut c, &mut image), WAITING);
    assert_eq!(c, before);
    assert_eq!(pop(&mut c).word, mark(0));
    assert_eq!(step(&mut c, &mut image), MOVED);
    assert_eq!(step(&mut c, &mut image), WAITING);
    assert_eq!(pop(&mut c).word, mark(1));
    assert_eq!(step(&mut c, &mut image), FINISHED);
    assert_eq!(c.read_queue.length, 16);
}

#[test]
fn a_program_waits_when_the_program_queue_is_empty() {
    let mut c = started(data(PROGRAM, 0x10, 2));
    let mut image = erased();
    let before = c.clone();
    assert_eq!(step(&mut c, &mut image), WAITING);
    assert_eq!(c, before);
    assert_eq!(push(&mut c, 0xFFFF_FFFE), NONE);
    let s = step(&mut c, &mut image);
    assert_eq!((s.progress, s.bits), (Some(Progress::Moved), 1));
    assert_eq!(step(&mut c, &mut image), WAITING);
    assert_eq!(push(&mut c, 0), NONE);
    let s = step(&mut c, &mut image);
    assert_eq!((s.progress, s.bits), (Some(Progress::Finished), 32));
    assert_eq!(image[3..7], [ONES, 0xFFFF_FFFE, 0, ONES]);
    assert_eq!(c, ready());
}

#[test]
fn the_oldest_queued_word_is_programmed_first() {
    let mut c = started(data(PROGRAM, 0x4000, 16));
    let mut image = erased();
    for word in 100..116 {
        assert_eq!(push(&mut c, word), NONE);
    }
    let (steps, _) = step_to_the_end(&mut c, &mut image);
    assert_eq!(steps, 16);
    assert_eq!(image[7_424..7_440], (100..116).collect::<Vec<u32>>()[..]);
}

#[test]
fn no_more_than_n_words_are_pushed_moved_ones_included() {
    let mut c = started(data(PROGRAM, 0, 2));
    let mut image = erased();
    assert_eq!(push(&mut c, 1), NONE);
    step(&mut c, &mut image);
    assert_eq!(push(&mut c, 2), NONE);
    assert_refused(&mut c, &mut image, UNEXPECTED, |c, _| push(c, 3));
}

#[test]
fn an_erase_takes_the_lowest_image_place_first() {
    let mut c = started(info(BANK_ERASE, 0, 0x4000, 0));
    let mut image = vec![0; image_words(D) as usize];
    for moved in 0..5_000 {
        let s = step(&mut c, &mut image);
        assert_eq!((s.progress, s.bits), (Some(Progress::Moved), 32));
        assert_eq!(image[7_424 + moved], ONES);
        assert_eq!(image[7_424 + moved + 1], 0);
    }
    assert!(image[..7_424].iter().all(|w| *w == 0));
}

#[test]
fn an_erase_counts_the_bits_it_sets() {
    let mut c = started(data(PAGE_ERASE, 0x400, 0));
    let mut image = erased();
    image[256] = 0xFFFF_FFFE;
    image[257] = 0x0000_FFFF;
    assert_eq!(step(&mut c, &mut image).bits, 1);
    assert_eq!(step(&mut c, &mut image).bits, 16);
    assert_eq!(step(&mut c, &mut image).bits, 0);
}

#[test]
fn a_read_may_start_while_the_read_queue_holds_words() {
    let mut c = started(data(READ, 0, 3));
    let mut image = patterned();
    step_to_the_end(&mut c, &mut image);
    assert_eq!(start(&mut c, data(READ, 0x100, 2)).refusal, NONE);
    step_to_the_end(&mut c, &mut image);
    let words: Vec<u32> = (0..5).map(|_| pop(&mut c).word).collect();
    assert_eq!(words, [mark(0), mark(1), mark(2), mark(64), mark(65)]);
}

#[test]
fn pops_are_allowed_while_a_program_or_erase_runs() {
    let mut c = started(data(READ, 0, 2));
    let mut image = patterned();
    step_to_the_end(&mut c, &mut image);
    assert_eq!(start(&mut c, data(PAGE_ERASE, 0, 0)).refusal, NONE);
    assert_eq!(pop(&mut c).word, mark(0));
    step(&mut c, &mut image);
    assert_eq!(pop(&mut c).word, mark(1));
}

/// The state that the read is in after some of its steps.
fn assert_reading(c: &Controller, operation: Operation, moved: u32, readable: u32) {
    let expected = InProgress::Read {
        operation,
        moved,
        readable,
    };
    assert_eq!(c.in_progress, expected);
}

/// Two words lie before the denied page.
#[test]
fn a_denied_read_delivers_its_readable_words_and_then_ones() {
    let mut c = ready();
    assert_eq!(set_region(&mut c, 0, region(1, 1, 6)), NONE);
    let op = data(READ, 0x3F8, 20);
    assert_eq!(start(&mut c, op).refusal, DENIED);
    assert_eq!((c.recorded, c.last_address), (kinds(&[9]), 0x400));
    let mut image = patterned();
    for moved in 0..16 {
        assert_reading(&c, op, moved, 2);
        assert_eq!(step(&mut c, &mut image), MOVED);
    }
    assert_eq!(step(&mut c, &mut image), WAITING);
    for word in [mark(254), mark(255), ONES, ONES] {
        assert_eq!(pop(&mut c).word, word);
    }
    for moved in 16..19 {
        assert_reading(&c, op, moved, 2);
        assert_eq!(step(&mut c, &mut image), MOVED);
    }
    assert_eq!(step(&mut c, &mut image), FINISHED);
    for _ in 0..16 {
        assert_eq!(pop(&mut c).word, ONES);
    }
    assert_eq!(pop(&mut c).refusal, QUEUE_EMPTY);
    assert!(image == patterned());
    assert_eq!((c.recorded, c.last_address), (kinds(&[9]), 0x400));
}

/// Also the words of the next page, which may be read.
#[test]
fn a_read_denied_at_its_first_page_delivers_only_ones() {
    let mut c = ready();
    assert_eq!(set_region(&mut c, 0, region(0, 1, 6)), NONE);
    let op = data(READ, 0x3F8, 4);
    assert_eq!(start(&mut c, op).refusal, DENIED);
    assert_reading(&c, op, 0, 0);
    assert_eq!((c.recorded, c.last_address), (kinds(&[9]), 0x3F8));
    assert_eq!(step_to_the_end(&mut c, &mut patterned()), (4, 0));
    assert_eq!(c.read_queue.words[..4], [ONES; 4]);
}

/// The error is there once it has started, and clearing it changes no word.
#[test]
fn a_denied_read_records_at_its_start_only() {
    let mut c = ready();
    assert_eq!(set_region(&mut c, 0, region(1, 1, 6)), NONE);
    assert_eq!(start(&mut c, data(READ, 0x3FC, 3)).refusal, DENIED);
    assert_eq!(clear(&mut c), NONE);
    step_to_the_end(&mut c, &mut patterned());
    assert_eq!((c.recorded, c.last_address), (0, 0));
    assert_eq!(c.read_queue.words[..3], [mark(255), ONES, ONES]);
}

#[test]
fn places_past_the_length_are_zeros_after_a_move() {
    let litter = |length| Queue {
        words: [7; 16],
        length,
    };
    let mut image = patterned();

    let mut c = started(data(READ, 0, 2));
    c.read_queue = litter(3);
    step(&mut c, &mut image);
    assert_eq!(c.read_queue.words[..5], [7, 7, 7, mark(0), 0]);
    assert!(c.read_queue.words[4..].iter().all(|w| *w == 0));

    c.read_queue = litter(3);
    assert_eq!(pop(&mut c).word, 7);
    assert_eq!(c.read_queue.words[..3], [7, 7, 0]);
    assert!(c.read_queue.words[2..].iter().all(|w| *w == 0));

    let mut c = started(data(PROGRAM, 0, 4));
    c.program_queue = litter(1);
    assert_eq!(push(&mut c, 9), NONE);
    assert_eq!(c.program_queue.words[..3], [7, 9, 0]);
    assert!(c.program_queue.words[2..].iter().all(|w| *w == 0));

    c.program_queue = litter(2);
    step(&mut c, &mut image);
    assert_eq!(c.program_queue.words[..2], [7, 0]);
    assert!(c.program_queue.words[1..].iter().all(|w| *w == 0));
}

#[test]
fn waiting_and_refused_calls_leave_the_places_past_the_length() {
    let mut c = started(data(PROGRAM, 0, 4));
    c.program_queue.words = [7; 16];
    let before = c.clone();
    assert_eq!(step(&mut c, &mut erased()), WAITING);
    assert_eq!(pop(&mut c).refusal, QUEUE_EMPTY);
    assert_eq!(c, before);
}

#[test]
fn information_words_are_programmed_and_erased_in_their_own_page() {
    let mut c = ready();
    let mut image = erased();
    let program = info(PROGRAM, 2, 0x4404, 2);
    let done = whole(&mut c, program, &mut image, &mut [1, 2]);
    assert_eq!((done.refusal, done.bits), (NONE, 62));
    let place = 7_424 + (16 + 12) * 256 + 1;
    assert_eq!(image[place..place + 2], [1, 2]);
    let erase = info(PAGE_ERASE, 2, 0x4400, 0);
    let done = whole(&mut c, erase, &mut image, &mut []);
    assert_eq!((done.refusal, done.bits), (NONE, 62));
    assert!(image == erased());
}

#[test]
fn clearing_is_allowed_during_an_operation_and_zeroes_the_address() {
    let mut c = ready();
    assert_eq!(start(&mut c, data(4, 0x444, 1)).refusal, MALFORMED);
    assert_eq!(start(&mut c, data(READ, 0, 1)).refusal, NONE);
    assert_eq!((c.recorded, c.last_address), (kinds(&[5]), 0x444));
    assert_eq!(clear(&mut c), NONE);
    assert_eq!(c, started(data(READ, 0, 1)));
}
