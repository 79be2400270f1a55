//! Whole operations: start, pushes, steps and pops until drained.

use crate::helpers::*;
use reference::model::*;

#[test]
fn a_whole_read_fills_the_first_n_places() {
    let mut c = ready();
    let mut buffer = [7; 40];
    let done = whole(&mut c, data(READ, 0x20, 30), &mut patterned(), &mut buffer);
    assert_eq!(done, WholeDone::default());
    for (i, word) in buffer.iter().enumerate() {
        let expected = if i < 30 { mark(8 + i as u32) } else { 7 };
        assert_eq!(*word, expected);
    }
    assert_eq!(c, ready());
}

#[test]
fn a_whole_read_of_1024_words_goes_through_the_queue_of_16() {
    let mut buffer = vec![0; 1_024];
    let op = data(READ, 0x3000, 1_024);
    let done = whole(&mut ready(), op, &mut patterned(), &mut buffer);
    assert_eq!(done.refusal, NONE);
    assert!(buffer
        .iter()
        .zip(3_072..)
        .all(|(w, place)| *w == mark(place)));
}

#[test]
fn a_whole_program_takes_the_first_n_places_and_leaves_the_buffer() {
    let mut c = ready();
    let mut image = erased();
    let mut buffer: Vec<u32> = (0..20).collect();
    let before = buffer.clone();
    let done = whole(&mut c, data(PROGRAM, 0x40, 16), &mut image, &mut buffer);
    let zeros: u32 = (0..16u32).map(u32::count_zeros).sum();
    assert_eq!((done.refusal, done.bits), (NONE, zeros));
    assert_eq!(buffer, before);
    let mut expected = erased();
    expected[16..32].copy_from_slice(&before[..16]);
    assert!(image == expected);
    assert_eq!(c, ready());
}

#[test]
fn whole_erases_leave_the_buffer_alone() {
    for kind in [PAGE_ERASE, BANK_ERASE] {
        let mut c = ready();
        let mut image = patterned();
        let mut buffer = [5; 3];
        let done = whole(&mut c, data(kind, 0x400, 3), &mut image, &mut buffer);
        let pages = if kind == PAGE_ERASE { 1..2 } else { 0..16 };
        let mut expected = patterned();
        let erased = &mut expected[pages.start * 256..pages.end * 256];
        let bits: u32 = erased.iter().map(|w| w.count_zeros()).sum();
        erased.fill(ONES);
        assert_eq!((done.refusal, done.bits), (NONE, bits));
        assert!(image == expected);
        assert_eq!(buffer, [5; 3]);
        assert_eq!(c, ready());
    }
}

#[test]
fn a_denied_whole_read_gives_9_with_its_readable_words_and_then_ones() {
    let mut c = ready();
    assert_eq!(set_region(&mut c, 0, region(1, 1, 6)), NONE);
    let mut expected = c.clone();
    let mut image = patterned();
    let mut buffer = [3; 600];
    let done = whole(&mut c, data(READ, 0x3F0, 500), &mut image, &mut buffer);
    assert_eq!(
        done,
        WholeDone {
            refusal: DENIED,
            decider: Some(Decider::Region(0)),
            bits: 0
        }
    );
    assert_eq!(buffer[..4], [252, 253, 254, 255].map(mark));
    assert!(buffer[4..500].iter().all(|w| *w == ONES));
    assert!(buffer[500..].iter().all(|w| *w == 3));
    assert!(image == patterned());
    expected.recorded = kinds(&[9]);
    expected.last_address = 0x400;
    assert_eq!(c, expected);
}

/// From the last word of page 1 to the third of page 5.
#[test]
fn a_read_of_five_pages_is_cut_at_each_of_them() {
    let read = data(READ, 0x7FC, 1 + 3 * 256 + 3);
    for (denied_page, readable, address) in [
        (1, 0, 0x7FC),
        (2, 1, 0x800),
        (3, 257, 0xC00),
        (4, 513, 0x1000),
        (5, 769, 0x1400),
    ] {
        let mut c = ready();
        assert_eq!(set_region(&mut c, 4, region(denied_page, 1, 6)), NONE);
        let (words, recorded) = cut_read(&c, read, &patterned());
        assert_eq!(words[..readable], patterned()[511..511 + readable]);
        assert!(words[readable..].iter().all(|word| *word == ONES));
        assert_eq!(recorded, address);
    }
}

/// Every page after the first denied one gives ones, whatever it allows.
#[test]
fn of_two_denied_pages_the_first_cuts() {
    let mut c = ready();
    assert_eq!(set_region(&mut c, 0, region(4, 1, 0)), NONE);
    assert_eq!(set_region(&mut c, 1, region(2, 1, 0)), NONE);
    let (words, address) = cut_read(&c, data(READ, 0x400, 1_024), &patterned());
    assert_eq!(words[..256], patterned()[256..512]);
    assert!(words[256..].iter().all(|word| *word == ONES));
    assert_eq!(address, 0x800);
}

/// Two images that agree at the readable words alone.
#[test]
fn a_denied_read_tells_nothing_of_its_other_words() {
    let mut c = ready();
    assert_eq!(set_region(&mut c, 0, region(2, 1, 6)), NONE);
    let read = data(READ, 0x7F0, 600);
    let mut other: Vec<u32> = patterned().iter().map(|word| !word).collect();
    other[508..512].copy_from_slice(&patterned()[508..512]);
    let told = cut_read(&c, read, &patterned());
    assert_eq!(cut_read(&c, read, &other), told);
    other[511] ^= 1;
    assert_ne!(cut_read(&c, read, &other), told);
}

#[test]
fn refused_whole_operations_move_no_flash_and_leave_the_buffer() {
    let none = ready_without_rights();
    let by_default = Some(Decider::Default);
    let by_bank = Some(Decider::BankPermission);
    for (op, refusal, decider) in [
        (data(77, 4, 1), MALFORMED, None),
        (data(READ, 2, 1), MALFORMED, None),
        (data(READ, 0x8000, 1), OUT_OF_RANGE, None),
        (data(PROGRAM, 0x3C, 2), CROSSES_WINDOW, None),
        (data(PROGRAM, 0x3C, 1), DENIED, by_default),
        (data(PAGE_ERASE, 0x3C, 1), DENIED, by_default),
        (info(BANK_ERASE, 0, 0x3C, 1), DENIED, by_bank),
    ] {
        let mut c = none.clone();
        let mut expected = none.clone();
        expected.recorded = 1 << refusal;
        expected.last_address = op.address;
        let mut image = patterned();
        let mut buffer = [3; 4];
        let done = whole(&mut c, op, &mut image, &mut buffer);
        let expected_done = WholeDone {
            refusal,
            decider,
            bits: 0,
        };
        assert_eq!(done, expected_done);
        assert_eq!(c, expected);
        assert!(image == patterned());
        assert_eq!(buffer, [3; 4]);
    }
}

#[test]
fn an_accepted_whole_operation_keeps_the_record() {
    let mut c = ready();
    assert_eq!(start(&mut c, data(4, 0x77, 0)).refusal, MALFORMED);
    let before = c.clone();
    let done = whole(&mut c, data(READ, 0, 1), &mut erased(), &mut [0]);
    assert_eq!(done.refusal, NONE);
    assert_eq!(c, before);
}

#[test]
fn a_buffer_of_exactly_n_words_is_enough() {
    let mut buffer = [0; 16];
    let done = whole(
        &mut ready(),
        data(READ, 0, 16),
        &mut patterned(),
        &mut buffer,
    );
    assert_eq!(done.refusal, NONE);
    assert_eq!(buffer[15], mark(15));
}
