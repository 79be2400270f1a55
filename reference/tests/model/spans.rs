//! Where words lie: bank borders, ends of types and banks, the five pages a
//! long read may touch, and where a denied one is cut.

use crate::helpers::*;
use reference::model::*;

fn read_words(d: u32, op: Operation) -> Vec<u32> {
    let mut buffer = vec![0; op.count as usize];
    let mut image = patterned_for(d);
    let done = whole(&mut ready_for(d), op, &mut image, &mut buffer);
    assert_eq!((done.refusal, done.bits), (NONE, 0));
    assert_eq!(image, patterned_for(d));
    buffer
}

#[test]
fn a_data_read_over_the_bank_border_jumps_13_information_pages() {
    // Bank 0's last data word is place 4,095; bank 1 begins at 7,424.
    assert_eq!(
        read_words(D, data(READ, 0x3FF8, 4)),
        [mark(4_094), mark(4_095), mark(7_424), mark(7_425)]
    );
    for d in [10, 11, 256] {
        let border = d * 1024;
        let last = d * 256 - 1;
        assert_eq!(
            read_words(d, data(READ, border - 4, 2)),
            [mark(last), mark(last + 1 + 13 * 256)]
        );
    }
}

#[test]
fn a_read_over_the_border_is_judged_by_the_pages_of_both_banks() {
    for denied_page in [15, 16] {
        let mut c = ready();
        assert_eq!(set_region(&mut c, 0, region(denied_page, 1, 0)), NONE);
        assert_eq!(start_answer(&c, data(READ, 0x3FFC, 2)), DENIED);
    }
    let mut c = ready();
    assert_eq!(set_region(&mut c, 0, region(15, 1, 0)), NONE);
    assert_eq!(start_answer(&c, data(READ, 0x4000, 2)), NONE);
}

/// From the last two words of page D - 2 to the first two of page D + 1.
#[test]
fn a_read_over_the_border_is_cut_in_either_bank() {
    for d in [10, 11, 16, 256] {
        let image = patterned_for(d);
        let read = data(READ, (d - 1) * 1024 - 8, 2 + 256 + 256 + 2);
        for (denied_page, readable) in [(d - 2, 0), (d - 1, 2), (d, 258), (d + 1, 514)] {
            let mut c = ready_for(d);
            assert_eq!(set_region(&mut c, 7, region(denied_page, 1, 6)), NONE);
            let (words, address) = cut_read(&c, read, &image);
            let last_of_bank_0 = d * 256 - 1;
            for (number, word) in (0..).zip(words) {
                let place = (d - 1) * 256 - 2 + number;
                let jump = if place > last_of_bank_0 { 13 * 256 } else { 0 };
                let stored = if number < readable {
                    mark(place + jump)
                } else {
                    ONES
                };
                assert_eq!(word, stored, "D = {d}, page {denied_page}, word {number}");
            }
            assert_eq!(address, read.address + 4 * readable);
        }
    }
}

#[test]
fn a_program_before_the_bank_border_may_not_cross_it() {
    let c = ready();
    assert_eq!(start_answer(&c, data(PROGRAM, 0x3FC0, 16)), NONE);
    assert_eq!(start_answer(&c, data(PROGRAM, 0x3FFC, 2)), CROSSES_WINDOW);
}

#[test]
fn each_information_page_has_its_own_place() {
    for (bank, base) in [(0, 4_096), (1, 7_424 + 4_096)] {
        for (info_type, pages, before) in [(0, 10, 0), (1, 1, 10), (2, 2, 11)] {
            for page in 0..pages {
                let address = bank * 0x4000 + page * 1024 + 8;
                let words = read_words(D, info(READ, info_type, address, 1));
                assert_eq!(words, [mark(base + (before + page) * 256 + 2)]);
            }
        }
    }
}

#[test]
fn information_spans_end_with_their_type_in_both_banks() {
    for bank in [0, 0x4000] {
        for (info_type, pages) in [(0, 10), (1, 1), (2, 2)] {
            let end = bank + pages * 1024;
            let answer = |op| start_answer(&ready(), op);
            assert_eq!(answer(info(READ, info_type, end - 4, 1)), NONE);
            assert_eq!(answer(info(READ, info_type, end - 4, 2)), OUT_OF_RANGE);
            assert_eq!(answer(info(PROGRAM, info_type, end - 4, 2)), OUT_OF_RANGE);
            assert_eq!(answer(info(READ, info_type, end, 1)), OUT_OF_RANGE);
            assert_eq!(answer(info(PROGRAM, info_type, end, 1)), OUT_OF_RANGE);
            assert_eq!(answer(info(PAGE_ERASE, info_type, end - 4, 9)), NONE);
            assert_eq!(answer(info(PAGE_ERASE, info_type, end, 9)), OUT_OF_RANGE);
        }
    }
}

#[test]
fn a_span_inside_a_type_runs_over_its_pages() {
    let words = read_words(D, info(READ, 2, 1020, 2));
    let last_of_first = 4_096 + 12 * 256 - 1;
    assert_eq!(words, [mark(last_of_first), mark(last_of_first + 1)]);
}

/// Where an information read from the last word of a page is cut: the next page is denied.
fn assert_info_read_cut(c: &Controller, info_type: u8, page: u32, place: u32) {
    let at = page * 1024 + 1020;
    let read = info(READ, info_type, at, 257);
    let (words, address) = cut_read(c, read, &patterned());
    assert_eq!(words[0], mark(place + 255));
    assert!(words[1..].iter().all(|word| *word == ONES));
    assert_eq!(address, at + 4);
}

#[test]
fn an_information_read_is_cut_at_each_denied_page() {
    for (bank, base) in [(0, 4_096), (1, 7_424 + 4_096)] {
        for (info_type, pages, before) in [(0, 10, 0), (2, 2, 11)] {
            for page in 1..pages {
                for (on, rights) in [(false, ALL_RIGHTS), (true, 6)] {
                    let mut c = ready();
                    let setting = InfoSetting { on, rights };
                    assert_eq!(set_info_page(&mut c, bank, info_type, page, setting), NONE);
                    let place = base + (before + page - 1) * 256;
                    assert_info_read_cut(&c, info_type, bank * D + page - 1, place);
                }
            }
        }
    }
}

/// Creator page 1 and owner page 2; their settings allow reading.
#[test]
fn a_closed_seed_page_cuts_a_read() {
    let mut c = ready();
    assert_eq!(set_inputs(&mut c, true, true), NONE);
    assert_info_read_cut(&c, 0, 0, 4_096);
    // It begins on the creator page, so the open owner page gives ones as well.
    let (words, address) = cut_read(&c, info(READ, 0, 0x7FC, 2), &patterned());
    assert_eq!((words, address), (vec![ONES; 2], 0x7FC));
    assert_eq!(start_answer(&c, info(READ, 0, 0x800, 256)), NONE);
    assert_eq!(set_inputs(&mut c, false, false), NONE);
    assert_info_read_cut(&c, 0, 0, 4_096);
    let (words, address) = cut_read(&c, info(READ, 0, 0xBFC, 2), &patterned());
    assert_eq!((words, address), (vec![ONES; 2], 0xBFC));
}

#[test]
fn with_d_10_an_information_span_may_not_run_into_the_next_bank() {
    // Type 0 fills the bank's addresses: the next page number is bank 1's 0.
    let c = ready_for(10);
    assert_eq!(start_answer(&c, info(READ, 0, 0x27FC, 1)), NONE);
    assert_eq!(start_answer(&c, info(READ, 0, 0x27FC, 2)), OUT_OF_RANGE);
    assert_eq!(start_answer(&c, info(READ, 0, 0x2800, 2)), NONE);
    assert_eq!(start_answer(&c, info(READ, 0, 0x4FFC, 1)), NONE);
    assert_eq!(start_answer(&c, info(READ, 0, 0x4FFC, 2)), OUT_OF_RANGE);
}

#[test]
fn a_bank_erase_has_only_the_address_bound() {
    let c = ready();
    // Page 15 is no information page, yet it names bank 0.
    for partition in [DATA, INFORMATION] {
        let at = |address| operation(BANK_ERASE, partition, 255, address, u32::MAX);
        assert_eq!(start_answer(&c, at(15 * 1024)), NONE);
        assert_eq!(start_answer(&c, at(0x7FFC)), NONE);
        assert_eq!(start_answer(&c, at(0x8000)), OUT_OF_RANGE);
    }
}

#[test]
fn addresses_near_the_top_do_not_wrap() {
    let c = ready();
    for address in [0x8000, 0xFFFF_FFF8, 0xFFFF_FFFC] {
        for kind in 0..4 {
            assert_eq!(start_answer(&c, data(kind, address, 1_024)), OUT_OF_RANGE);
            assert_eq!(
                start_answer(&c, info(kind, 0, address, 1_024)),
                OUT_OF_RANGE
            );
        }
    }
}

#[test]
fn a_data_span_may_end_with_the_last_page() {
    let c = ready();
    assert_eq!(start_answer(&c, data(READ, 0x7000, 1_024)), NONE);
    assert_eq!(start_answer(&c, data(READ, 0x7004, 1_024)), OUT_OF_RANGE);
}

#[test]
fn a_read_of_1024_words_may_touch_five_pages() {
    let words = read_words(D, data(READ, 0x3FC, 1_024));
    assert!(words.iter().zip(255..).all(|(w, place)| *w == mark(place)));
    let mut c = ready();
    assert_eq!(set_region(&mut c, 0, region(4, 1, 0)), NONE);
    assert_eq!(start_answer(&c, data(READ, 0x3FC, 1_024)), DENIED);
    assert_eq!(start_answer(&c, data(READ, 0, 1_024)), NONE);
}

#[test]
fn a_page_erase_covers_the_page_holding_the_address() {
    for (op, begin) in [
        (data(PAGE_ERASE, 0x17FC, 0), 5 * 256),
        (data(PAGE_ERASE, 0x4404, 0), 7_424 + 256),
        (info(PAGE_ERASE, 2, 0x47FC, 0), 7_424 + (16 + 12) * 256),
        (info(PAGE_ERASE, 1, 0x0200, 0), (16 + 10) * 256),
    ] {
        let mut image = patterned();
        let done = whole(&mut ready(), op, &mut image, &mut []);
        assert_eq!(done.refusal, NONE);
        let mut expected = patterned();
        expected[begin..begin + 256].fill(ONES);
        assert!(image == expected);
    }
}
