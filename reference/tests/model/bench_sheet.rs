//! The bench sheet of 01, starred or not: D = 16 and all rights given.

use crate::helpers::*;
use reference::model::*;

fn whole_program(c: &mut Controller, image: &mut [u32], address: u32, word: u32) -> WholeDone {
    whole(c, data(PROGRAM, address, 1), image, &mut [word])
}

#[test]
fn image_of_14848_words_is_accepted_and_14847_gives_1() {
    assert_eq!(image_words(16), 14_848);
    let accepted = initialise(&mut uninitialised(16), &vec![ONES; 14_848]);
    assert_eq!(accepted.refusal, NONE);
    for wrong in [14_847, 14_849, 0] {
        assert_eq!(
            initialise(&mut uninitialised(16), &vec![ONES; wrong]).refusal,
            INVALID
        );
    }
}

#[test]
fn image_has_59392_bytes() {
    assert_eq!(image_words(16) * WORD_BYTES, 59_392);
}

#[test]
fn d_9_gives_1() {
    assert_eq!(reset(&mut Controller::default(), 9), INVALID);
    assert_eq!(reset(&mut Controller::default(), 257), INVALID);
}

#[test]
fn d_10_takes_11776_and_d_256_takes_137728() {
    for (d, words) in [(10, 11_776), (256, 137_728)] {
        assert_eq!(image_words(d), words as u64);
        let given = |n: usize| initialise(&mut uninitialised(d), &vec![ONES; n]).refusal;
        assert_eq!(given(words), NONE);
        assert_eq!(given(words - 1), INVALID);
        assert_eq!(given(words + 1), INVALID);
    }
}

#[test]
fn creator_page_begins_at_bus_word_4352() {
    let mut c = ready();
    let mut image = patterned();
    let mut word = [0];
    let done = whole(&mut c, info(READ, 0, 0x400, 1), &mut image, &mut word);
    assert_eq!(done.refusal, NONE);
    assert_eq!(word[0], mark(4_352));
}

#[test]
fn bank_1_begins_at_bus_word_7424_byte_address_4000() {
    let c = ready();
    assert_eq!(host_read(&c, &patterned(), 0x4000).word, mark(7_424));
    assert_eq!(view(&c, &patterned(), 16).start, 7_424);
}

#[test]
fn program_at_0_of_16_words_allowed_17_gives_8() {
    let c = ready();
    assert_eq!(start_answer(&c, data(PROGRAM, 0, 16)), NONE);
    assert_eq!(start_answer(&c, data(PROGRAM, 0, 17)), CROSSES_WINDOW);
}

#[test]
fn program_at_3c_of_1_word_allowed_2_gives_8() {
    let c = ready();
    assert_eq!(start_answer(&c, data(PROGRAM, 0x3C, 1)), NONE);
    assert_eq!(start_answer(&c, data(PROGRAM, 0x3C, 2)), CROSSES_WINDOW);
}

#[test]
fn programming_twice_leaves_12340000_with_19_and_8_bits() {
    let mut c = ready();
    let mut image = erased();
    let first = whole_program(&mut c, &mut image, 0, 0x1234_5678);
    assert_eq!((first.refusal, first.bits), (NONE, 19));
    assert_eq!(image[0], 0x1234_5678);
    let second = whole_program(&mut c, &mut image, 0, 0xFFFF_0000);
    assert_eq!((second.refusal, second.bits), (NONE, 8));
    assert_eq!(image[0], 0x1234_0000);
}

#[test]
fn read_at_7ffc_of_1_word_allowed_2_gives_7() {
    let c = ready();
    assert_eq!(start_answer(&c, data(READ, 0x7FFC, 1)), NONE);
    assert_eq!(start_answer(&c, data(READ, 0x7FFC, 2)), OUT_OF_RANGE);
}

#[test]
fn address_2_gives_5() {
    for kind in 0..4 {
        assert_eq!(start_answer(&ready(), data(kind, 2, 1)), MALFORMED);
    }
}

#[test]
fn read_of_1024_words_at_0_allowed_1025_gives_5() {
    let c = ready();
    assert_eq!(start_answer(&c, data(READ, 0, 1_024)), NONE);
    assert_eq!(start_answer(&c, data(READ, 0, 1_025)), MALFORMED);
}

#[test]
fn type_1_at_400_gives_7() {
    for kind in [READ, PROGRAM, PAGE_ERASE] {
        assert_eq!(
            start_answer(&ready(), info(kind, 1, 0x400, 1)),
            OUT_OF_RANGE
        );
    }
}

#[test]
fn type_0_at_27fc_of_1_word_allowed_2_gives_7() {
    let c = ready();
    assert_eq!(start_answer(&c, info(READ, 0, 0x27FC, 1)), NONE);
    assert_eq!(start_answer(&c, info(READ, 0, 0x27FC, 2)), OUT_OF_RANGE);
    assert_eq!(start_answer(&c, info(PROGRAM, 0, 0x27FC, 1)), NONE);
    assert_eq!(start_answer(&c, info(PROGRAM, 0, 0x27FC, 2)), OUT_OF_RANGE);
}

fn two_regions() -> Controller {
    let mut c = ready();
    assert_eq!(set_region(&mut c, 0, region(2, 2, RIGHT_READ)), NONE);
    assert_eq!(set_region(&mut c, 1, region(0, 8, ALL_RIGHTS)), NONE);
    c
}

#[test]
fn region_0_read_only_on_pages_2_and_3_comes_before_region_1() {
    let c = two_regions();
    let answers = [0, 1, 2, 3, 4].map(|page| start_answer(&c, data(PROGRAM, page * 1024, 1)));
    assert_eq!(answers, [NONE, NONE, DENIED, DENIED, NONE]);
}

#[test]
fn region_0_off_page_2_allowed() {
    let mut c = two_regions();
    let off = Region {
        on: false,
        ..region(2, 2, RIGHT_READ)
    };
    assert_eq!(set_region(&mut c, 0, off), NONE);
    assert_eq!(start_answer(&c, data(PROGRAM, 2 * 1024, 1)), NONE);
}

#[test]
fn region_of_count_0_holds_no_page() {
    let mut c = ready();
    assert_eq!(set_region(&mut c, 0, region(2, 0, 0)), NONE);
    for page in 0..32 {
        assert_eq!(start_answer(&c, data(PAGE_ERASE, page * 1024, 0)), NONE);
    }
}

#[test]
fn first_page_32_count_0_may_be_set_count_1_gives_13() {
    let mut c = ready();
    assert_eq!(set_region(&mut c, 7, region(32, 0, ALL_RIGHTS)), NONE);
    assert_eq!(
        set_region(&mut c, 7, region(32, 1, ALL_RIGHTS)),
        BAD_SETTING
    );
    assert_eq!(
        set_region(&mut c, 7, region(33, 0, ALL_RIGHTS)),
        BAD_SETTING
    );
}

#[test]
fn owner_page_allowed_and_creator_page_denied_when_seeds_are_locked() {
    let mut c = ready();
    assert_eq!(set_inputs(&mut c, true, true), NONE);
    for kind in [READ, PROGRAM, PAGE_ERASE] {
        assert_eq!(start_answer(&c, info(kind, 0, 0x800, 1)), NONE);
        assert_eq!(start_answer(&c, info(kind, 0, 0x400, 1)), DENIED);
    }
}

#[test]
fn bank_erase_of_bank_0_takes_4096_steps_for_data() {
    let mut c = started(data(BANK_ERASE, 0, 0));
    let mut image = vec![0; 14_848];
    assert_eq!(step_to_the_end(&mut c, &mut image), (4_096, 4_096 * 32));
    assert!(image[..4_096].iter().all(|w| *w == ONES));
    assert!(image[4_096..].iter().all(|w| *w == 0));
}

#[test]
fn bank_erase_of_bank_0_takes_7424_steps_with_information() {
    let mut c = started(info(BANK_ERASE, 0, 0, 0));
    let mut image = vec![0; 14_848];
    assert_eq!(step_to_the_end(&mut c, &mut image), (7_424, 7_424 * 32));
    assert!(image[..7_424].iter().all(|w| *w == ONES));
    assert!(image[7_424..].iter().all(|w| *w == 0));
}

#[test]
fn blank_page_erased_takes_256_steps_and_0_bits() {
    let mut c = started(data(PAGE_ERASE, 0x1000, 0));
    let mut image = erased();
    assert_eq!(step_to_the_end(&mut c, &mut image), (256, 0));
    assert_eq!(image, erased());
}

#[test]
fn uninitialised_controller_kind_9_gives_3() {
    assert_eq!(
        start_answer(&uninitialised(D), data(9, 0, 1)),
        UNINITIALISED
    );
    let done = whole(
        &mut uninitialised(D),
        data(9, 0, 1),
        &mut erased(),
        &mut [0],
    );
    assert_eq!(done.refusal, UNINITIALISED);
}
