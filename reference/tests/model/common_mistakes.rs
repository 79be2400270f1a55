//! 01's "Slips we have seen on other benches", the last as 02's L3 changes it:
//! none of them is made here.

use crate::helpers::*;
use reference::model::*;

#[test]
fn rights_of_overlapping_regions_are_not_added_up() {
    let mut c = ready();
    assert_eq!(set_region(&mut c, 3, region(4, 1, RIGHT_READ)), NONE);
    assert_eq!(set_region(&mut c, 5, region(4, 1, RIGHT_PROGRAM)), NONE);
    let at = 4 * 1024;
    assert_eq!(start_answer(&c, data(READ, at, 1)), NONE);
    assert_eq!(start_answer(&c, data(PROGRAM, at, 1)), DENIED);
    assert_eq!(start_answer(&c, data(PAGE_ERASE, at, 1)), DENIED);
}

#[test]
fn a_region_decides_alone_without_the_default_rights() {
    let mut c = ready();
    assert_eq!(set_region(&mut c, 7, region(4, 1, 0)), NONE);
    for kind in [READ, PROGRAM, PAGE_ERASE] {
        assert_eq!(start_answer(&c, data(kind, 4 * 1024, 1)), DENIED);
        assert_eq!(start_answer(&c, data(kind, 5 * 1024, 1)), NONE);
    }
}

#[test]
fn programming_never_turns_a_zero_into_a_one() {
    let mut c = ready();
    let mut image = vec![0x0F0F_0F0F; image_words(D) as usize];
    let done = whole(&mut c, data(PROGRAM, 0, 1), &mut image, &mut [0x00FF_00FF]);
    assert_eq!(done.refusal, NONE);
    assert_eq!(image[0], 0x000F_000F);
    assert_eq!(done.bits, 8);
    let again = whole(&mut c, data(PROGRAM, 0, 1), &mut image, &mut [ONES]);
    assert_eq!((image[0], again.bits), (0x000F_000F, 0));
}

#[test]
fn information_bank_erase_does_not_spare_the_data_pages() {
    let mut c = ready();
    let mut image = patterned();
    let done = whole(&mut c, info(BANK_ERASE, 0, 0x4000, 0), &mut image, &mut []);
    assert_eq!(done.refusal, NONE);
    assert!(image[7_424..].iter().all(|w| *w == ONES));
    assert_eq!(image[..7_424], patterned()[..7_424]);
}

#[test]
fn the_read_right_is_judged_on_every_page_of_a_span() {
    let mut c = ready();
    assert_eq!(set_region(&mut c, 0, region(3, 1, RIGHT_PROGRAM)), NONE);
    // First, middle and last page of the span, and spans beside it.
    assert_eq!(start_answer(&c, data(READ, 3 * 1024, 1_024)), DENIED);
    assert_eq!(start_answer(&c, data(READ, 2 * 1024, 1_024)), DENIED);
    assert_eq!(start_answer(&c, data(READ, 1024, 513)), DENIED);
    assert_eq!(start_answer(&c, data(READ, 2 * 1024 + 1020, 2)), DENIED);
    assert_eq!(start_answer(&c, data(READ, 1024, 512)), NONE);
    assert_eq!(start_answer(&c, data(READ, 4 * 1024, 1_024)), NONE);
}

#[test]
fn a_read_is_not_blanked_from_its_first_word_for_a_later_page() {
    let mut c = ready();
    assert_eq!(set_region(&mut c, 0, region(3, 1, RIGHT_PROGRAM)), NONE);
    let (words, address) = cut_read(&c, data(READ, 1024, 1_024), &patterned());
    let (stored, denied) = words.split_at(512);
    assert_eq!(stored, &patterned()[256..768]);
    assert!(denied.iter().all(|word| *word == ONES));
    assert_eq!(address, 3 * 1024);
}
