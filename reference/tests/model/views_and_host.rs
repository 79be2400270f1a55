//! Direct looks at data pages: the host read and the page view.

use crate::helpers::*;
use reference::model::*;

#[test]
fn host_read_gives_the_word_at_a_byte_address() {
    let c = ready();
    let image = patterned();
    for (address, place) in [
        (0, 0),
        (4, 1),
        (0x3FFC, 4_095),
        (0x4000, 7_424),
        (0x7FFC, 11_519),
    ] {
        let given = host_read(&c, &image, address);
        assert_eq!((given.refusal, given.word), (NONE, mark(place)));
    }
}

#[test]
fn host_read_refusals_give_word_0_and_are_not_recorded() {
    let mut c = ready();
    assert_eq!(set_region(&mut c, 0, region(2, 1, 6)), NONE);
    let image = patterned();
    let region_0 = Some(Decider::Region(0));
    for (address, refusal, decider) in [
        (2, MALFORMED, None),
        (0x7FFD, MALFORMED, None),
        (0x8000, OUT_OF_RANGE, None),
        (0xFFFF_FFFC, OUT_OF_RANGE, None),
        (0x800, DENIED, region_0),
        (0xBFC, DENIED, region_0),
    ] {
        let expected = HostGiven {
            refusal,
            decider,
            word: 0,
        };
        assert_eq!(host_read(&c, &image, address), expected);
    }
    assert_eq!((c.recorded, c.last_address), (0, 0));
    assert_eq!(host_read(&c, &image, 0xC00).word, mark(768));
}

#[test]
fn host_read_and_view_need_only_the_read_right() {
    let mut c = ready();
    assert_eq!(set_default_rights(&mut c, RIGHT_READ), NONE);
    assert_eq!(host_read(&c, &patterned(), 8).word, mark(2));
    assert_eq!(view(&c, &patterned(), 0).length, 256);
    assert_eq!(
        set_default_rights(&mut c, RIGHT_PROGRAM | RIGHT_ERASE),
        NONE
    );
    assert_eq!(host_read(&c, &patterned(), 8).refusal, DENIED);
    assert_eq!(view(&c, &patterned(), 0).refusal, DENIED);
}

#[test]
fn host_read_and_view_are_allowed_during_an_operation() {
    for op in [
        data(READ, 0, 2),
        data(PROGRAM, 0, 2),
        data(BANK_ERASE, 0, 0),
    ] {
        let mut c = started(op);
        let mut image = patterned();
        step(&mut c, &mut image);
        assert_eq!(host_read(&c, &image, 8).word, mark(2));
        assert_eq!(view(&c, &image, 1).refusal, NONE);
    }
}

#[test]
fn host_read_sees_what_each_step_left() {
    let mut c = started(data(PROGRAM, 0, 1));
    let mut image = erased();
    assert_eq!(push(&mut c, 0xABCD), NONE);
    assert_eq!(host_read(&c, &image, 0).word, ONES);
    step(&mut c, &mut image);
    assert_eq!(host_read(&c, &image, 0).word, 0xABCD);
}

#[test]
fn a_view_is_the_pages_own_256_words() {
    for d in [10, 16, 256] {
        let c = ready_for(d);
        let image = patterned_for(d);
        for page in 0..2 * d {
            let place = if page < d { page } else { page + 13 } * 256;
            let expected = View {
                start: place as usize,
                length: 256,
                ..View::default()
            };
            assert_eq!(view(&c, &image, page), expected);
        }
        let empty = View {
            refusal: OUT_OF_RANGE,
            ..View::default()
        };
        assert_eq!(view(&c, &image, 2 * d), empty);
    }
}

#[test]
fn a_denied_view_is_empty() {
    let mut c = ready();
    assert_eq!(set_region(&mut c, 4, region(17, 1, 6)), NONE);
    let empty = View {
        refusal: DENIED,
        decider: Some(Decider::Region(4)),
        start: 0,
        length: 0,
    };
    assert_eq!(view(&c, &patterned(), 17), empty);
    assert_eq!(view(&c, &patterned(), 16).refusal, NONE);
    assert_eq!(view(&c, &patterned(), 18).refusal, NONE);
}
