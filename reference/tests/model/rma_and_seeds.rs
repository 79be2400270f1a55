//! Initialise with its seeds; RMA with its wipe and disabling.

use crate::helpers::*;
use reference::model::*;

fn seeds_at(place: u32) -> [u32; 8] {
    std::array::from_fn(|i| mark(place + i as u32))
}

#[test]
fn initialise_hands_out_the_first_8_words_of_each_seed_page() {
    for d in [10, 16, 256] {
        let mut c = uninitialised(d);
        assert_eq!(set_inputs(&mut c, true, false), NONE);
        let given = initialise(&mut c, &patterned_for(d));
        assert_eq!(given.refusal, NONE);
        assert!(given.seeds_given);
        assert_eq!(given.creator_seed, seeds_at((d + 1) * 256));
        assert_eq!(given.owner_seed, seeds_at((d + 2) * 256));
    }
}

#[test]
fn initialise_hands_out_seeds_even_if_locked() {
    let mut c = uninitialised(D);
    assert_eq!(set_inputs(&mut c, true, true), NONE);
    let given = initialise(&mut c, &patterned());
    assert!(given.seeds_given);
    assert_eq!(given.creator_seed, seeds_at(4_352));
}

#[test]
fn initialise_hands_out_none_without_provision() {
    for locked in [false, true] {
        let mut c = uninitialised(D);
        assert_eq!(set_inputs(&mut c, false, locked), NONE);
        assert_eq!(initialise(&mut c, &patterned()), Initialised::default());
        assert_eq!(c.phase, Phase::Ready);
    }
}

#[test]
fn initialise_changes_the_phase_only() {
    let mut c = uninitialised_with_all_rights(D);
    let mut expected = c.clone();
    expected.phase = Phase::Ready;
    initialise(&mut c, &patterned());
    assert_eq!(c, expected);
}

fn assert_wiped(image: &[u32], d: usize) {
    let bank = (d + 13) * 256;
    for (place, word) in image.iter().enumerate() {
        let page = place % bank / 256;
        let special = place < bank && (d + 1..=d + 3).contains(&page);
        let expected = if page < d || special {
            ONES
        } else {
            mark(place as u32)
        };
        assert_eq!(*word, expected, "place {place}");
    }
}

#[test]
fn rma_wipes_data_and_special_pages_and_keeps_the_others() {
    for d in [10, 16, 256] {
        for mut c in [uninitialised(d), ready_for(d)] {
            let mut image = patterned_for(d);
            assert_eq!(rma(&mut c, &mut image), NONE);
            assert_wiped(&image, d as usize);
        }
    }
}

#[test]
fn rma_does_not_ask_for_rights() {
    let mut image = patterned();
    assert_eq!(rma(&mut ready_without_rights(), &mut image), NONE);
    assert_wiped(&image, 16);
}

#[test]
fn rma_empties_the_queues_disables_and_keeps_the_rest() {
    let mut c = ready();
    assert_eq!(start(&mut c, data(9, 0x30, 1)).refusal, MALFORMED);
    assert_eq!(start(&mut c, data(READ, 0, 3)).refusal, NONE);
    step_to_the_end(&mut c, &mut patterned());
    assert_eq!(c.read_queue.length, 3);
    let mut expected = c.clone();
    expected.read_queue = Queue::default();
    expected.phase = Phase::Disabled;
    assert_eq!(rma(&mut c, &mut patterned()), NONE);
    assert_eq!(c, expected);
    assert_eq!((c.recorded, c.last_address), (kinds(&[5]), 0x30));
    assert_eq!(pop(&mut c).refusal, QUEUE_EMPTY);
}

#[test]
fn disabled_lasts_until_reset() {
    let mut c = disabled();
    assert_eq!(initialise(&mut c, &erased()).refusal, DISABLED);
    assert_eq!(set_default_rights(&mut c, 1), NONE);
    assert_eq!(set_inputs(&mut c, false, true), NONE);
    assert_eq!(clear(&mut c), NONE);
    assert_eq!(c.phase, Phase::Disabled);
    assert_eq!(reset(&mut c, D), NONE);
    assert_eq!(initialise(&mut c, &erased()).refusal, NONE);
}
