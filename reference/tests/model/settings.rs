//! Settings and inputs: what is stored where, and who may touch which page.

use crate::helpers::*;
use reference::model::*;

const ON: InfoSetting = InfoSetting {
    on: true,
    rights: ALL_RIGHTS,
};

#[test]
fn each_setting_changes_its_own_field_only() {
    for start in [uninitialised(D), ready(), disabled()] {
        let mut c = start.clone();
        let mut expected = start.clone();
        assert_eq!(set_inputs(&mut c, false, true), NONE);
        expected.provision_enabled = false;
        expected.seeds_locked = true;
        assert_eq!(c, expected);
        assert_eq!(set_region(&mut c, 7, region(3, 4, 5)), NONE);
        expected.regions[7] = region(3, 4, 5);
        assert_eq!(c, expected);
        assert_eq!(set_default_rights(&mut c, 3), NONE);
        expected.default_rights = 3;
        assert_eq!(c, expected);
        assert_eq!(set_bank_erase_permission(&mut c, 1, true), NONE);
        expected.bank_erase_permissions[1] = true;
        assert_eq!(c, expected);
    }
}

#[test]
fn the_26_information_settings_are_in_bank_and_type_order() {
    let mut place = 0;
    for bank in 0..2 {
        for (info_type, pages) in [(0, 10), (1, 1), (2, 2)] {
            for page in 0..pages {
                let mut c = uninitialised(D);
                let mut expected = c.clone();
                assert_eq!(set_info_page(&mut c, bank, info_type, page, ON), NONE);
                expected.info_settings[place] = ON;
                assert_eq!(c, expected);
                place += 1;
            }
        }
    }
    assert_eq!(place, 26);
}

#[test]
fn each_right_allows_its_own_kind() {
    for rights in 0..=7 {
        let mut c = ready();
        let setting = InfoSetting { on: true, rights };
        assert_eq!(set_default_rights(&mut c, rights), NONE);
        assert_eq!(set_info_page(&mut c, 1, 2, 1, setting), NONE);
        for (kind, right) in [(READ, 1), (PROGRAM, 2), (PAGE_ERASE, 4)] {
            let answer = if rights & right != 0 { NONE } else { DENIED };
            assert_eq!(start_answer(&c, data(kind, 0x100, 1)), answer);
            assert_eq!(start_answer(&c, info(kind, 2, 0x4400, 1)), answer);
        }
    }
}

#[test]
fn an_information_page_that_is_off_is_denied() {
    let mut c = ready();
    let off = InfoSetting {
        on: false,
        rights: ALL_RIGHTS,
    };
    assert_eq!(set_info_page(&mut c, 1, 0, 4, off), NONE);
    for kind in [READ, PROGRAM, PAGE_ERASE] {
        assert_eq!(start_answer(&c, info(kind, 0, 0x5000, 1)), DENIED);
        assert_eq!(start_answer(&c, info(kind, 0, 0x1000, 1)), NONE);
        assert_eq!(start_answer(&c, data(kind, 0x5000, 1)), NONE);
    }
}

#[test]
fn regions_and_default_rights_do_not_touch_information_pages() {
    let mut c = ready();
    assert_eq!(set_region(&mut c, 0, region(0, 32, 0)), NONE);
    assert_eq!(set_default_rights(&mut c, 0), NONE);
    assert_eq!(start_answer(&c, info(READ, 0, 0, 1)), NONE);
    assert_eq!(start_answer(&c, data(READ, 0, 1)), DENIED);
}

#[test]
fn an_information_span_needs_the_right_on_every_page() {
    let mut c = ready();
    let off = InfoSetting::default();
    assert_eq!(set_info_page(&mut c, 0, 0, 5, off), NONE);
    assert_eq!(start_answer(&c, info(READ, 0, 0x1000, 256)), NONE);
    assert_eq!(start_answer(&c, info(READ, 0, 0x1000, 257)), DENIED);
    assert_eq!(start_answer(&c, info(READ, 0, 0x0C00, 1_024)), DENIED);
    assert_eq!(start_answer(&c, info(READ, 0, 0x1800, 1_024)), NONE);
}

#[test]
fn regions_count_pages_over_both_banks() {
    let mut c = ready();
    assert_eq!(set_region(&mut c, 0, region(15, 3, RIGHT_READ)), NONE);
    let answers: Vec<u8> = (14..19)
        .map(|page| start_answer(&c, data(PROGRAM, page * 1024, 1)))
        .collect();
    assert_eq!(answers, [NONE, DENIED, DENIED, DENIED, NONE]);
}

#[test]
fn seed_pages_follow_the_inputs() {
    // provision, locked, creator allowed, owner allowed
    for (provision, locked, creator, owner) in [
        (false, false, DENIED, DENIED),
        (false, true, DENIED, DENIED),
        (true, false, NONE, NONE),
        (true, true, DENIED, NONE),
    ] {
        let mut c = ready();
        assert_eq!(set_inputs(&mut c, provision, locked), NONE);
        for kind in [READ, PROGRAM, PAGE_ERASE] {
            assert_eq!(start_answer(&c, info(kind, 0, 0x400, 1)), creator);
            assert_eq!(start_answer(&c, info(kind, 0, 0x800, 1)), owner);
            // The isolated page, other types, bank 1 and data are ordinary.
            assert_eq!(start_answer(&c, info(kind, 0, 0xC00, 1)), NONE);
            assert_eq!(start_answer(&c, info(kind, 2, 0x400, 1)), NONE);
            assert_eq!(start_answer(&c, info(kind, 0, 0x4400, 1)), NONE);
            assert_eq!(start_answer(&c, info(kind, 0, 0x4800, 1)), NONE);
            assert_eq!(start_answer(&c, data(kind, 0x400, 1)), NONE);
        }
    }
}

#[test]
fn seed_pages_also_need_their_own_setting() {
    let mut c = ready();
    for page in [1, 2] {
        assert_eq!(
            set_info_page(&mut c, 0, 0, page, InfoSetting::default()),
            NONE
        );
        assert_eq!(start_answer(&c, info(READ, 0, page * 1024, 1)), DENIED);
    }
}

#[test]
fn a_span_over_a_closed_seed_page_is_denied() {
    let mut c = ready();
    assert_eq!(set_inputs(&mut c, true, true), NONE);
    assert_eq!(start_answer(&c, info(READ, 0, 0x3FC, 2)), DENIED);
    assert_eq!(start_answer(&c, info(READ, 0, 0x800, 512)), NONE);
}

#[test]
fn bank_erase_looks_only_at_its_banks_permission() {
    let mut c = ready_without_rights();
    assert_eq!(set_bank_erase_permission(&mut c, 1, true), NONE);
    for partition in [DATA, INFORMATION] {
        let at = |address| operation(BANK_ERASE, partition, 0, address, 0);
        assert_eq!(start_answer(&c, at(0x3FFC)), DENIED);
        assert_eq!(start_answer(&c, at(0x4000)), NONE);
    }
}

#[test]
fn bank_erase_wipes_even_closed_seed_pages() {
    let mut c = ready_without_rights();
    assert_eq!(set_bank_erase_permission(&mut c, 0, true), NONE);
    let mut image = patterned();
    let done = whole(&mut c, info(BANK_ERASE, 9, 0x800, 0), &mut image, &mut []);
    assert_eq!(done.refusal, NONE);
    assert!(image[..7_424].iter().all(|w| *w == ONES));
    assert_eq!(image[7_424..], patterned()[7_424..]);
}

#[test]
fn all_rights_do_not_replace_the_bank_erase_permission() {
    let mut c = ready();
    assert_eq!(set_bank_erase_permission(&mut c, 0, false), NONE);
    assert_eq!(start_answer(&c, data(BANK_ERASE, 0, 0)), DENIED);
    assert_eq!(start_answer(&c, data(BANK_ERASE, 0x4000, 0)), NONE);
}
