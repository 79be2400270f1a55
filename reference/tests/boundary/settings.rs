//! Each setting lands in its own fields and in no other, and each of its
//! arguments in its own field.

use crate::helpers::*;
use reference::interface::calls;
use reference::interface::flat::{Controller, PageSetting, Region};

#[test]
fn reset_sets_d_alone() {
    for d in 10..=256 {
        let (answer, after) = left(ready(), |c| calls::reset(c, d));
        assert_eq!((answer, after.data_pages), (0, d));
        assert_changed(&with(&after, "data_pages", D), &uninitialised(), &[]);
    }
}

#[test]
fn each_input_lands_in_its_own_field() {
    type Case<'a> = (u32, u32, &'a [(&'a str, u32)]);
    let cases: [Case; 7] = [
        (0, 0, &[]),
        (1, 0, &[("provision_enabled", 1)]),
        (0, 1, &[("seeds_locked", 1)]),
        (255, 0, &[("provision_enabled", 1)]),
        (0, 2, &[("seeds_locked", 1)]),
        (256, 0, &[("provision_enabled", 1)]),
        (0, 1 << 31, &[("seeds_locked", 1)]),
    ];
    for (provision_enabled, seeds_locked, changed) in cases {
        let (answer, after) = left(uninitialised(), |c| {
            calls::set_inputs(c, provision_enabled, seeds_locked)
        });
        assert_eq!(answer, 0);
        assert_changed(&after, &uninitialised(), changed);
    }
}

/// One argument at a time; a flag is true at any other number than 0.
#[test]
fn each_part_of_a_region_lands_in_its_own_field() {
    let none = Region::default();
    let parts = [
        (
            "first_page",
            29,
            Region {
                first_page: 29,
                ..none
            },
        ),
        (
            "page_count",
            31,
            Region {
                page_count: 31,
                ..none
            },
        ),
        ("on", 1, Region { on: 1, ..none }),
        ("on", 1, Region { on: 254, ..none }),
        ("on", 1, Region { on: 256, ..none }),
        ("rights", 5, Region { rights: 5, ..none }),
    ];
    for number in 0..8 {
        for (part, value, region) in parts {
            let (answer, after) = left(uninitialised(), |c| calls::set_region(c, number, region));
            assert_eq!(answer, 0);
            let field = format!("regions[{number}].{part}");
            assert_changed(&after, &uninitialised(), &[(&field, value)]);
        }
    }
}

#[test]
fn each_information_page_lands_in_its_own_fields() {
    for (place, bank, info_type, page) in info_pages() {
        for (part, value, setting) in [
            ("on", 1, PageSetting { on: 1, rights: 0 }),
            ("on", 1, PageSetting { on: 4, rights: 0 }),
            ("on", 1, PageSetting { on: 512, rights: 0 }),
            ("rights", 6, PageSetting { on: 0, rights: 6 }),
        ] {
            let (answer, after) = left(uninitialised(), |c| {
                calls::set_info_page(c, bank, info_type, page, setting)
            });
            assert_eq!(answer, 0);
            let field = format!("info_pages[{place}].{part}");
            assert_changed(&after, &uninitialised(), &[(&field, value)]);
        }
    }
}

#[test]
fn default_rights_and_bank_erases_land_in_their_own_fields() {
    for rights in 1..=7 {
        let (_, after) = left(uninitialised(), |c| calls::set_default_rights(c, rights));
        assert_changed(&after, &uninitialised(), &[("default_rights", rights)]);
    }
    for bank in 0..2 {
        let field = format!("bank_erase[{bank}]");
        for on in [1, 2, 255, 256, u32::MAX] {
            let (_, after) = left(uninitialised(), |c| calls::set_bank_erase(c, bank, on));
            assert_changed(&after, &uninitialised(), &[(&field, 1)]);
        }
        let (_, after) = left(ready(), |c| calls::set_bank_erase(c, bank, 0));
        assert_changed(&after, &ready(), &[(&field, 0)]);
    }
}

fn region(first_page: u32, page_count: u32, rights: u32) -> Region {
    Region {
        first_page,
        page_count,
        on: 1,
        rights,
    }
}

fn setting(rights: u32) -> PageSetting {
    PageSetting { on: 1, rights }
}

fn assert_refused(call: impl FnOnce(&mut Controller) -> u32) {
    let (answer, after) = left(uninitialised(), call);
    assert_eq!(answer, 13);
    assert_changed(&after, &uninitialised(), &[]);
}

/// Arguments out of range, each alone.
#[test]
fn each_bad_setting_is_refused() {
    for (number, region) in [
        (8, region(0, 1, 7)),
        (u32::MAX, region(0, 1, 7)),
        (0, region(33, 0, 7)),
        (0, region(0, 33, 7)),
        (0, region(u32::MAX, 1, 7)),
        (0, region(0, 1, 8)),
    ] {
        assert_refused(|c| calls::set_region(c, number, region));
    }
    for (bank, info_type, page, rights) in [
        (2, 0, 0, 7),
        (0, 3, 0, 7),
        (0, 0, 10, 7),
        (0, 1, 1, 7),
        (0, 2, 2, 7),
        (0, 0, 0, 8),
    ] {
        assert_refused(|c| calls::set_info_page(c, bank, info_type, page, setting(rights)));
    }
    assert_refused(|c| calls::set_default_rights(c, 8));
    assert_refused(|c| calls::set_bank_erase(c, 2, 1));
}

/// Over 255 is none, also where the low bits are those of a right value.
#[test]
fn each_large_setting_is_refused() {
    for large in [256, 257, 263, 1 << 16, 1 << 31, u32::MAX] {
        assert_refused(|c| calls::set_region(c, 0, region(0, 1, large)));
        assert_refused(|c| calls::set_default_rights(c, large));
        assert_refused(|c| calls::set_info_page(c, 0, 0, 0, setting(large)));
        assert_refused(|c| calls::set_info_page(c, 0, large, 0, setting(7)));
    }
}
