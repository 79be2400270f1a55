//! Who decided: each number arrives in the result of each call that can be
//! denied, and every other answer reports 255.

use crate::helpers::*;
use reference::interface::calls;
use reference::interface::flat::{
    self, Completed, Controller, HostFetched, Operation, PageSetting, Region, Started, Viewed,
    BANK_ERASE, BY_BANK_PERMISSION, BY_DEFAULT, BY_PAGE_SETTING, BY_SEED_LOCK, NO_DECIDER,
    PAGE_ERASE, PROGRAM, READ,
};
use reference::interface::{decider_number, from_reference, to_reference};
use reference::model::Decider;

/// Every kind that is judged by its pages.
const KINDS: [u32; 3] = [READ, PROGRAM, PAGE_ERASE];

/// The start and the whole operation, also with steps, answer this and report this, and no bits.
fn assert_told(c: &Controller, operation: Operation, answer: u32, decider: u32) {
    let (started, _) = left(*c, |c| calls::start(c, operation));
    assert_eq!(started, Started { answer, decider }, "{operation:?}");
    let (done, _) = left(*c, |c| {
        calls::run(c, &mut image(), operation, &mut [u32::MAX; 1_024])
    });
    assert_eq!(
        (done.answer, done.decider),
        (answer, decider),
        "{operation:?}"
    );
    if answer != 0 {
        assert_eq!(done.bits, 0);
    }
    let (ran, _) = left(*c, |c| {
        calls::run_for(c, &mut image(), operation, &mut [u32::MAX; 1_024], u32::MAX)
    });
    assert_eq!(
        (ran.answer, ran.decider, ran.bits),
        (answer, decider, done.bits),
        "{operation:?}"
    );
}

/// The host read and the view of a page answer this and report this, no word and no start.
fn assert_look_refused(c: &Controller, image: &[u32], page: u32, answer: u32, decider: u32) {
    let fetched = HostFetched {
        answer,
        decider,
        word: 0,
    };
    assert_eq!(calls::host_read(c, image, page * 1024 + 4), fetched);
    let viewed = Viewed {
        answer,
        decider,
        start: 0,
    };
    assert_eq!(calls::view(c, image, page), viewed);
}

/// Ready with every right, but for one region with none over two pages.
fn with_region(number: usize) -> Controller {
    let mut c = ready();
    c.regions[number] = Region {
        first_page: 13,
        page_count: 2,
        on: 1,
        rights: 0,
    };
    c
}

#[test]
fn each_region_is_told_by_each_call() {
    for number in 0..8 {
        let c = with_region(number);
        for page in [13, 14] {
            for kind in KINDS {
                assert_told(&c, data(kind, page * 1024, 1), 9, number as u32);
            }
            assert_look_refused(&c, &image(), page, 9, number as u32);
        }
    }
}

#[test]
fn the_default_rights_are_told_by_each_call() {
    let c = ready_without_rights();
    for kind in KINDS {
        assert_told(&c, data(kind, 0x4400, 1), 9, BY_DEFAULT);
    }
    assert_look_refused(&c, &image(), 17, 9, BY_DEFAULT);
}

#[test]
fn each_information_page_is_told_by_its_setting() {
    for (place, bank, info_type, page) in info_pages() {
        for denying in [
            PageSetting { on: 0, rights: 7 },
            PageSetting { on: 1, rights: 0 },
        ] {
            let mut c = ready();
            c.info_pages[place] = denying;
            for kind in KINDS {
                let operation = info(kind, info_type, (bank * D + page) * 1024, 1);
                assert_told(&c, operation, 9, BY_PAGE_SETTING);
            }
        }
    }
}

/// Whatever the settings of the closed pages say.
#[test]
fn the_seed_lock_is_told_by_each_operation() {
    for (provision, locked, closed) in [(0, 0, &[1, 2][..]), (0, 1, &[1, 2]), (1, 1, &[1])] {
        for setting in [
            PageSetting { on: 1, rights: 7 },
            PageSetting { on: 1, rights: 0 },
            PageSetting { on: 0, rights: 7 },
        ] {
            let c = Controller {
                provision_enabled: provision,
                seeds_locked: locked,
                info_pages: [setting; flat::INFO_PAGES],
                ..ready()
            };
            for page in closed {
                for kind in KINDS {
                    assert_told(&c, info(kind, 0, page * 1024, 1), 9, BY_SEED_LOCK);
                }
            }
        }
    }
}

#[test]
fn each_banks_permission_is_told() {
    for bank in 0..2 {
        let c = with(&ready(), &format!("bank_erase[{bank}]"), 0);
        for erase in [
            data(BANK_ERASE, bank * D * 1024, 0),
            info(BANK_ERASE, 0, bank * D * 1024, 0),
        ] {
            assert_told(&c, erase, 9, BY_BANK_PERMISSION);
        }
    }
}

/// Of a span, the decider of the first denied page.
#[test]
fn the_first_denied_page_is_told() {
    let mut c = with_region(6);
    c.regions[2] = Region {
        first_page: 15,
        page_count: 2,
        on: 1,
        rights: 6,
    };
    assert_told(&c, data(READ, 12 * 1024, 256), 0, NO_DECIDER);
    assert_told(&c, data(READ, 12 * 1024, 1_024), 9, 6);
    assert_told(&c, data(READ, 15 * 1024, 1_024), 9, 2);
    let c = with(&ready(), "provision_enabled", 0);
    assert_told(&c, info(READ, 0, 0, 1_024), 9, BY_SEED_LOCK);
    let c = with(&c, "info_pages[0].on", 0);
    assert_told(&c, info(READ, 0, 0, 1_024), 9, BY_PAGE_SETTING);
}

/// Without rights, so that every refusal before 9 hides a decider.
#[test]
fn every_other_answer_of_an_operation_tells_nobody() {
    let none = ready_without_rights();
    let read = data(READ, 0x40, 1);
    let busy = with_progress(ready(), data(READ, 0x0440, 16), 3);
    for (c, operation, answer) in [
        (ready(), read, 0),
        (ready(), data(PROGRAM, 0x40, 1), 0),
        (ready(), data(PAGE_ERASE, 0x40, 1), 0),
        (ready(), data(BANK_ERASE, 0x40, 1), 0),
        (with(&none, "phase", 9), read, 1),
        (with(&none, "phase", 2), read, 2),
        (uninitialised(), read, 3),
        (busy, read, 4),
        (none, data(4, 0x40, 1), 5),
        (none, data(READ, 0x41, 1), 5),
        (none, data(READ, 0x8000, 1), 7),
        (none, data(BANK_ERASE, 0x8000, 1), 7),
        (none, data(PROGRAM, 0x3C, 2), 8),
    ] {
        assert_told(&c, operation, answer, NO_DECIDER);
    }
    let short = Completed {
        answer: 6,
        decider: NO_DECIDER,
        bits: 0,
    };
    let (done, _) = left(none, |c| calls::run(c, &mut image(), read, &mut []));
    assert_eq!(done, short);
}

#[test]
fn every_other_answer_of_a_look_tells_nobody() {
    let none = ready_without_rights();
    for (c, page, answer) in [
        (with(&none, "phase", 9), 3, 1),
        (with(&none, "phase", 2), 3, 2),
        (uninitialised(), 3, 3),
        (none, 2 * D, 7),
    ] {
        assert_look_refused(&c, &image(), page, answer, NO_DECIDER);
    }
    assert_look_refused(&none, &image()[1..], 3, 1, NO_DECIDER);
    let given = calls::host_read(&none, &image(), 2);
    assert_eq!((given.answer, given.decider), (5, NO_DECIDER));
}

/// A denied operation leaves its record and, of a read, the read in progress: no number tells who decided.
#[test]
fn the_controller_does_not_keep_who_decided() {
    let erase = data(PAGE_ERASE, 13 * 1024, 0);
    let recorded = [("recorded", 1 << 9), ("last_address", 13 * 1024)];
    for number in 0..8 {
        let c = with_region(number);
        let (_, after) = left(c, |c| calls::start(c, erase));
        assert_changed(&after, &c, &recorded);
        let (_, after) = left(c, |c| {
            calls::run(c, &mut image(), data(READ, 13 * 1024, 2), &mut [0; 2])
        });
        assert_changed(&after, &c, &recorded);
        let state = to_reference(&after).expect("a valid state");
        assert_changed(&from_reference(&state), &after, &[]);
    }
}

#[test]
fn each_decider_has_its_number() {
    for number in 0..8 {
        assert_eq!(decider_number(Some(Decider::Region(number))), number.into());
    }
    for (decider, number) in [
        (Some(Decider::Default), BY_DEFAULT),
        (Some(Decider::PageSetting), BY_PAGE_SETTING),
        (Some(Decider::SeedLock), BY_SEED_LOCK),
        (Some(Decider::BankPermission), BY_BANK_PERMISSION),
        (None, NO_DECIDER),
    ] {
        assert_eq!(decider_number(decider), number);
    }
}
