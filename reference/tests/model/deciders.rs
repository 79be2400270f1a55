//! 02, L2 "Say which rule decided": whom refusal 9 names, in every call that can answer it.

use crate::helpers::*;
use crate::random_runs::Rng;
use reference::model::*;

const PAGE: u32 = 1024;
/// Each kind that is judged by pages, with the right it needs.
const KINDS: [(u8, u8); 3] = [
    (READ, RIGHT_READ),
    (PROGRAM, RIGHT_PROGRAM),
    (PAGE_ERASE, RIGHT_ERASE),
];
const BY_DEFAULT: Option<Decider> = Some(Decider::Default);
const BY_SETTING: Option<Decider> = Some(Decider::PageSetting);
const BY_SEED_LOCK: Option<Decider> = Some(Decider::SeedLock);
const BY_BANK: Option<Decider> = Some(Decider::BankPermission);

fn by_region(number: u8) -> Option<Decider> {
    Some(Decider::Region(number))
}

/// Who denies an operation, as its start and the whole operation both tell.
fn denier(c: &Controller, op: Operation) -> Option<Decider> {
    let started = start(&mut c.clone(), op);
    let done = whole(&mut c.clone(), op, &mut patterned(), &mut [0; 1_024]);
    assert_eq!(
        (done.refusal, done.decider),
        (started.refusal, started.decider)
    );
    assert_eq!(started.decider.is_some(), started.refusal == DENIED);
    started.decider
}

/// Who denies a look at a data page, as the host read, the one in a round and the view tell.
fn denier_of_look(c: &Controller, page: u32) -> Option<Decider> {
    let mut image = patterned();
    let address = page * PAGE + 8;
    let given = host_read(c, &image, address);
    let viewed = view(c, &image, page);
    assert_eq!(
        (viewed.refusal, viewed.decider),
        (given.refusal, given.decider)
    );
    let told = round(&mut c.clone(), &mut image, Some(address), false);
    assert_eq!(told.host, Turn::Served(given));
    assert_eq!(given.decider.is_some(), given.refusal == DENIED);
    given.decider
}

/// Every call that needs the read right names the same one.
fn denier_of_reading(c: &Controller, page: u32) -> Option<Decider> {
    let decider = denier(c, data(READ, page * PAGE, 1));
    assert_eq!(denier_of_look(c, page), decider);
    decider
}

/// Ready and with all rights but in these regions.
fn with_regions(regions: &[(u32, Region)]) -> Controller {
    let mut c = ready();
    for (number, region) in regions {
        assert_eq!(set_region(&mut c, *number, *region), NONE);
    }
    c
}

/// Sets a page of bank 0, type 0.
fn set_page(c: &mut Controller, page: u32, on: bool, rights: u8) {
    let setting = InfoSetting { on, rights };
    assert_eq!(set_info_page(c, 0, 0, page, setting), NONE);
}

#[test]
fn each_decider_has_its_number() {
    for number in 0..8 {
        assert_eq!(Decider::Region(number).number(), number);
    }
    assert_eq!(Decider::Default.number(), 8);
    assert_eq!(Decider::PageSetting.number(), 9);
    assert_eq!(Decider::SeedLock.number(), 10);
    assert_eq!(Decider::BankPermission.number(), 11);
}

// -- data pages --

#[test]
fn each_region_is_named_by_each_call() {
    for number in 0..8 {
        for (kind, right) in KINDS {
            let c = with_regions(&[(number, region(4, 1, ALL_RIGHTS ^ right))]);
            for other in [READ, PROGRAM, PAGE_ERASE] {
                let expected = (other == kind).then_some(Decider::Region(number as u8));
                assert_eq!(denier(&c, data(other, 4 * PAGE, 1)), expected);
            }
            let look = (kind == READ).then_some(Decider::Region(number as u8));
            assert_eq!(denier_of_look(&c, 4), look);
            assert_eq!(denier_of_look(&c, 3), None);
        }
    }
}

#[test]
fn the_default_is_named_where_no_region_holds_the_page() {
    let mut c = with_regions(&[(0, region(4, 1, 0)), (7, region(6, 1, 0))]);
    assert_eq!(set_default_rights(&mut c, 0), NONE);
    for kind in [READ, PROGRAM, PAGE_ERASE] {
        assert_eq!(denier(&c, data(kind, 5 * PAGE, 1)), BY_DEFAULT);
        assert_eq!(denier(&c, data(kind, 31 * PAGE, 1)), BY_DEFAULT);
    }
    assert_eq!(denier_of_look(&c, 5), BY_DEFAULT);
    assert_eq!(denier_of_look(&c, 31), BY_DEFAULT);
}

/// The lower one decides alone, also where the higher one would allow.
#[test]
fn of_two_regions_that_hold_the_page_the_lower_is_named() {
    for rights in [0, ALL_RIGHTS] {
        let c = with_regions(&[(0, region(2, 2, 0)), (1, region(0, 8, rights))]);
        assert_eq!(denier_of_reading(&c, 2), by_region(0));
        let c = with_regions(&[(3, region(0, 8, 0)), (6, region(2, 2, rights))]);
        assert_eq!(denier_of_reading(&c, 2), by_region(3));
    }
    let c = with_regions(&[(0, region(2, 2, ALL_RIGHTS)), (1, region(0, 8, 0))]);
    assert_eq!(denier_of_reading(&c, 2), None);
    assert_eq!(denier_of_reading(&c, 4), by_region(1));
}

#[test]
fn a_region_that_is_off_or_empty_is_not_named() {
    let off = Region {
        on: false,
        ..region(2, 1, 0)
    };
    let empty = region(2, 0, 0);
    for skipped in [off, empty] {
        let c = with_regions(&[(0, skipped), (5, region(0, 8, 0))]);
        assert_eq!(denier_of_reading(&c, 2), by_region(5));
        let mut c = with_regions(&[(0, skipped)]);
        assert_eq!(denier_of_reading(&c, 2), None);
        assert_eq!(set_default_rights(&mut c, 0), NONE);
        assert_eq!(denier_of_reading(&c, 2), BY_DEFAULT);
    }
}

// -- information pages --

#[test]
fn each_information_page_is_denied_by_its_setting() {
    let all = ready();
    for bank in 0..2 {
        for (info_type, pages) in [(0, 10), (1, 1), (2, 2)] {
            for page in 0..pages {
                let at = (bank * D + page) * PAGE;
                for (on, rights) in [(false, 0), (false, ALL_RIGHTS), (true, 0)] {
                    let mut c = all.clone();
                    let setting = InfoSetting { on, rights };
                    assert_eq!(set_info_page(&mut c, bank, info_type, page, setting), NONE);
                    for kind in [READ, PROGRAM, PAGE_ERASE] {
                        assert_eq!(denier(&c, info(kind, info_type, at, 1)), BY_SETTING);
                    }
                }
            }
        }
    }
}

#[test]
fn a_page_that_is_on_is_named_for_the_right_that_it_lacks() {
    for (kind, right) in KINDS {
        let mut c = ready();
        set_page(&mut c, 4, true, ALL_RIGHTS ^ right);
        for other in [READ, PROGRAM, PAGE_ERASE] {
            let expected = (other == kind).then_some(Decider::PageSetting);
            assert_eq!(denier(&c, info(other, 0, 4 * PAGE, 1)), expected);
        }
    }
}

/// Regions and default rights are for data pages.
#[test]
fn an_information_page_is_never_denied_by_a_region_or_the_default() {
    let mut c = with_regions(&[(0, region(0, 32, 0))]);
    assert_eq!(set_default_rights(&mut c, 0), NONE);
    assert_eq!(denier(&c, info(READ, 0, 4 * PAGE, 1)), None);
    set_page(&mut c, 4, false, 0);
    assert_eq!(denier(&c, info(READ, 0, 4 * PAGE, 1)), BY_SETTING);
}

/// Whoever names the seed pages: creator page, owner page.
fn seed_pages(c: &Controller) -> [Option<Decider>; 2] {
    [1, 2].map(|page| {
        let [read, program, erase] =
            [READ, PROGRAM, PAGE_ERASE].map(|kind| denier(c, info(kind, 0, page * PAGE, 1)));
        assert_eq!((read, read), (program, erase));
        read
    })
}

/// Provision enabled, seeds locked; then who is named where the settings allow and where they deny.
#[test]
fn a_closed_seed_page_is_always_named_by_the_seed_lock() {
    let closed = [BY_SEED_LOCK; 2];
    let creator_closed = [BY_SEED_LOCK, None];
    for (provision, locked, allowed, denied) in [
        (false, false, closed, closed),
        (false, true, closed, closed),
        (true, true, creator_closed, [BY_SEED_LOCK, BY_SETTING]),
        (true, false, [None; 2], [BY_SETTING; 2]),
    ] {
        let mut c = ready();
        assert_eq!(set_inputs(&mut c, provision, locked), NONE);
        assert_eq!(seed_pages(&c), allowed);
        for (on, rights) in [(false, 0), (false, ALL_RIGHTS), (true, 0)] {
            for page in [1, 2] {
                set_page(&mut c, page, on, rights);
            }
            assert_eq!(seed_pages(&c), denied);
        }
    }
}

/// The same page numbers in bank 1 or another type, and the isolated page.
#[test]
fn the_seed_lock_is_named_for_the_two_seed_pages_alone() {
    let mut c = ready_without_rights();
    assert_eq!(set_inputs(&mut c, false, true), NONE);
    for page in [0, 3, 4, 9, D + 1, D + 2] {
        assert_eq!(denier(&c, info(READ, 0, page * PAGE, 1)), BY_SETTING);
    }
    assert_eq!(denier(&c, info(READ, 2, PAGE, 1)), BY_SETTING);
    assert_eq!(denier_of_reading(&c, 1), BY_DEFAULT);
    assert_eq!(seed_pages(&c), [BY_SEED_LOCK; 2]);
}

// -- spans --

/// Pages 1 and 5 may be read; regions 5 and 2 deny pages 2 and 4, the default the rest.
fn with_denied_pages() -> Controller {
    let mut c = with_regions(&[
        (0, region(1, 1, RIGHT_READ)),
        (1, region(5, 1, RIGHT_READ)),
        (2, region(4, 1, RIGHT_ERASE)),
        (5, region(2, 1, RIGHT_PROGRAM)),
    ]);
    assert_eq!(set_default_rights(&mut c, 0), NONE);
    c
}

#[test]
fn a_read_is_named_by_its_first_denied_page() {
    let c = with_denied_pages();
    for (address, count, expected) in [
        // One page, then one page more at a time.
        (PAGE, 256, None),
        (PAGE, 257, by_region(5)),
        (PAGE, 512, by_region(5)),
        (PAGE, 1_024, by_region(5)),
        (2 * PAGE, 1_024, by_region(5)),
        (3 * PAGE, 1_024, BY_DEFAULT),
        (4 * PAGE, 1_024, by_region(2)),
        (5 * PAGE, 1_024, BY_DEFAULT),
        // From the last word of a page.
        (2 * PAGE - 4, 2, by_region(5)),
        (3 * PAGE - 4, 2, by_region(5)),
        (4 * PAGE - 4, 2, BY_DEFAULT),
        (5 * PAGE - 4, 2, by_region(2)),
        (6 * PAGE - 4, 1, None),
        (6 * PAGE - 4, 2, BY_DEFAULT),
    ] {
        let read = data(READ, address, count);
        assert_eq!(denier(&c, read), expected, "{read:?}");
    }
}

/// Who decided and the recorded address are of one page, where the read is cut.
#[test]
fn the_recorded_address_is_on_the_page_that_is_named() {
    let c = with_denied_pages();
    for (address, count, recorded) in [
        (PAGE, 257, 2 * PAGE),
        (PAGE, 1_024, 2 * PAGE),
        (2 * PAGE + 8, 1_024, 2 * PAGE + 8),
        (3 * PAGE, 1_024, 3 * PAGE),
        (5 * PAGE, 1_024, 6 * PAGE),
        (5 * PAGE - 4, 2, 5 * PAGE - 4),
        (6 * PAGE - 4, 2, 6 * PAGE),
    ] {
        let mut after = c.clone();
        let decider = start(&mut after, data(READ, address, count)).decider;
        assert_eq!(after.last_address, recorded);
        assert_eq!(denier_of_look(&c, recorded / PAGE), decider);
    }
}

#[test]
fn a_read_over_the_bank_border_is_named_by_its_first_denied_page() {
    let c = with_regions(&[(6, region(16, 1, 0)), (1, region(17, 1, 0))]);
    assert_eq!(denier(&c, data(READ, 15 * PAGE, 1_024)), by_region(6));
    let c = with_regions(&[(6, region(15, 1, 0)), (1, region(16, 1, 0))]);
    assert_eq!(denier(&c, data(READ, 14 * PAGE, 1_024)), by_region(6));
}

/// Pages 1 and 2 are the seed pages.
#[test]
fn an_information_read_is_named_by_its_first_denied_page() {
    let mut c = ready();
    assert_eq!(set_inputs(&mut c, false, false), NONE);
    assert_eq!(denier(&c, info(READ, 0, 0, 256)), None);
    assert_eq!(denier(&c, info(READ, 0, 0, 257)), BY_SEED_LOCK);
    assert_eq!(denier(&c, info(READ, 0, 0, 1_024)), BY_SEED_LOCK);
    set_page(&mut c, 3, false, 0);
    assert_eq!(denier(&c, info(READ, 0, 0, 1_024)), BY_SEED_LOCK);
    set_page(&mut c, 0, false, 0);
    assert_eq!(denier(&c, info(READ, 0, 0, 768)), BY_SETTING);
    assert_eq!(denier(&c, info(READ, 0, 2 * PAGE, 512)), BY_SEED_LOCK);
    assert_eq!(denier(&c, info(READ, 0, 3 * PAGE, 512)), BY_SETTING);
}

// -- bank erases --

#[test]
fn a_bank_erase_is_named_by_its_banks_permission_alone() {
    for partition in [DATA, INFORMATION] {
        for bank in 0..2 {
            let erase = operation(BANK_ERASE, partition, 0, bank * D * PAGE + PAGE, 0);
            // Its page may be erased, or is denied by the default and the seed lock.
            for mut c in [ready(), ready_without_rights()] {
                assert_eq!(set_bank_erase_permission(&mut c, bank, false), NONE);
                assert_eq!(set_bank_erase_permission(&mut c, 1 - bank, true), NONE);
                assert_eq!(denier(&c, erase), BY_BANK);
                assert_eq!(set_bank_erase_permission(&mut c, bank, true), NONE);
                assert_eq!(denier(&c, erase), None);
            }
        }
    }
    let mut c = with_regions(&[(3, region(0, 32, 0))]);
    assert_eq!(set_bank_erase_permission(&mut c, 0, false), NONE);
    assert_eq!(denier(&c, data(BANK_ERASE, 0, 0)), BY_BANK);
}

// -- what reports nobody, and what is left --

/// Nothing is allowed, so that every refusal before 9 hides a decider.
#[test]
fn every_other_answer_of_an_operation_reports_nobody() {
    let none = ready_without_rights();
    let read = data(READ, 0, 1);
    let mut invalid = none.clone();
    invalid.default_rights = 8;
    let busy = started(read);
    for (c, op, refusal) in [
        (&ready(), read, NONE),
        (&invalid, read, INVALID),
        (&disabled(), read, DISABLED),
        (&uninitialised(D), read, UNINITIALISED),
        (&busy, read, BUSY),
        (&none, data(4, 0, 1), MALFORMED),
        (&none, data(READ, 2, 1), MALFORMED),
        (&none, data(READ, 0x7FFC, 2), OUT_OF_RANGE),
        (&none, info(PAGE_ERASE, 1, PAGE, 0), OUT_OF_RANGE),
        (&none, data(BANK_ERASE, 0x8000, 0), OUT_OF_RANGE),
        (&none, data(PROGRAM, 0x3C, 2), CROSSES_WINDOW),
    ] {
        assert_eq!(start_answer(c, op), refusal);
        assert_eq!(denier(c, op), None);
    }
    let short = whole(&mut none.clone(), read, &mut patterned(), &mut []);
    assert_eq!((short.refusal, short.decider), (SHORT_BUFFER, None));
}

#[test]
fn every_other_answer_of_a_look_reports_nobody() {
    let none = ready_without_rights();
    for c in [&ready(), &disabled(), &uninitialised(D)] {
        assert_eq!(denier_of_look(c, 3), None);
    }
    assert_eq!(denier_of_look(&none, 3), BY_DEFAULT);
    assert_eq!(denier_of_look(&none, 2 * D), None);
    assert_eq!(host_read(&none, &patterned(), 2).decider, None);
    assert_eq!(host_read(&none, &[], 0).decider, None);
    assert_eq!(view(&none, &[], 0).decider, None);
}

/// The decider is reported and not recorded, and the steps of the read report nothing.
#[test]
fn a_denied_read_reports_at_its_start_and_leaves_what_it_left() {
    let read = data(READ, 4 * PAGE, 2);
    let in_progress = InProgress::Read {
        operation: read,
        moved: 0,
        readable: 0,
    };
    let before = with_regions(&[(6, region(4, 1, RIGHT_ERASE))]);
    let mut c = before.clone();
    let told = Started {
        refusal: DENIED,
        decider: by_region(6),
    };
    assert_eq!(start(&mut c, read), told);
    let expected = Controller {
        recorded: kinds(&[9]),
        last_address: 4 * PAGE,
        in_progress,
        ..before
    };
    assert_eq!(c, expected);
    assert_eq!(step(&mut c, &mut patterned()), MOVED);
    assert_eq!(step(&mut c, &mut patterned()), FINISHED);
}

/// Whoever denies an operation, it leaves the same record.
#[test]
fn the_record_does_not_tell_who_decided() {
    let erase = data(PAGE_ERASE, 4 * PAGE, 0);
    for regions in [&[][..], &[(2, region(4, 1, 0))]] {
        let mut c = with_regions(regions);
        assert_eq!(set_default_rights(&mut c, 0), NONE);
        assert_start_recorded(&mut c, erase, DENIED);
    }
}

// -- rounds --

/// A page erase of bank 0, while region 3 denies the reading of page 4 there and region 2 of page 20.
fn erasing(lost: u32) -> Controller {
    let mut c = with_regions(&[(3, region(4, 1, 6)), (2, region(20, 1, 6))]);
    assert_eq!(start(&mut c, data(PAGE_ERASE, 4 * PAGE, 0)).refusal, NONE);
    c.lost = [lost, 0];
    c
}

fn told_host(c: Controller, page: u32, steps: bool) -> Turn<HostGiven> {
    round(&mut c.clone(), &mut patterned(), Some(page * PAGE), steps).host
}

/// Won, in another bank, and without a step.
#[test]
fn a_served_host_reports_who_decided() {
    let denied = |number| {
        Turn::Served(HostGiven {
            refusal: DENIED,
            decider: by_region(number),
            word: 0,
        })
    };
    assert_eq!(told_host(erasing(0), 4, true), denied(3));
    assert_eq!(told_host(erasing(5), 20, true), denied(2));
    assert_eq!(told_host(erasing(5), 4, false), denied(3));
}

#[test]
fn a_host_that_waits_reports_nobody() {
    assert_eq!(told_host(erasing(5), 4, true), Turn::Waiting);
    let told = round(&mut erasing(5), &mut patterned(), None, true);
    assert_eq!(told.host, Turn::Unasked);
}

// -- any state --

#[test]
fn exactly_refusal_9_names_somebody() {
    let mut rng = Rng(0x0DEC_1DE5_5EED_0001);
    let mut named = [0; 12];
    for _ in 0..20_000 {
        let mut c = rng.controller();
        let image = patterned();
        let given = host_read(&c, &image, rng.host_address());
        let viewed = view(&c, &image, rng.below(34));
        let started = start(&mut c, rng.operation());
        for (refusal, decider) in [
            (given.refusal, given.decider),
            (viewed.refusal, viewed.decider),
            (started.refusal, started.decider),
        ] {
            assert_eq!(decider.is_some(), refusal == DENIED);
            if let Some(decider) = decider {
                named[usize::from(decider.number())] += 1;
            }
        }
    }
    assert!(named.iter().all(|count| *count > 0), "{named:?}");
}
