//! Validity of a state (01: "a state is ours exactly if .."): each clause, on
//! both sides of its border.

use crate::helpers::*;
use reference::model::*;

/// Every call gives 1 and leaves all unchanged; reset alone still works.
fn assert_broken(c: &Controller) {
    assert!(!is_valid(c), "{c:?}");
    let mut c = c.clone();
    let mut image = vec![0; image_words(c.data_pages.min(256)) as usize];
    let read = data(READ, 0, 1);
    let mut refused = |call: &dyn Fn(&mut Controller, &mut [u32]) -> u8| {
        assert_refused(&mut c, &mut image, INVALID, |c, i| call(c, i));
    };
    refused(&|c, _| set_inputs(c, true, false));
    refused(&|c, _| set_region(c, 0, Region::default()));
    refused(&|c, _| set_default_rights(c, 7));
    refused(&|c, _| set_info_page(c, 0, 0, 0, InfoSetting::default()));
    refused(&|c, _| set_bank_erase_permission(c, 0, true));
    refused(&|c, i| initialise(c, i).refusal);
    refused(&|c, _| start(c, read).refusal);
    refused(&|c, i| step(c, i).refusal);
    refused(&|c, _| push(c, 1));
    refused(&|c, _| pop(c).refusal);
    refused(&|c, i| whole(c, read, i, &mut [0]).refusal);
    refused(&|c, i| host_read(c, i, 0).refusal);
    refused(&|c, i| view(c, i, 0).refusal);
    refused(&|c, i| round_refusal(c, i));
    refused(&|c, _| clear(c));
    refused(&|c, i| rma(c, i));
    assert_eq!(reset(&mut c, D), NONE);
    assert_eq!(c, uninitialised(D));
}

fn assert_valid(c: &Controller) {
    assert!(is_valid(c), "{c:?}");
    assert_eq!(clear(&mut c.clone()), NONE);
}

fn changed(mut c: Controller, change: impl FnOnce(&mut Controller)) -> Controller {
    change(&mut c);
    c
}

fn queue_of(length: u32) -> Queue {
    Queue {
        words: [1; 16],
        length,
    }
}

#[test]
fn d_is_10_to_256() {
    for d in [0, 1, 9, 257, 1 << 31, u32::MAX] {
        assert_broken(&changed(uninitialised(D), |c| c.data_pages = d));
        assert_broken(&changed(started(data(READ, 0, 2)), |c| c.data_pages = d));
    }
    for d in [10, 256] {
        assert_valid(&changed(uninitialised(D), |c| c.data_pages = d));
    }
}

#[test]
fn the_default_controller_is_broken() {
    assert_broken(&Controller::default());
}

#[test]
fn settings_pass_13_even_if_off() {
    for on in [false, true] {
        for number in 0..8 {
            let with = |first_page, page_count, rights| {
                changed(uninitialised(D), |c| {
                    c.regions[number] = Region {
                        on,
                        first_page,
                        page_count,
                        rights,
                    }
                })
            };
            assert_valid(&with(0, 32, 7));
            assert_valid(&with(32, 0, 0));
            assert_broken(&with(0, 33, 7));
            assert_broken(&with(32, 1, 7));
            assert_broken(&with(33, 0, 7));
            assert_broken(&with(u32::MAX, 1, 7));
            assert_broken(&with(0, 1, 8));
        }
        for page in 0..26 {
            let with = |rights| {
                changed(uninitialised(D), |c| {
                    c.info_settings[page] = InfoSetting { on, rights }
                })
            };
            assert_valid(&with(7));
            assert_broken(&with(8));
        }
    }
    assert_valid(&changed(disabled(), |c| c.default_rights = 7));
    assert_broken(&changed(disabled(), |c| c.default_rights = 8));
}

#[test]
fn recorded_kinds_are_among_5_7_8_9() {
    for kind in 0..32 {
        let c = changed(ready(), |c| c.recorded = 1 << kind);
        if [5, 7, 8, 9].contains(&kind) {
            assert_valid(&c);
        } else {
            assert_broken(&c);
            assert_broken(&changed(c, |c| c.recorded |= kinds(&[5])));
        }
    }
}

#[test]
fn the_last_address_is_0_if_no_kind_is_recorded() {
    assert_broken(&changed(ready(), |c| c.last_address = 1));
    let with_kind = changed(ready(), |c| c.recorded = kinds(&[8]));
    for address in [0, 3, u32::MAX] {
        assert_valid(&changed(with_kind.clone(), |c| c.last_address = address));
    }
}

#[test]
fn records_may_stand_in_any_phase() {
    for c in [uninitialised(D), ready(), disabled()] {
        assert_valid(&changed(c, |c| {
            c.recorded = kinds(&[5, 9]);
            c.last_address = 77;
        }));
    }
}

#[test]
fn queues_hold_at_most_16_words() {
    assert_valid(&changed(ready(), |c| c.read_queue = queue_of(16)));
    for length in [17, 18, u32::MAX] {
        assert_broken(&changed(ready(), |c| c.read_queue = queue_of(length)));
        assert_broken(&changed(ready(), |c| c.program_queue = queue_of(length)));
        let program = started(data(PROGRAM, 0, 16));
        assert_broken(&changed(program, |c| c.program_queue = queue_of(length)));
    }
}

#[test]
fn queues_hold_none_unless_ready() {
    for c in [uninitialised(D), disabled()] {
        assert_broken(&changed(c.clone(), |c| c.read_queue = queue_of(1)));
        assert_broken(&changed(c.clone(), |c| c.program_queue = queue_of(1)));
        // Places past the length are not looked at.
        assert_valid(&changed(c, |c| c.read_queue = queue_of(0)));
    }
}

#[test]
fn the_program_queue_is_empty_with_no_program_in_progress() {
    for c in [
        ready(),
        started(data(READ, 0, 4)),
        started(data(PAGE_ERASE, 0, 4)),
    ] {
        assert_valid(&changed(c.clone(), |c| c.read_queue = queue_of(9)));
        assert_broken(&changed(c, |c| c.program_queue = queue_of(1)));
    }
}

#[test]
fn an_operation_is_in_progress_only_when_ready() {
    for op in [
        data(READ, 0, 4),
        data(PROGRAM, 0, 4),
        data(PAGE_ERASE, 0, 4),
    ] {
        for phase in [Phase::Uninitialised, Phase::Disabled] {
            assert_broken(&changed(started(op), |c| c.phase = phase));
        }
    }
}

fn reading(c: Controller, operation: Operation, moved: u32, readable: u32) -> Controller {
    changed(c, |c| {
        c.in_progress = InProgress::Read {
            operation,
            moved,
            readable,
        }
    })
}

fn with_read(operation: Operation, moved: u32, readable: u32) -> Controller {
    reading(ready(), operation, moved, readable)
}

fn with_program(operation: Operation, moved: u32, queued: u32) -> Controller {
    changed(ready(), |c| {
        c.in_progress = InProgress::Program { operation, moved };
        c.program_queue = queue_of(queued);
    })
}

fn with_erase(operation: Operation, moved: u32) -> Controller {
    changed(ready(), |c| {
        c.in_progress = InProgress::Erase { operation, moved }
    })
}

#[test]
fn an_operation_in_progress_has_words_left_to_move() {
    let read = data(READ, 0, 4);
    assert_valid(&with_read(read, 3, 4));
    assert_broken(&with_read(read, 4, 4));
    assert_broken(&with_read(read, u32::MAX, 4));
    let program = data(PROGRAM, 0, 4);
    assert_valid(&with_program(program, 3, 0));
    assert_broken(&with_program(program, 4, 0));
    assert_broken(&with_program(program, u32::MAX, 1));
    for (erase, words) in [
        (data(PAGE_ERASE, 0, 4), 256),
        (info(PAGE_ERASE, 2, 0, 4), 256),
        (data(BANK_ERASE, 0, 4), 4_096),
        (info(BANK_ERASE, 0, 0, 4), 7_424),
    ] {
        assert_valid(&with_erase(erase, words - 1));
        assert_broken(&with_erase(erase, words));
        assert_broken(&with_erase(erase, u32::MAX));
    }
}

#[test]
fn an_operation_in_progress_has_its_own_kind() {
    for kind in [PROGRAM, PAGE_ERASE, BANK_ERASE, 4, 255] {
        assert_broken(&with_read(data(kind, 0, 4), 0, 4));
        assert_broken(&with_read(data(kind, 0, 4), 0, 0));
    }
    for kind in [READ, PAGE_ERASE, BANK_ERASE, 4, 255] {
        assert_broken(&with_program(data(kind, 0, 4), 0, 0));
    }
    for kind in [READ, PROGRAM, 4, 255] {
        assert_broken(&with_erase(data(kind, 0, 4), 0));
    }
}

/// As a read, with all its words readable or none, and as a program.
fn assert_never_in_progress(read: Operation) {
    assert_broken(&with_read(read, 0, read.count));
    assert_broken(&with_read(read, 0, 0));
    let program = Operation {
        kind: PROGRAM,
        ..read
    };
    assert_broken(&with_program(program, 0, 0));
}

#[test]
fn an_operation_in_progress_passes_5() {
    for op in [
        operation(READ, 2, 0, 0, 4),
        info(READ, 3, 0, 4),
        data(READ, 2, 4),
        data(READ, 0, 0),
        data(READ, 0, 1_025),
    ] {
        assert_never_in_progress(op);
    }
    for kind in [PAGE_ERASE, BANK_ERASE] {
        assert_broken(&with_erase(operation(kind, 2, 0, 0, 4), 0));
        assert_broken(&with_erase(data(kind, 1, 4), 0));
        assert_valid(&with_erase(operation(kind, DATA, 255, 0, 0), 0));
        assert_valid(&with_erase(info(kind, 2, 0, u32::MAX), 0));
    }
    assert_broken(&with_erase(info(PAGE_ERASE, 3, 0, 0), 0));
    assert_valid(&with_erase(info(BANK_ERASE, 3, 0, 0), 0));
}

#[test]
fn an_operation_in_progress_passes_7_and_8() {
    for op in [
        data(READ, 0x8000, 1),
        data(READ, 0x7FFC, 2),
        info(READ, 1, 0x3FC, 2),
        info(READ, 0, 0x2800, 1),
    ] {
        assert_never_in_progress(op);
    }
    assert_broken(&with_program(data(PROGRAM, 0x3C, 2), 0, 0));
    assert_broken(&with_erase(info(PAGE_ERASE, 0, 0x2800, 0), 0));
    assert_broken(&with_erase(data(BANK_ERASE, 0x8000, 0), 0));
    assert_valid(&with_erase(info(BANK_ERASE, 0, 0x2800, 0), 0));
}

#[test]
fn a_program_or_erase_in_progress_passes_9() {
    let without_rights = |c| {
        changed(c, |c| {
            c.default_rights = 0;
            c.bank_erase_permissions = [false; 2];
        })
    };
    assert_broken(&without_rights(with_program(data(PROGRAM, 0, 4), 0, 0)));
    assert_broken(&without_rights(with_erase(data(PAGE_ERASE, 0, 4), 0)));
    assert_broken(&without_rights(with_erase(data(BANK_ERASE, 0, 4), 0)));
}

/// However many words have moved, and no other number than this.
fn assert_readable(c: &Controller, read: Operation, readable: u32) {
    let n = read.count;
    for moved in [0, readable.min(n - 1), n - 1] {
        assert_valid(&reading(c.clone(), read, moved, readable));
    }
    let (over, under) = (readable + 1, readable.wrapping_sub(1));
    for other in [over, under, 0, 1, n - 1, n, n + 1, u32::MAX] {
        if other != readable {
            assert_broken(&reading(c.clone(), read, 1, other));
        }
    }
}

#[test]
fn a_read_in_progress_holds_the_number_of_its_readable_words() {
    assert_readable(&ready(), data(READ, 0, 4), 4);
    assert_readable(&ready_without_rights(), data(READ, 0, 4), 0);
    let mut c = ready();
    assert_eq!(set_region(&mut c, 2, region(15, 2, 6)), NONE);
    assert_readable(&c, data(READ, 13 * 1024, 512), 512);
    assert_readable(&c, data(READ, 13 * 1024, 513), 512);
    assert_readable(&c, data(READ, 14 * 1024 + 1_016, 1_000), 2);
    assert_readable(&c, data(READ, 15 * 1024 + 1_016, 1_000), 0);
    assert_readable(&c, data(READ, 17 * 1024, 1_000), 1_000);
    assert_readable(&c, info(READ, 0, 0, 1_024), 1_024);
    assert_eq!(set_inputs(&mut c, true, true), NONE);
    assert_readable(&c, info(READ, 0, 0, 1_024), 256);
    assert_eq!(set_info_page(&mut c, 1, 2, 1, InfoSetting::default()), NONE);
    assert_readable(&c, info(READ, 2, 0x43FC, 257), 1);
    assert_readable(&c, info(READ, 2, 0x03FC, 257), 257);
}

/// The number is reckoned from the state's own settings and inputs.
#[test]
fn a_read_in_progress_is_judged_by_the_settings_that_stand_there() {
    let read = with_read(info(READ, 0, 0x3FC, 2), 1, 2);
    assert_valid(&read);
    assert_broken(&changed(read.clone(), |c| c.seeds_locked = true));
    assert_broken(&changed(read.clone(), |c| c.provision_enabled = false));
    assert_broken(&changed(read, |c| c.info_settings[1].on = false));
    let read = with_read(data(READ, 0x3FFC, 2), 1, 2);
    for (page, readable) in [(15, 0), (16, 1)] {
        let denied = changed(read.clone(), |c| c.regions[5] = region(page, 1, 6));
        assert_broken(&denied);
        assert_valid(&reading(denied, data(READ, 0x3FFC, 2), 1, readable));
    }
}

#[test]
fn at_most_n_words_are_pushed() {
    let program = data(PROGRAM, 0, 6);
    assert_valid(&with_program(program, 0, 6));
    assert_valid(&with_program(program, 2, 4));
    assert_broken(&with_program(program, 0, 7));
    assert_broken(&with_program(program, 2, 5));
    assert_broken(&with_program(program, 5, u32::MAX));
    assert_valid(&with_program(data(PROGRAM, 0, 16), 0, 16));
}

/// 02, L1.
#[test]
fn a_lost_count_is_at_most_5() {
    for bank in 0..2 {
        for c in [uninitialised(D), started(data(READ, 0, 4)), disabled()] {
            let with = |lost| changed(c.clone(), |c| c.lost[bank] = lost);
            for lost in 0..=5 {
                assert_valid(&with(lost));
            }
            for lost in [6, 255, 256, u32::MAX] {
                assert_broken(&with(lost));
            }
        }
    }
}

#[test]
fn the_read_queue_is_not_tied_to_the_words_moved() {
    let c = with_read(data(READ, 0, 20), 2, 20);
    for length in [0, 1, 2, 3, 16] {
        assert_valid(&changed(c.clone(), |c| c.read_queue = queue_of(length)));
    }
}
