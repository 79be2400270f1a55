//! Every row of the refusal table, with what it leaves.

use crate::helpers::*;
use reference::model::*;

#[test]
fn row_1_wrong_image_length_for_every_call_that_is_lent_one() {
    let mut c = ready();
    for words in [0, 14_847, 14_849, 137_728] {
        let mut image = vec![5; words];
        assert_refused(&mut c, &mut image, 1, |c, i| step(c, i).refusal);
        assert_refused(&mut c, &mut image, 1, |c, i| host_read(c, i, 0).refusal);
        assert_refused(&mut c, &mut image, 1, |c, i| view(c, i, 0).refusal);
        assert_refused(&mut c, &mut image, 1, |c, i| round_refusal(c, i));
        assert_refused(&mut c, &mut image, 1, |c, i| rma(c, i));
        assert_refused(&mut c, &mut image, 1, |c, i| initialise(c, i).refusal);
        let mut buffer = [3; 4];
        assert_refused(&mut c, &mut image, 1, |c, i| {
            whole(c, data(READ, 0, 4), i, &mut buffer).refusal
        });
        assert_eq!(buffer, [3; 4]);
    }
}

#[test]
fn row_1_wrong_d_for_reset_hands_the_state_back() {
    for d in [0, 1, 9, 257, u32::MAX] {
        for mut c in [
            ready(),
            disabled(),
            started(data(READ, 0, 9)),
            Controller::default(),
        ] {
            assert_refused(&mut c, &mut vec![], 1, |c, _| reset(c, d));
        }
    }
}

#[test]
fn reset_takes_any_state() {
    let mut broken = started(data(PROGRAM, 0, 2));
    broken.program_queue.length = 999;
    broken.recorded = ONES;
    for mut c in [ready(), disabled(), broken, Controller::default()] {
        for d in [10, 16, 255, 256] {
            assert_eq!(reset(&mut c, d), NONE);
            let expected = Controller {
                data_pages: d,
                ..Controller::default()
            };
            assert_eq!(c, expected);
            assert_eq!(c.phase, Phase::Uninitialised);
        }
    }
}

/// Every call that needs a controller that is ready.
fn assert_not_ready(c: &mut Controller, image: &mut Vec<u32>, refusal: u8) {
    let read = data(READ, 0, 1);
    assert_refused(c, image, refusal, |c, _| start(c, read).refusal);
    assert_refused(c, image, refusal, |c, i| step(c, i).refusal);
    assert_refused(c, image, refusal, |c, _| push(c, 1));
    assert_refused(c, image, refusal, |c, i| {
        whole(c, read, i, &mut [0]).refusal
    });
    assert_refused(c, image, refusal, |c, i| host_read(c, i, 0).refusal);
    assert_refused(c, image, refusal, |c, i| view(c, i, 0).refusal);
    assert_refused(c, image, refusal, |c, i| round_refusal(c, i));
}

#[test]
fn row_2_disabled() {
    let mut c = disabled();
    let mut image = patterned();
    assert_not_ready(&mut c, &mut image, 2);
    assert_refused(&mut c, &mut image, 2, |c, i| initialise(c, i).refusal);
    assert_refused(&mut c, &mut image, 2, |c, i| rma(c, i));
}

#[test]
fn row_3_uninitialised() {
    let mut c = uninitialised_with_all_rights(D);
    assert_not_ready(&mut c, &mut patterned(), 3);
}

#[test]
fn row_4_an_operation_is_in_progress() {
    for op in [
        data(READ, 0, 2),
        data(PROGRAM, 0, 2),
        data(PAGE_ERASE, 0, 0),
        data(BANK_ERASE, 0, 0),
    ] {
        let mut c = started(op);
        let mut image = patterned();
        assert_refused(&mut c, &mut image, 4, |c, _| start(c, op).refusal);
        assert_refused(&mut c, &mut image, 4, |c, i| {
            whole(c, op, i, &mut [0; 2]).refusal
        });
        assert_refused(&mut c, &mut image, 4, |c, i| rma(c, i));
        assert_refused(&mut c, &mut image, 4, |c, _| set_inputs(c, false, false));
        assert_refused(&mut c, &mut image, 4, |c, _| {
            set_region(c, 0, Region::default())
        });
        assert_refused(&mut c, &mut image, 4, |c, _| set_default_rights(c, 1));
        assert_refused(&mut c, &mut image, 4, |c, _| {
            set_info_page(c, 0, 0, 0, InfoSetting::default())
        });
        assert_refused(&mut c, &mut image, 4, |c, _| {
            set_bank_erase_permission(c, 0, false)
        });
    }
}

#[test]
fn row_4_a_queued_word_stops_a_whole_operation_only() {
    let mut c = started(data(READ, 0, 1));
    let mut image = patterned();
    step_to_the_end(&mut c, &mut image);
    assert_eq!(c.read_queue.length, 1);
    for kind in 0..=255 {
        assert_refused(&mut c, &mut image, 4, |c, i| {
            whole(c, data(kind, 0, 1), i, &mut [0]).refusal
        });
    }
    assert_eq!(set_default_rights(&mut c, 1), NONE);
    assert_eq!(start_answer(&c, data(READ, 0, 1)), NONE);
    assert_eq!(rma(&mut c, &mut image), NONE);
}

#[test]
fn row_5_malformed_operations_are_recorded() {
    let mut c = ready();
    for kind in 4..=255 {
        assert_start_recorded(&mut c, data(kind, 8, 1), 5);
    }
    for kind in 0..4 {
        for partition in [2, 3, 255] {
            assert_start_recorded(&mut c, operation(kind, partition, 0, 12, 1), 5);
        }
        for address in [1, 2, 3, 0x101, 0xFFFF_FFFF] {
            assert_start_recorded(&mut c, data(kind, address, 1), 5);
            assert_start_recorded(&mut c, info(kind, 0, address, 1), 5);
        }
    }
    for kind in [READ, PROGRAM] {
        for count in [0, 1_025, u32::MAX] {
            assert_start_recorded(&mut c, data(kind, 16, count), 5);
        }
    }
    for kind in [READ, PROGRAM, PAGE_ERASE] {
        for info_type in [3, 255] {
            assert_start_recorded(&mut c, info(kind, info_type, 20, 1), 5);
        }
    }
}

#[test]
fn row_5_does_not_look_at_unused_fields() {
    let c = ready();
    for kind in [PAGE_ERASE, BANK_ERASE] {
        for count in [0, 1_025, u32::MAX] {
            assert_eq!(start_answer(&c, data(kind, 0, count)), NONE);
            assert_eq!(start_answer(&c, info(kind, 0, 0, count)), NONE);
        }
    }
    for kind in 0..4 {
        assert_eq!(start_answer(&c, operation(kind, DATA, 255, 0, 1)), NONE);
    }
    assert_eq!(start_answer(&c, info(BANK_ERASE, 255, 0, 0)), NONE);
}

#[test]
fn row_6_short_buffer_is_not_recorded() {
    let mut c = ready();
    let mut image = patterned();
    for kind in [READ, PROGRAM] {
        for length in 0..3 {
            let mut buffer = vec![9; length];
            assert_refused(&mut c, &mut image, 6, |c, i| {
                whole(c, data(kind, 0, 3), i, &mut buffer).refusal
            });
            assert_eq!(buffer, vec![9; length]);
        }
        let done = whole(&mut c, data(kind, 0, 3), &mut image, &mut [9; 3]);
        assert_eq!(done.refusal, NONE);
    }
}

#[test]
fn row_6_erases_need_no_buffer() {
    let mut c = ready();
    for kind in [PAGE_ERASE, BANK_ERASE] {
        let done = whole(&mut c, data(kind, 0, 3), &mut patterned(), &mut []);
        assert_eq!(done.refusal, NONE);
    }
}

#[test]
fn row_7_out_of_range_is_recorded() {
    let mut c = ready();
    for kind in 0..4 {
        assert_start_recorded(&mut c, data(kind, 0x8000, 1), 7);
        assert_start_recorded(&mut c, info(kind, 0, 0x8000, 1), 7);
        assert_start_recorded(&mut c, data(kind, 0xFFFF_FFFC, 1), 7);
    }
    assert_start_recorded(&mut c, data(READ, 0x7F00, 65), 7);
    assert_start_recorded(&mut c, data(PROGRAM, 0x7FC0, 17), 7);
    assert_start_recorded(&mut c, info(READ, 2, 0x700, 65), 7);
    assert_start_recorded(&mut c, info(PROGRAM, 1, 0x3FC, 2), 7);
    assert_start_recorded(&mut c, info(PAGE_ERASE, 0, 0x2800, 0), 7);
}

#[test]
fn row_8_window_is_recorded() {
    let mut c = ready();
    assert_start_recorded(&mut c, data(PROGRAM, 4, 16), 8);
    assert_start_recorded(&mut c, data(PROGRAM, 0x3C, 2), 8);
    assert_start_recorded(&mut c, data(PROGRAM, 0, 1_024), 8);
    assert_start_recorded(&mut c, info(PROGRAM, 0, 0x7C, 2), 8);
}

#[test]
fn row_8_is_for_programs_only() {
    let c = ready();
    assert_eq!(start_answer(&c, data(READ, 0x3C, 2)), NONE);
    assert_eq!(start_answer(&c, data(PAGE_ERASE, 0x3C, 2)), NONE);
}

#[test]
fn row_9_denied_is_recorded() {
    let mut c = ready_without_rights();
    for kind in [PROGRAM, PAGE_ERASE, BANK_ERASE] {
        assert_start_recorded(&mut c, data(kind, 0x4004, 1), 9);
        assert_start_recorded(&mut c, info(kind, 0, 0x4008, 1), 9);
    }
}

/// Recorded at its first denied word, and in progress with the words before it.
fn assert_starts_cut(c: &Controller, operation: Operation, readable: u32, address: u32) {
    let mut started = c.clone();
    assert_eq!(start(&mut started, operation).refusal, 9);
    let expected = Controller {
        recorded: kinds(&[9]),
        last_address: address,
        in_progress: InProgress::Read {
            operation,
            moved: 0,
            readable,
        },
        ..c.clone()
    };
    assert_eq!(started, expected);
}

#[test]
fn row_9_a_denied_read_is_recorded_and_starts_cut() {
    let none = ready_without_rights();
    for op in [data(READ, 0x4004, 3), info(READ, 1, 0x4004, 3)] {
        assert_starts_cut(&none, op, 0, 0x4004);
    }
    let mut c = ready();
    assert_eq!(set_region(&mut c, 0, region(17, 1, 6)), NONE);
    assert_eq!(set_info_page(&mut c, 1, 2, 1, InfoSetting::default()), NONE);
    for op in [data(READ, 0x43F4, 300), info(READ, 2, 0x43F4, 259)] {
        assert_starts_cut(&c, op, 3, 0x4400);
    }
    assert_starts_cut(&c, data(READ, 0x4410, 300), 0, 0x4410);
}

#[test]
fn rows_5_to_9_add_up_and_the_last_address_stays() {
    let mut c = ready();
    assert_start_recorded(&mut c, data(9, 0x10, 1), 5);
    assert_start_recorded(&mut c, data(READ, 0x8000, 1), 7);
    assert_start_recorded(&mut c, data(PROGRAM, 0x3C, 2), 8);
    assert_eq!(set_default_rights(&mut c, RIGHT_READ), NONE);
    assert_start_recorded(&mut c, data(PAGE_ERASE, 0x20, 2), 9);
    assert_start_recorded(&mut c, data(0, 0x31, 2), 5);
    assert_eq!(start(&mut c, data(READ, 0x40, 1)).refusal, NONE);
    assert_eq!((c.recorded, c.last_address), (kinds(&[5, 7, 8, 9]), 0x31));
}

#[test]
fn row_10_pop_of_an_empty_queue() {
    let mut image = vec![];
    for mut c in [
        uninitialised(D),
        ready(),
        disabled(),
        started(data(READ, 0, 2)),
    ] {
        assert_refused(&mut c, &mut image, 10, |c, _| {
            let given = pop(c);
            assert_eq!(given.word, 0);
            given.refusal
        });
    }
}

#[test]
fn row_11_a_full_queue_is_always_reached_with_n_pushed_so_12_comes_first() {
    let mut c = started(data(PROGRAM, 0, 16));
    for word in 0..16 {
        assert_eq!(push(&mut c, word), NONE);
    }
    assert_eq!(c.program_queue.length, 16);
    assert_refused(&mut c, &mut vec![], 12, |c, _| push(c, 99));
}

#[test]
fn row_12_unexpected() {
    let mut image = patterned();
    let mut c = ready();
    assert_refused(&mut c, &mut image, 12, |c, i| step(c, i).refusal);
    assert_refused(&mut c, &mut image, 12, |c, i| initialise(c, i).refusal);
    assert_refused(&mut c, &mut image, 12, |c, _| push(c, 1));
    for op in [data(READ, 0, 2), data(PAGE_ERASE, 0, 0)] {
        let mut c = started(op);
        assert_refused(&mut c, &mut image, 12, |c, _| push(c, 1));
        assert_refused(&mut c, &mut image, 12, |c, i| initialise(c, i).refusal);
    }
}

#[test]
fn row_13_settings() {
    let all = InfoSetting {
        on: true,
        rights: 7,
    };
    let mut image = vec![];
    for mut c in [uninitialised(D), ready(), disabled()] {
        let mut refused = |call: &dyn Fn(&mut Controller) -> u8| {
            assert_refused(&mut c, &mut image, 13, |c, _| call(c))
        };
        refused(&|c| set_region(c, 8, region(0, 1, 7)));
        refused(&|c| set_region(c, u32::MAX, region(0, 1, 7)));
        refused(&|c| set_region(c, 0, region(0, 1, 8)));
        refused(&|c| set_region(c, 0, region(0, 33, 7)));
        refused(&|c| set_region(c, 0, region(31, 2, 7)));
        refused(&|c| set_region(c, 0, region(u32::MAX, 1, 7)));
        refused(&|c| set_region(c, 0, region(1, u32::MAX, 7)));
        refused(&|c| set_region(c, 0, region(u32::MAX, u32::MAX, 7)));
        refused(&|c| {
            let off = Region {
                on: false,
                ..region(32, 1, 0)
            };
            set_region(c, 0, off)
        });
        refused(&|c| set_default_rights(c, 8));
        refused(&|c| set_default_rights(c, 255));
        refused(&|c| set_info_page(c, 2, 0, 0, all));
        refused(&|c| set_info_page(c, u32::MAX, 0, 0, all));
        refused(&|c| set_info_page(c, 0, 3, 0, all));
        refused(&|c| set_info_page(c, 0, 255, 0, all));
        refused(&|c| set_info_page(c, 0, 0, 10, all));
        refused(&|c| set_info_page(c, 1, 1, 1, all));
        refused(&|c| set_info_page(c, 1, 2, 2, all));
        refused(&|c| set_info_page(c, 1, 2, u32::MAX, all));
        refused(&|c| {
            let over = InfoSetting {
                on: false,
                rights: 8,
            };
            set_info_page(c, 0, 0, 0, over)
        });
        refused(&|c| set_bank_erase_permission(c, 2, true));
        refused(&|c| set_bank_erase_permission(c, u32::MAX, false));
    }
}

#[test]
fn a_refusal_gives_no_word_no_bits_and_no_seeds() {
    let mut c = uninitialised_with_all_rights(D);
    let image = &mut patterned()[1..].to_vec();
    let refusal = INVALID;
    assert_eq!(
        initialise(&mut c, image),
        Initialised {
            refusal,
            seeds_given: false,
            creator_seed: [0; 8],
            owner_seed: [0; 8],
        }
    );
    assert_eq!(
        step(&mut c, image),
        Stepped {
            refusal,
            progress: None,
            bits: 0
        }
    );
    assert_eq!(
        host_read(&c, image, 0),
        HostGiven {
            refusal,
            decider: None,
            word: 0
        }
    );
    let done = whole(&mut c, data(BANK_ERASE, 0, 0), image, &mut []);
    assert_eq!(
        done,
        WholeDone {
            refusal,
            decider: None,
            bits: 0
        }
    );
    let empty = View {
        refusal,
        decider: None,
        start: 0,
        length: 0,
    };
    assert_eq!(view(&c, image, 3), empty);
}
