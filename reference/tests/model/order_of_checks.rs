//! Several refusals apply at once: the first in the call's order answers.

use crate::helpers::*;
use reference::model::*;

/// Any state, made invalid.
fn broken(mut c: Controller) -> Controller {
    c.default_rights = 8;
    c
}

fn short_image() -> Vec<u32> {
    vec![0; 14_847]
}

/// Malformed, out of range, over a window and denied, all at once.
const WORST: Operation = Operation {
    kind: PROGRAM,
    partition: DATA,
    info_type: 0,
    address: 0x8002,
    count: 17,
};

#[test]
fn start_checks_1_2_3_4_5_7_8_9() {
    assert_eq!(start(&mut broken(disabled()), WORST).refusal, 1);
    assert_eq!(start(&mut broken(uninitialised(D)), WORST).refusal, 1);
    assert_eq!(
        start(&mut broken(started(data(READ, 0, 1))), WORST).refusal,
        1
    );
    assert_eq!(start(&mut disabled(), WORST).refusal, 2);
    assert_eq!(start(&mut uninitialised(D), WORST).refusal, 3);
    assert_eq!(start(&mut started(data(READ, 0, 1)), WORST).refusal, 4);
    let none = ready_without_rights();
    assert_eq!(start_answer(&none, WORST), 5);
    assert_eq!(start_answer(&none, data(PROGRAM, 0x8000, 17)), 7);
    assert_eq!(start_answer(&none, data(PROGRAM, 0x7FFC, 2)), 7);
    assert_eq!(start_answer(&none, info(PROGRAM, 1, 0x3FC, 2)), 7);
    assert_eq!(start_answer(&none, data(PROGRAM, 0x3C, 2)), 8);
    assert_eq!(start_answer(&none, data(PROGRAM, 0x3C, 1)), 9);
    assert_eq!(start_answer(&none, data(READ, 0x7FFC, 2)), 7);
    assert_eq!(start_answer(&none, data(BANK_ERASE, 0x8000, 0)), 7);
}

#[test]
fn whole_checks_1_2_3_4_5_6_7_8_9() {
    let answer = |mut c: Controller, op, mut image: Vec<u32>, mut buffer: Vec<u32>| {
        whole(&mut c, op, &mut image, &mut buffer).refusal
    };
    let busy = || started(data(READ, 0, 1));
    let mut queued = busy();
    step(&mut queued, &mut erased());
    let none = ready_without_rights;
    assert_eq!(answer(broken(disabled()), WORST, erased(), vec![]), 1);
    assert_eq!(answer(broken(busy()), WORST, erased(), vec![]), 1);
    for c in [
        disabled(),
        uninitialised(D),
        busy(),
        queued.clone(),
        ready(),
    ] {
        assert_eq!(answer(c, WORST, short_image(), vec![]), 1);
    }
    assert_eq!(answer(disabled(), WORST, erased(), vec![]), 2);
    assert_eq!(answer(uninitialised(D), WORST, erased(), vec![]), 3);
    assert_eq!(answer(busy(), WORST, erased(), vec![]), 4);
    assert_eq!(answer(queued, WORST, erased(), vec![]), 4);
    assert_eq!(answer(none(), WORST, erased(), vec![]), 5);
    let outside = data(PROGRAM, 0x8000, 17);
    assert_eq!(answer(none(), outside, erased(), vec![]), 6);
    assert_eq!(answer(none(), outside, erased(), vec![0; 16]), 6);
    assert_eq!(answer(none(), outside, erased(), vec![0; 17]), 7);
    let window = data(PROGRAM, 0x40, 17);
    assert_eq!(answer(none(), window, erased(), vec![0; 16]), 6);
    assert_eq!(answer(none(), window, erased(), vec![0; 17]), 8);
    let denied = data(PROGRAM, 0x40, 2);
    assert_eq!(answer(none(), denied, erased(), vec![0; 1]), 6);
    assert_eq!(answer(none(), denied, erased(), vec![0; 2]), 9);
    let read = data(READ, 0x40, 2);
    assert_eq!(answer(none(), read, erased(), vec![0; 1]), 6);
    assert_eq!(answer(none(), read, erased(), vec![0; 2]), 9);
    let outside_erase = data(PAGE_ERASE, 0x8000, 2);
    assert_eq!(answer(none(), outside_erase, erased(), vec![]), 7);
}

#[test]
fn whole_records_5_before_6_and_does_not_record_6() {
    let mut c = ready();
    let done = whole(&mut c, data(READ, 6, 5), &mut erased(), &mut []);
    assert_eq!(done.refusal, 5);
    assert_eq!((c.recorded, c.last_address), (kinds(&[5]), 6));
    let done = whole(&mut c, data(READ, 0x8000, 5), &mut erased(), &mut []);
    assert_eq!(done.refusal, 6);
    assert_eq!((c.recorded, c.last_address), (kinds(&[5]), 6));
}

#[test]
fn settings_and_inputs_check_1_4_13() {
    let bad = region(99, 99, 99);
    let bad_info = InfoSetting {
        on: true,
        rights: 99,
    };
    for (mut c, refusal) in [
        (broken(started(data(READ, 0, 1))), 1),
        (broken(disabled()), 1),
        (started(data(READ, 0, 1)), 4),
        (ready(), 13),
        (uninitialised(D), 13),
        (disabled(), 13),
    ] {
        assert_eq!(set_region(&mut c, 9, bad), refusal);
        assert_eq!(set_default_rights(&mut c, 99), refusal);
        assert_eq!(set_info_page(&mut c, 9, 9, 99, bad_info), refusal);
        assert_eq!(set_bank_erase_permission(&mut c, 9, true), refusal);
        if refusal != 13 {
            assert_eq!(set_inputs(&mut c, true, true), refusal);
        }
    }
}

#[test]
fn initialise_checks_1_2_12() {
    for c in [disabled(), ready(), uninitialised(D)] {
        let mut image_wrong = c.clone();
        assert_eq!(initialise(&mut image_wrong, &short_image()).refusal, 1);
        assert_eq!(initialise(&mut broken(c), &erased()).refusal, 1);
    }
    assert_eq!(initialise(&mut disabled(), &erased()).refusal, 2);
    assert_eq!(initialise(&mut ready(), &erased()).refusal, 12);
    assert_eq!(initialise(&mut uninitialised(D), &erased()).refusal, 0);
}

#[test]
fn rma_checks_1_2_4() {
    let busy = || started(data(READ, 0, 1));
    for c in [disabled(), busy(), ready(), uninitialised(D)] {
        assert_eq!(rma(&mut c.clone(), &mut short_image()), 1);
        assert_eq!(rma(&mut broken(c), &mut erased()), 1);
    }
    assert_eq!(rma(&mut disabled(), &mut erased()), 2);
    assert_eq!(rma(&mut busy(), &mut erased()), 4);
    assert_eq!(rma(&mut ready(), &mut erased()), 0);
    assert_eq!(rma(&mut uninitialised(D), &mut erased()), 0);
}

#[test]
fn step_checks_1_2_3_12() {
    for c in [
        disabled(),
        uninitialised(D),
        ready(),
        started(data(READ, 0, 1)),
    ] {
        assert_eq!(step(&mut c.clone(), &mut short_image()).refusal, 1);
        assert_eq!(step(&mut broken(c), &mut erased()).refusal, 1);
    }
    assert_eq!(step(&mut disabled(), &mut erased()).refusal, 2);
    assert_eq!(step(&mut uninitialised(D), &mut erased()).refusal, 3);
    assert_eq!(step(&mut ready(), &mut erased()).refusal, 12);
}

#[test]
fn push_checks_1_2_3_12() {
    for c in [
        disabled(),
        uninitialised(D),
        ready(),
        started(data(PROGRAM, 0, 1)),
    ] {
        assert_eq!(push(&mut broken(c), 0), 1);
    }
    assert_eq!(push(&mut disabled(), 0), 2);
    assert_eq!(push(&mut uninitialised(D), 0), 3);
    assert_eq!(push(&mut ready(), 0), 12);
    assert_eq!(push(&mut started(data(PROGRAM, 0, 1)), 0), 0);
}

#[test]
fn pop_checks_1_10() {
    for c in [disabled(), uninitialised(D), ready()] {
        assert_eq!(pop(&mut broken(c.clone())).refusal, 1);
        assert_eq!(pop(&mut c.clone()).refusal, 10);
    }
}

#[test]
fn host_read_checks_1_2_3_5_7_9() {
    let at = |c: Controller, address| host_read(&c, &erased(), address).refusal;
    for c in [disabled(), uninitialised(D), ready_without_rights()] {
        assert_eq!(host_read(&c, &short_image(), 0x8001).refusal, 1);
        assert_eq!(at(broken(c), 0x8001), 1);
    }
    assert_eq!(at(disabled(), 0x8001), 2);
    assert_eq!(at(uninitialised(D), 0x8001), 3);
    assert_eq!(at(ready_without_rights(), 0x8001), 5);
    assert_eq!(at(ready_without_rights(), 0x8000), 7);
    assert_eq!(at(ready_without_rights(), 0x7FFC), 9);
}

#[test]
fn view_checks_1_2_3_7_9() {
    let of = |c: Controller, page| view(&c, &erased(), page).refusal;
    for c in [disabled(), uninitialised(D), ready_without_rights()] {
        assert_eq!(view(&c, &short_image(), 32).refusal, 1);
        assert_eq!(of(broken(c), 32), 1);
    }
    assert_eq!(of(disabled(), 32), 2);
    assert_eq!(of(uninitialised(D), 32), 3);
    assert_eq!(of(ready_without_rights(), 32), 7);
    assert_eq!(of(ready_without_rights(), u32::MAX), 7);
    assert_eq!(of(ready_without_rights(), 31), 9);
}

#[test]
fn clear_checks_1_only() {
    for c in [
        disabled(),
        uninitialised(D),
        ready(),
        started(data(READ, 0, 1)),
    ] {
        assert_eq!(clear(&mut broken(c.clone())), 1);
        assert_eq!(clear(&mut c.clone()), 0);
    }
}
