//! 02, L1 "Fair turns": who is served in a round, and what each bank's lost count does.

use crate::helpers::*;
use crate::random_runs::Rng;
use reference::model::*;

/// The byte addresses with which bank 1 and what is past the end begin.
const BANK_1: u32 = 0x4000;
const END: u32 = 0x8000;

/// A host read gives the word at this image place.
fn word(place: u32) -> Turn<HostGiven> {
    Turn::Served(HostGiven {
        word: mark(place),
        ..HostGiven::default()
    })
}

/// With a number other than 9.
fn host_refused(refusal: u8) -> Turn<HostGiven> {
    Turn::Served(HostGiven {
        refusal,
        ..HostGiven::default()
    })
}

fn host_denied(decider: Decider) -> Turn<HostGiven> {
    Turn::Served(HostGiven {
        refusal: DENIED,
        decider: Some(decider),
        word: 0,
    })
}

fn step_refused(refusal: u8) -> Stepped {
    Stepped {
        refusal,
        ..Stepped::default()
    }
}

/// The operation has started and the lost counts are these.
fn started_with(op: Operation, lost: [u32; 2]) -> Controller {
    Controller {
        lost,
        ..started(op)
    }
}

/// The round tells this and changes nothing but the lost counts.
fn assert_only_counts(
    c: &Controller,
    host: Option<u32>,
    steps: bool,
    told: Rounded,
    lost: [u32; 2],
) {
    let mut after = c.clone();
    let mut image = patterned();
    assert_eq!(round(&mut after, &mut image, host, steps), told);
    assert_eq!(after, Controller { lost, ..c.clone() });
    assert!(image == patterned());
}

/// The host has its turn, the step waits, and nothing but the lost counts changes.
fn assert_host_wins(c: &Controller, address: u32, host: Turn<HostGiven>, lost: [u32; 2]) {
    let step = Turn::Waiting;
    assert_only_counts(c, Some(address), true, Rounded { host, step }, lost);
}

/// The round's step is served as the call `step` would, with these lost counts after it.
fn assert_steps(c: &Controller, host: Option<u32>, told: Turn<HostGiven>, lost: [u32; 2]) {
    let (mut stepped, mut rounded) = (c.clone(), c.clone());
    let (mut image, mut image_rounded) = (patterned(), patterned());
    let step = Turn::Served(step(&mut stepped, &mut image));
    let given = round(&mut rounded, &mut image_rounded, host, true);
    assert_eq!(given, Rounded { host: told, step });
    assert_eq!(rounded, Controller { lost, ..stepped });
    assert!(image == image_rounded);
}

#[test]
fn a_contest_is_the_hosts_and_that_banks_count_rises() {
    for lost in 0..5 {
        let c = started_with(data(PAGE_ERASE, 0x400, 0), [lost, 3]);
        assert_host_wins(&c, 8, word(2), [lost + 1, 3]);
        let c = started_with(data(PAGE_ERASE, BANK_1, 0), [4, lost]);
        assert_host_wins(&c, BANK_1 + 8, word(7_426), [4, lost + 1]);
    }
}

#[test]
fn at_5_the_controller_goes_and_that_banks_count_returns_to_0() {
    let c = started_with(data(PAGE_ERASE, 0x400, 0), [5, 3]);
    assert_steps(&c, Some(8), Turn::Waiting, [0, 3]);
    let c = started_with(data(PAGE_ERASE, BANK_1, 0), [5, 5]);
    assert_steps(&c, Some(BANK_1 + 8), Turn::Waiting, [5, 0]);
}

/// From reset on, whatever the host asks in that bank.
#[test]
fn a_step_is_served_by_its_banks_sixth_round() {
    let mut c = started(data(READ, 0x40, 9));
    let mut image = patterned();
    for word in 0..9 {
        for address in [0, 1, 0x44, 0x3FFC, 2] {
            let told = round(&mut c, &mut image, Some(address), true);
            assert_eq!(told.step, Turn::Waiting);
        }
        assert_eq!((c.lost, c.read_queue.length), ([5, 0], word));
        let told = round(&mut c, &mut image, Some(0), true);
        assert_eq!(told.host, Turn::Waiting);
        assert_eq!((c.lost, c.read_queue.length), ([0, 0], word + 1));
    }
    assert_eq!(c.in_progress, InProgress::Nothing);
}

/// Whatever the operation, the counts that stand there and the host.
#[test]
fn a_step_that_could_move_a_word_waits_five_rounds_at_most() {
    let mut rng = Rng(0xFA17_7095_5EED_0001);
    let mut waits = [0; 6];
    for _ in 0..4_000 {
        let mut c = ready();
        start(&mut c, rng.operation());
        push(&mut c, rng.word());
        c.lost = [rng.below(6), rng.below(6)];
        let mut image = patterned();
        if step(&mut c.clone(), &mut image.clone()).refusal != NONE {
            continue;
        }
        let mut waiting = || round(&mut c, &mut image, Some(rng.host_address()), true).step;
        let rounds = (0..6).find(|_| waiting() != Turn::Waiting);
        waits[rounds.expect("the sixth round serves it")] += 1;
    }
    assert!(waits.iter().all(|count| *count > 0), "{waits:?}");
}

/// Rounds without a contest in between do not make it later.
#[test]
fn lone_turns_do_not_start_the_count_anew() {
    let mut c = started(data(READ, 0x40, 9));
    let mut image = patterned();
    for lost in 1..=5 {
        round(&mut c, &mut image, Some(0), true);
        round(&mut c, &mut image, Some(0), false);
        round(&mut c, &mut image, Some(BANK_1), true);
        assert_eq!(c.lost, [lost, 0]);
    }
    assert_eq!(round(&mut c, &mut image, Some(0), true).host, Turn::Waiting);
}

#[test]
fn a_lone_turn_leaves_the_count_at_every_number() {
    for lost in 0..=5 {
        let c = started_with(data(PAGE_ERASE, 0x400, 0), [lost, lost]);
        assert_steps(&c, None, Turn::Unasked, [lost, lost]);
        let told = Rounded {
            host: word(2),
            step: Turn::Unasked,
        };
        assert_only_counts(&c, Some(8), false, told, [lost, lost]);
    }
}

#[test]
fn in_different_banks_both_are_served_and_the_counts_stay() {
    for lost in [[0, 0], [5, 5]] {
        let c = started_with(data(PAGE_ERASE, 0, 0), lost);
        assert_steps(&c, Some(BANK_1), word(7_424), lost);
        let c = started_with(data(PAGE_ERASE, BANK_1, 0), lost);
        assert_steps(&c, Some(0x3FFC), word(4_095), lost);
    }
}

/// A host address counts as bank 1 from 0x4000 on, also past 2D pages and unaligned.
#[test]
fn an_address_past_the_end_is_of_bank_1() {
    let c = started_with(data(PAGE_ERASE, BANK_1, 0), [2, 2]);
    for (address, refusal) in [
        (0x4001, MALFORMED),
        (0x7FFE, MALFORMED),
        (END, OUT_OF_RANGE),
        (END + 0x4000, OUT_OF_RANGE),
        (0xFFFF_FFFC, OUT_OF_RANGE),
        (u32::MAX, MALFORMED),
    ] {
        assert_host_wins(&c, address, host_refused(refusal), [2, 3]);
        let c = started_with(data(PAGE_ERASE, 0, 0), [5, 2]);
        assert_steps(&c, Some(address), host_refused(refusal), [5, 2]);
    }
    assert_steps(&c, Some(0x3FFF), host_refused(MALFORMED), [2, 2]);
}

/// The erase may run although page 2 may not be read.
fn with_denied_page(lost: u32) -> Controller {
    let mut c = ready();
    assert_eq!(set_region(&mut c, 0, region(2, 1, 6)), NONE);
    assert_eq!(start(&mut c, data(PAGE_ERASE, 0x800, 0)).refusal, NONE);
    c.lost = [lost, 0];
    c
}

#[test]
fn a_refused_host_read_uses_its_turn() {
    for (address, told) in [
        (0x802, host_refused(MALFORMED)),
        (0x804, host_denied(Decider::Region(0))),
    ] {
        assert_host_wins(&with_denied_page(1), address, told, [2, 0]);
    }
    let c = started_with(data(PAGE_ERASE, BANK_1, 0), [0, 4]);
    assert_host_wins(&c, END, host_refused(OUT_OF_RANGE), [0, 5]);
}

#[test]
fn a_host_read_that_would_be_refused_waits_too() {
    for address in [0x802, 0x804] {
        assert_steps(&with_denied_page(5), Some(address), Turn::Waiting, [0, 0]);
    }
    let c = started_with(data(PAGE_ERASE, BANK_1, 0), [1, 5]);
    assert_steps(&c, Some(END), Turn::Waiting, [1, 0]);
}

#[test]
fn a_step_that_would_wait_does_not_compete() {
    let mut full = started_with(data(READ, 0, 20), [5, 1]);
    full.read_queue.length = 16;
    let empty = started_with(data(PROGRAM, 0, 4), [5, 1]);
    for c in [full, empty] {
        let told = Rounded {
            host: word(1),
            step: Turn::Served(WAITING),
        };
        assert_only_counts(&c, Some(4), true, told, [5, 1]);
    }
}

#[test]
fn a_step_that_would_be_refused_does_not_compete() {
    let c = Controller {
        lost: [5, 5],
        ..ready()
    };
    let told = Rounded {
        host: word(1),
        step: Turn::Served(step_refused(UNEXPECTED)),
    };
    assert_only_counts(&c, Some(4), true, told, [5, 5]);
}

/// A read with room and a program with a word compete, also in the last place.
#[test]
fn a_step_that_would_move_a_word_competes() {
    let mut read = started(data(READ, 0, 20));
    read.read_queue.length = 15;
    let mut program = started(data(PROGRAM, 0, 4));
    assert_eq!(push(&mut program, 0), NONE);
    for c in [read, program] {
        assert_host_wins(&c, 4, word(1), [1, 0]);
    }
}

/// The bank is that of the next word, not of the operation's first.
#[test]
fn a_read_over_the_border_changes_its_bank() {
    let mut c = started(data(READ, 0x3FFC, 2));
    let mut image = patterned();
    let told = round(&mut c, &mut image, Some(BANK_1), true);
    assert_eq!(told.step, Turn::Served(MOVED));
    assert_host_wins(&c, BANK_1, word(7_424), [0, 1]);
    let told = round(&mut c, &mut image, Some(0), true);
    assert_eq!(told.step, Turn::Served(FINISHED));
}

#[test]
fn an_information_operation_competes_in_its_bank() {
    for op in [info(PAGE_ERASE, 2, 0x400, 0), info(READ, 0, 0x27FC, 1)] {
        let c = started(op);
        assert_host_wins(&c, 0x3FFC, word(4_095), [1, 0]);
        assert_steps(&c, Some(BANK_1), word(7_424), [0, 0]);
    }
    let c = started(info(PAGE_ERASE, 1, BANK_1, 0));
    assert_host_wins(&c, BANK_1, word(7_424), [0, 1]);
}

/// The ones that a denied read gives lie where their addresses say.
#[test]
fn a_denied_read_competes_in_the_bank_of_its_address() {
    let mut c = ready();
    assert_eq!(set_region(&mut c, 0, region(15, 1, 6)), NONE);
    assert_eq!(start(&mut c, data(READ, 0x3FFC, 2)).refusal, DENIED);
    assert_host_wins(&c, 0, word(0), [1, 0]);
    assert_eq!(step(&mut c, &mut patterned()), MOVED);
    assert_host_wins(&c, BANK_1, word(7_424), [0, 1]);
}

/// A stored word in bank 0, then ones in bank 1, whose first page is denied.
#[test]
fn a_cut_read_competes_for_stored_words_and_for_ones() {
    let mut c = ready();
    assert_eq!(set_region(&mut c, 0, region(16, 1, 6)), NONE);
    assert_eq!(start(&mut c, data(READ, 0x3FFC, 2)).refusal, DENIED);
    assert_host_wins(&c, 0, word(0), [1, 0]);
    assert_steps(&c, Some(BANK_1 + 0x400), word(7_680), [0, 0]);
    assert_eq!(step(&mut c, &mut patterned()), MOVED);
    assert_host_wins(&c, BANK_1 + 0x400, word(7_680), [0, 1]);
    assert_steps(&c, Some(0), word(0), [0, 0]);
}

/// Also where its words are those of the information pages behind the data pages.
#[test]
fn a_bank_erase_competes_in_its_bank() {
    for moved in [0, 4_095, 4_096, 7_423] {
        for (bank, address) in [(0, 0x3FFC), (1, BANK_1)] {
            let operation = info(BANK_ERASE, 0, bank * BANK_1, 0);
            let mut c = started(operation);
            c.in_progress = InProgress::Erase { operation, moved };
            let mut image = patterned();
            let told = round(&mut c, &mut image, Some(address), true);
            assert_eq!(told.step, Turn::Waiting);
            assert_eq!(c.lost, [1 - bank, bank]);
        }
    }
}

#[test]
fn nobody_asks_and_nothing_changes() {
    let told = Rounded {
        host: Turn::Unasked,
        step: Turn::Unasked,
    };
    for lost in [[0, 0], [5, 2], [6, 2]] {
        let c = started_with(data(PAGE_ERASE, 0, 0), lost);
        assert_only_counts(&c, None, false, told, lost);
    }
}

#[test]
fn each_side_that_asks_is_answered_1_in_an_invalid_state() {
    let lost = [6, 2];
    let c = started_with(data(PAGE_ERASE, 0, 0), lost);
    let host = host_refused(INVALID);
    let step = Turn::Served(step_refused(INVALID));
    assert_only_counts(&c, Some(1), true, Rounded { host, step }, lost);
    let host_alone = Rounded {
        host,
        step: Turn::Unasked,
    };
    assert_only_counts(&c, Some(1), false, host_alone, lost);
    let step_alone = Rounded {
        host: Turn::Unasked,
        step,
    };
    assert_only_counts(&c, None, true, step_alone, lost);
}

/// In any state, valid or not.
#[test]
fn whoever_is_served_is_answered_as_by_its_own_call() {
    let mut rng = Rng(0x0A5C_ED00_5EED_0001);
    for _ in 0..4_000 {
        let c = rng.controller();
        let address = rng.host_address();
        let told = round(&mut c.clone(), &mut patterned(), Some(address), true);
        if told.host != Turn::Waiting {
            let alone = host_read(&c, &patterned(), address);
            assert_eq!(told.host, Turn::Served(alone));
        }
        if told.step != Turn::Waiting {
            let alone = step(&mut c.clone(), &mut patterned());
            assert_eq!(told.step, Turn::Served(alone));
        }
    }
}

/// Reset alone sets them, to 0.
#[test]
fn every_other_call_leaves_the_counts() {
    let lost = [5, 2];
    let mut c = Controller {
        lost,
        ..uninitialised_with_all_rights(D)
    };
    let mut image = patterned();
    let read = data(READ, 0, 1);
    let program = data(PROGRAM, 0, 1);
    type Call<'a> = &'a dyn Fn(&mut Controller, &mut [u32]) -> u8;
    let calls: [Call; 16] = [
        &|c, _| set_inputs(c, true, false),
        &|c, _| set_region(c, 0, Region::default()),
        &|c, _| set_default_rights(c, 7),
        &|c, _| set_info_page(c, 0, 1, 0, InfoSetting::default()),
        &|c, _| set_bank_erase_permission(c, 0, true),
        &|c, i| initialise(c, i).refusal,
        &|c, _| start(c, read).refusal,
        &|c, i| step(c, i).refusal,
        &|c, _| pop(c).refusal,
        &|c, i| host_read(c, i, 0).refusal,
        &|c, i| view(c, i, 0).refusal,
        &|c, i| whole(c, data(BANK_ERASE, 0, 0), i, &mut []).refusal,
        &|c, _| start(c, program).refusal,
        &|c, _| push(c, 0),
        &|c, i| step(c, i).refusal,
        &|c, i| rma(c, i),
    ];
    for (place, call) in calls.iter().enumerate() {
        assert_eq!(call(&mut c, &mut image), NONE, "call {place}");
        assert_eq!(c.lost, lost, "call {place}");
        assert_eq!(clear(&mut c), NONE);
    }
    assert_eq!(c.lost, lost);
    assert_eq!(reset(&mut c, D), NONE);
    assert_eq!(c.lost, [0, 0]);
}
