//! Rounds: every argument and every field of the result, and the lost counts in
//! both directions.

use crate::helpers::*;
use reference::interface::calls;
use reference::interface::flat::{
    Controller, Rounded, MOVEMENT_MOVED, MOVEMENT_NONE, MOVEMENT_STALLED, NO_DECIDER, PAGE_ERASE,
    TURN_SERVED, TURN_UNASKED, TURN_WAITING,
};

/// Of each bank, the byte address of a word and what stands there.
const HOST: [(u32, u32); 2] = [(0x0804, 0x201), (0x4804, 7_424 + 0x201)];

/// A page erase in a bank.
fn erasing(bank: usize) -> Controller {
    let page = data(PAGE_ERASE, bank as u32 * D * 1024, 0);
    with_progress(ready(), page, 0xFC)
}

/// Of each bank, the zeros of the word that is erased next.
const BITS: [u32; 2] = [26, 22];

/// The lost counts, as fields.
const LOST: [&str; 2] = ["lost_turns[0]", "lost_turns[1]"];

const NOBODY: Rounded = Rounded {
    host_turn: TURN_UNASKED,
    host_answer: 0,
    host_decider: NO_DECIDER,
    word: 0,
    step_turn: TURN_UNASKED,
    step_answer: 0,
    movement: MOVEMENT_NONE,
    bits: 0,
};

/// What a host that is served is told.
fn host_served(answer: u32, word: u32) -> Rounded {
    Rounded {
        host_turn: TURN_SERVED,
        host_answer: answer,
        word,
        ..NOBODY
    }
}

/// What a step of the erase is told, beside what the host is.
fn step_moved(bank: usize, host: Rounded) -> Rounded {
    Rounded {
        step_turn: TURN_SERVED,
        movement: MOVEMENT_MOVED,
        bits: BITS[bank],
        ..host
    }
}

/// Told and left by a round with a host read and a step.
fn contest(c: Controller, address: u32) -> (Rounded, Controller) {
    left(c, |c| calls::round(c, &mut image(), 1, address, 1))
}

#[test]
fn each_lost_count_rises_alone_and_is_told_as_waiting() {
    for bank in 0..2 {
        let (address, word) = HOST[bank];
        for lost in 0..5 {
            let c = with(&erasing(bank), LOST[bank], lost);
            let (told, after) = contest(c, address);
            let waits = Rounded {
                step_turn: TURN_WAITING,
                movement: MOVEMENT_STALLED,
                ..host_served(0, word)
            };
            assert_eq!(told, waits);
            assert_changed(&after, &c, &[(LOST[bank], lost + 1)]);
        }
    }
}

#[test]
fn each_lost_count_of_5_alone_lets_the_controller_go() {
    for bank in 0..2 {
        let c = with(&erasing(bank), LOST[bank], 5);
        let (told, after) = contest(c, HOST[bank].0);
        let host_waits = Rounded {
            host_turn: TURN_WAITING,
            ..NOBODY
        };
        assert_eq!(told, step_moved(bank, host_waits));
        assert_changed(&after, &c, &[("progress.moved", 0xFD), (LOST[bank], 0)]);
    }
}

#[test]
fn in_different_banks_each_field_is_told() {
    for bank in 0..2 {
        let (address, word) = HOST[1 - bank];
        let c = with(&erasing(bank), LOST[bank], 5);
        let (told, after) = contest(c, address);
        assert_eq!(told, step_moved(bank, host_served(0, word)));
        assert_changed(&after, &c, &[("progress.moved", 0xFD)]);
    }
}

#[test]
fn each_refusal_lands_on_its_own_side() {
    let (told, after) = contest(ready(), HOST[0].0);
    let unexpected = Rounded {
        step_turn: TURN_SERVED,
        step_answer: 12,
        ..host_served(0, HOST[0].1)
    };
    assert_eq!(told, unexpected);
    assert_changed(&after, &ready(), &[]);
    for (address, answer) in [(0x4001, 5), (0x8000, 7), (u32::MAX - 3, 7)] {
        let (told, _) = contest(erasing(0), address);
        assert_eq!(told, step_moved(0, host_served(answer, 0)));
    }
}

/// Each region and the default rights; a host that waits, or asks nothing, is told of nobody.
#[test]
fn each_decider_of_a_host_read_is_told() {
    for decider in 0..=8 {
        let mut c = with(
            &erasing(0),
            "default_rights",
            if decider == 8 { 6 } else { 7 },
        );
        if let Some(region) = c.regions.get_mut(decider as usize) {
            region.page_count = 2 * D;
            region.on = 1;
            region.rights = 6;
        }
        let denied = Rounded {
            host_decider: decider,
            ..host_served(9, 0)
        };
        let (address, other_bank) = (HOST[0].0, HOST[1].0);
        let alone = calls::round(&mut c.clone(), &mut image(), 1, address, 0);
        assert_eq!(alone, denied);
        let (contested, _) = contest(c, address);
        let step_waits = Rounded {
            step_turn: TURN_WAITING,
            movement: MOVEMENT_STALLED,
            ..denied
        };
        assert_eq!(contested, step_waits);
        let (both, _) = contest(c, other_bank);
        assert_eq!(both, step_moved(0, denied));
        let (host_waits, _) = contest(with(&c, LOST[0], 5), address);
        let waiting = Rounded {
            host_turn: TURN_WAITING,
            ..NOBODY
        };
        assert_eq!(host_waits, step_moved(0, waiting));
        let step = calls::round(&mut c.clone(), &mut image(), 0, address, 1);
        assert_eq!(step, step_moved(0, NOBODY));
    }
}

/// A flag is off at 0 and on otherwise; the address of a host that asks nothing is not looked at.
#[test]
fn each_flag_asks_at_any_other_number_than_0() {
    let c = erasing(0);
    let (address, word) = HOST[1];
    for on in [1, 2, 255, 256, 1 << 31, u32::MAX] {
        let both = calls::round(&mut c.clone(), &mut image(), on, address, on);
        assert_eq!(both, step_moved(0, host_served(0, word)));
        let host = calls::round(&mut c.clone(), &mut image(), on, address, 0);
        assert_eq!(host, host_served(0, word));
        for unused in [0, 1, address, u32::MAX] {
            let step = calls::round(&mut c.clone(), &mut image(), 0, unused, on);
            assert_eq!(step, step_moved(0, NOBODY));
            let (nobody, after) = left(c, |c| calls::round(c, &mut image(), 0, unused, 0));
            assert_eq!(nobody, NOBODY);
            assert_changed(&after, &c, &[]);
        }
    }
}

/// Lost counts that stand there stay, but for a reset.
#[test]
fn each_lost_count_stays_in_other_calls_and_is_0_after_reset() {
    for field in LOST {
        let c = with(&erasing(0), field, 5);
        let (_, after) = left(c, |c| calls::step(c, &mut image()));
        assert_changed(&after, &c, &[("progress.moved", 0xFD)]);
        let (_, after) = left(c, |c| calls::reset(c, D));
        assert_changed(&after, &uninitialised(), &[]);
        let mut idle = with(&ready(), field, 5);
        assert_eq!(calls::rma(&mut idle, &mut image()), 0);
        assert_changed(&idle, &with(&ready(), field, 5), &[("phase", 2)]);
    }
}
