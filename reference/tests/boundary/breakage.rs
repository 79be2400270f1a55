//! Each field's breakage alone turns a call that is accepted into refusal 1.

use crate::helpers::*;
use reference::interface::flat::{Controller, PROGRAM, READ};
use reference::interface::{calls, fields};

fn programming() -> Controller {
    with_progress(ready(), info(PROGRAM, 2, 0x0440, 16), 3)
}

fn reading() -> Controller {
    with_progress(ready(), data(READ, 0x0440, 16), 3)
}

/// A valid state and a value of the field that breaks it; none for a queue's words.
fn breaking(field: &str) -> Option<(Controller, u32)> {
    let last = field.rsplit('.').next().unwrap_or(field);
    let last = last.split('[').next().unwrap_or(last);
    let case = match last {
        "data_pages" => (ready(), 9),
        "phase" => (ready(), 3),
        "provision_enabled" | "seeds_locked" | "on" | "bank_erase" => (ready(), 2),
        "default_rights" | "rights" => (ready(), 8),
        "first_page" | "page_count" => (ready(), 2 * D + 1),
        "address" => (programming(), 0x0441),
        "count" => (programming(), 17),
        "kind" => (programming(), 4),
        "partition" => (programming(), 2),
        "info_type" => (programming(), 3),
        "moved" => (programming(), 16),
        "readable" => (reading(), 15),
        "running" => (programming(), 2),
        "length" => (programming(), 17),
        "recorded" => (ready(), 1 << 6),
        "last_address" => (ready(), 4),
        "lost_turns" => (ready(), 6),
        "words" => return None,
        _ => panic!("no breakage for {field}"),
    };
    Some(case)
}

/// The answer of the call that checks the state and nothing else.
fn cleared(mut c: Controller) -> u32 {
    calls::clear_errors(&mut c)
}

#[test]
fn each_field_alone_can_break_the_state() {
    for field in fields::all() {
        let Some((valid, value)) = breaking(&field.name) else {
            continue;
        };
        let broken = with(&valid, &field.name, value);
        assert_eq!(cleared(valid), 0, "{}", field.name);
        let (answer, after) = left(broken, calls::clear_errors);
        assert_eq!(answer, 1, "{}", field.name);
        assert_changed(&after, &broken, &[]);
    }
}

/// Of the record, exactly bits 5, 7, 8 and 9 are kinds.
#[test]
fn each_bit_of_the_record_is_a_kind_or_breaks_the_state() {
    for bit in 0..32 {
        let answer = cleared(with(&ready(), "recorded", 1 << bit));
        let is_kind = [5, 7, 8, 9].contains(&bit);
        assert_eq!(answer == 0, is_kind, "bit {bit}");
    }
}

/// Whether the field is 0 or 1; an operation in progress has one more.
fn is_flag(name: &str) -> bool {
    name.ends_with(".on")
        || name.starts_with("bank_erase")
        || ["provision_enabled", "seeds_locked"].contains(&name)
}

/// Every byte, and numbers over 255, some with the low bits of a small one.
fn values() -> impl Iterator<Item = u32> {
    let large = [1 << 16, 1 << 24, (1 << 24) + 1, 1 << 31, (1 << 31) + 1];
    (0..520).chain(large).chain([u32::MAX - 1, u32::MAX])
}

/// A flag is 0 or 1; every other number encodes nothing.
#[test]
fn every_other_number_in_a_flag_breaks_the_state() {
    for field in fields::all().iter().filter(|field| is_flag(&field.name)) {
        for value in values() {
            let answer = cleared(with(&ready(), &field.name, value));
            assert_eq!(answer == 0, value <= 1, "{} = {value}", field.name);
        }
    }
}

#[test]
fn every_other_number_in_rights_breaks_the_state() {
    for field in fields::all() {
        if !field.name.ends_with("rights") {
            continue;
        }
        for value in values() {
            let answer = cleared(with(&ready(), &field.name, value));
            assert_eq!(answer == 0, value <= 7, "{} = {value}", field.name);
        }
    }
}

#[test]
fn every_other_number_in_phase_and_progress_breaks_the_state() {
    for value in values() {
        let answer = |field| cleared(with(&programming(), field, value));
        let phase = cleared(with(&ready(), "phase", value));
        assert_eq!(phase == 0, value <= 2, "phase {value}");
        let running = answer("progress.running");
        assert_eq!(running == 0, value <= 1, "running {value}");
        let kind = answer("progress.operation.kind");
        assert_eq!(kind == 0, (1..=3).contains(&value), "kind {value}");
        let partition = answer("progress.operation.partition");
        assert_eq!(partition == 0, value <= 1, "partition {value}");
        let info_type = answer("progress.operation.info_type");
        assert_eq!(info_type == 0, value == 0 || value == 2, "type {value}");
    }
}

/// An allowed read, one denied at its first word, and one denied at its third.
#[test]
fn every_other_number_of_readable_words_breaks_the_state() {
    let allowed = reading();
    let denied = with(&allowed, "default_rights", 6);
    let cut = with_progress(without_reading(1), data(READ, 0x03F8, 16), 3);
    for (c, readable) in [(allowed, 16), (denied, 0), (cut, 2)] {
        for value in values() {
            let answer = cleared(with(&c, "progress.readable", value));
            assert_eq!(answer == 0, value == readable, "readable {value}");
        }
    }
}

/// They are plain numbers: 6 breaks the state as 256 does.
#[test]
fn every_lost_count_over_5_breaks_the_state() {
    for field in ["lost_turns[0]", "lost_turns[1]"] {
        for value in values() {
            let answer = cleared(with(&programming(), field, value));
            assert_eq!(answer == 0, value <= 5, "{field} = {value}");
        }
    }
}

/// No rule looks at the type of a data operation, but it is a byte.
#[test]
fn an_unused_type_in_progress_is_a_byte() {
    let reading = reading();
    for value in values() {
        let answer = cleared(with(&reading, "progress.operation.info_type", value));
        assert_eq!(answer == 0, value <= 255, "type {value}");
    }
}
