//! Between the numbers and the second program's state and arguments.

use crate::helpers::*;
use reference::interface::flat::{BANK_ERASE, PAGE_ERASE, PROGRAM, READ};
use reference::interface::{asked_operation, fields, from_reference, to_reference};

#[test]
fn a_state_goes_there_and_back() {
    for base in [uninitialised(), ready_without_rights(), ready()] {
        for (place, field) in fields::all().iter().enumerate() {
            let mut c = with_progress(base, info(READ, 2, 0x4444, 8), 3);
            field.set(&mut c, 100 + place as u32);
            if let Some(state) = to_reference(&c) {
                assert_changed(&from_reference(&state), &c, &[]);
            }
        }
        for kind in [READ, PROGRAM, PAGE_ERASE, BANK_ERASE] {
            let c = with_progress(base, info(kind, 1, 0x40, 5), 2);
            let state = to_reference(&c).expect("a kind of 0 to 3 encodes an operation");
            assert_changed(&from_reference(&state), &c, &[]);
        }
    }
}

/// Fields of which some byte encodes nothing, and no others.
const FLAGS_AND_KINDS: [&str; 6] = [
    "phase",
    "provision_enabled",
    "seeds_locked",
    "recorded",
    "progress.operation.kind",
    "progress.running",
];

/// Fields of which every byte encodes something, and no larger number.
const BYTES: [&str; 3] = [
    "default_rights",
    "progress.operation.partition",
    "progress.operation.info_type",
];

#[test]
fn what_encodes_nothing_gives_none() {
    let running = with_progress(ready(), data(PROGRAM, 0, 1), 0);
    for field in fields::all() {
        let name = field.name.as_str();
        let flag_or_kind = name.ends_with(".on")
            || name.starts_with("bank_erase")
            || FLAGS_AND_KINDS.contains(&name);
        let byte = name.ends_with(".rights") || BYTES.contains(&name);
        let none = |value| to_reference(&with(&running, name, value)).is_none();
        assert_eq!(none(255), flag_or_kind, "{name}");
        for large in [257, 300, 1 << 31, u32::MAX] {
            assert_eq!(none(large), flag_or_kind || byte, "{name} = {large}");
        }
    }
}

/// Each field of an argument by itself.
#[test]
fn what_is_asked_counts_as_255_at_most() {
    for (number, byte) in [(0, 0), (7, 7), (255, 255), (256, 255), (u32::MAX, 255)] {
        let asked = asked_operation(data(number, 0x1_0400, 0x1_0001));
        assert_eq!(asked.kind, byte);
        assert_eq!((asked.address, asked.count), (0x1_0400, 0x1_0001));
        assert_eq!(asked_operation(info(0, number, 0, 1)).info_type, byte);
        let mut operation = data(0, 0, 1);
        operation.partition = number;
        assert_eq!(asked_operation(operation).partition, byte);
    }
}

/// While nothing is running, no rule looks at the kind.
#[test]
fn the_kind_of_nothing_in_progress_is_free() {
    let c = with(&ready(), "progress.operation.kind", 1 << 31);
    let state = to_reference(&c).expect("an idle state");
    assert_eq!(from_reference(&state), ready());
}
