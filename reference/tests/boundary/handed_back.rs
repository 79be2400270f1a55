//! A refused call leaves every number of the controller, whatever stands in it,
//! broken encodings and unused places included.

use crate::helpers::*;
use reference::interface::flat::{Controller, Operation, PageSetting, Region, NUMBERS};
use reference::interface::{calls, fields};

/// Distinctive in every byte, and legal in no flag, right or phase.
fn mark(place: usize) -> u32 {
    0xA1B2_C300 + 0x0101_0100 * (place as u32 % 7) + (8 + place as u32)
}

/// Every call that may change a controller, refused with 1 in an invalid state, and what it leaves.
fn refused_calls(c: Controller) -> Vec<(&'static str, u32, Controller)> {
    type Refused = fn(&mut Controller) -> u32;
    let list: [(&str, Refused); 20] = [
        ("reset", |c| calls::reset(c, 0)),
        ("inputs", |c| calls::set_inputs(c, 1, 1)),
        ("region", |c| calls::set_region(c, 0, Region::default())),
        ("default rights", |c| calls::set_default_rights(c, 1)),
        ("info page", |c| {
            calls::set_info_page(c, 0, 0, 0, PageSetting::default())
        }),
        ("bank erase", |c| calls::set_bank_erase(c, 0, 1)),
        ("clear", calls::clear_errors),
        ("start", |c| calls::start(c, Operation::default()).answer),
        ("push", |c| calls::push(c, 5)),
        ("RMA", |c| calls::rma(c, &mut image())),
        ("initialise", |c| calls::initialise(c, &image()).answer),
        ("step", |c| calls::step(c, &mut image()).answer),
        ("whole operation", |c| {
            let operation = Operation::default();
            calls::run(c, &mut image(), operation, &mut [0; 4]).answer
        }),
        ("pop", |c| calls::pop(c).answer),
        ("host read", |c| calls::host_read(c, &image(), 0).answer),
        ("round, host", |c| {
            calls::round(c, &mut image(), 1, 0, 1).host_answer
        }),
        ("round, step", |c| {
            calls::round(c, &mut image(), 1, 0, 1).step_answer
        }),
        ("run for steps", |c| {
            let operation = Operation::default();
            calls::run_for(c, &mut image(), operation, &mut [0; 4], 9).answer
        }),
        ("write scan", |c| {
            calls::write_scan_for(c, &mut image(), [0, 1], &[7], 9).answer
        }),
        ("take scan", |c| {
            calls::take_scan_for(c, &mut image(), [0, 1], 9).answer
        }),
    ];
    let told = |(name, call): (_, Refused)| {
        let (answer, after) = left(c, call);
        (name, answer, after)
    };
    list.into_iter().map(told).collect()
}

fn assert_handed_back(c: Controller) {
    for (call, answer, after) in refused_calls(c) {
        assert_eq!(answer, 1, "{call}");
        assert_eq!(fields::differences(&after, &c), [], "{call}");
    }
}

#[test]
fn each_field_alone_comes_back_from_a_refused_reset() {
    for base in [Controller::default(), ready()] {
        for (place, field) in fields::all().iter().enumerate() {
            let mut c = base;
            field.set(&mut c, mark(place));
            assert_eq!(field.get(&c), mark(place));
            let (answer, after) = left(c, |c| calls::reset(c, 0));
            assert_eq!(answer, 1);
            assert_eq!(fields::differences(&after, &c), [], "{}", field.name);
        }
    }
}

/// The phase is broken too, so that every call is refused.
#[test]
fn each_field_alone_comes_back_from_every_refused_call() {
    for (place, field) in fields::all().iter().enumerate() {
        let mut c = with(&ready(), "phase", 9);
        field.set(&mut c, mark(place));
        assert_handed_back(c);
    }
}

#[test]
fn all_fields_at_once_come_back() {
    let mut c = Controller::default();
    for (place, field) in fields::all().iter().enumerate() {
        field.set(&mut c, mark(place));
    }
    assert_handed_back(c);
}

/// A right over 255 or a lost count over 5 alone is enough, in a state that is valid without it.
#[test]
fn large_rights_and_counts_come_back() {
    for field in [
        "default_rights",
        "regions[3].rights",
        "info_pages[25].rights",
        "lost_turns[0]",
        "lost_turns[1]",
    ] {
        for value in [256, 263, 1 << 31, u32::MAX] {
            assert_handed_back(with(&ready(), field, value));
        }
    }
}

/// The controller is covered: each number has one name, and the array is the struct.
#[test]
fn every_field_is_in_the_list() {
    let names: std::collections::BTreeSet<_> = fields::all().iter().map(|f| &f.name).collect();
    assert_eq!(fields::all().len(), NUMBERS);
    assert_eq!(names.len(), NUMBERS);
    let mut c = Controller::default();
    for (number, field) in fields::all().iter().enumerate() {
        field.set(&mut c, 1_000 + number as u32);
    }
    assert_eq!(*c.numbers(), std::array::from_fn(|i| 1_000 + i as u32));
    let named = |name| fields::named(name).get(&c);
    assert_eq!(named("regions[7].first_page"), c.regions[7].first_page);
    assert_eq!(named("regions[7].page_count"), c.regions[7].page_count);
    assert_eq!(named("regions[7].on"), c.regions[7].on);
    assert_eq!(named("regions[7].rights"), c.regions[7].rights);
    assert_eq!(named("info_pages[25].on"), c.info_pages[25].on);
    assert_eq!(named("info_pages[25].rights"), c.info_pages[25].rights);
    assert_eq!(named("bank_erase[1]"), c.bank_erase[1]);
    let operation = c.progress.operation;
    assert_eq!(named("progress.operation.kind"), operation.kind);
    assert_eq!(named("progress.operation.info_type"), operation.info_type);
    assert_eq!(named("progress.running"), c.progress.running);
    assert_eq!(named("read_queue.length"), c.read_queue.length);
    assert_eq!(named("program_queue.words[0]"), c.program_queue.words[0]);
    assert_eq!(named("last_address"), c.last_address);
    assert_eq!(named("lost_turns[1]"), c.lost_turns[1]);
}

/// Refusals of a valid state keep what no rule looks at, too.
#[test]
fn unused_places_come_back_from_a_valid_state() {
    let mut c = ready();
    for (place, field) in fields::all().iter().enumerate() {
        let unused = field.name.starts_with("progress.") && field.name != "progress.running";
        if unused || field.name.contains("queue.words") {
            field.set(&mut c, mark(place));
        }
    }
    let (empty, after_pop) = left(c, |c| calls::pop(c).answer);
    let (unexpected, after_step) = left(c, |c| calls::step(c, &mut image()).answer);
    assert_eq!((empty, unexpected), (10, 12));
    assert_changed(&after_pop, &c, &[]);
    assert_changed(&after_step, &c, &[]);
    let malformed = data(9, 0x44, 0);
    let (started, after_start) = left(c, |c| calls::start(c, malformed).answer);
    let (run, after_run) = left(c, |c| {
        calls::run(c, &mut image(), malformed, &mut []).answer
    });
    assert_eq!((started, run), (5, 5));
    let recorded = [("recorded", 1 << 5), ("last_address", 0x44)];
    assert_changed(&after_start, &c, &recorded);
    assert_changed(&after_run, &c, &recorded);
}
