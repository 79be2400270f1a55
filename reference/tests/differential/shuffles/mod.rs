//! Demand 3: two lists of whole operations that keep out of each other's pages
//! may be shuffled in any way that keeps each list's order.

mod footprint;
mod trials;

use crate::layout::words_of;
use footprint::{footprint, keep_apart, Denied, Footprint};
use reference::interface::{
    asked_operation, calls as library, fields, flat, from_reference, to_reference,
};
use reference::model::{self, Controller};

pub use trials::trials;

#[derive(Clone, Copy, Debug, PartialEq, Eq)]
enum List {
    Left,
    Right,
}

/// A whole operation of one list, with its own buffer.
#[derive(Clone, Debug)]
struct Item {
    list: List,
    operation: flat::Operation,
    buffer: Vec<u32>,
}

/// Where the shuffle and each list alone begin.
#[derive(Clone)]
struct Beginning {
    controller: flat::Controller,
    image: Vec<u32>,
}

/// What an operation gives: its answer with whatever that reports, its bit count and its whole buffer.
#[derive(Clone, Debug, PartialEq, Eq)]
struct Given {
    done: flat::Completed,
    buffer: Vec<u32>,
}

/// What a program leaves after some operations.
struct Ended {
    given: Vec<Given>,
    image: Vec<u32>,
    controller: flat::Controller,
}

// -- the claim -----------------------------------------------------------

/// How the premise holds.
#[derive(Clone, Copy, Debug, PartialEq, Eq)]
struct Apart {
    /// Both lists program or erase.
    both_write: bool,
    /// It would not hold if denied reads with readable words went on to their end.
    by_a_cut: bool,
}

/// None if the premise does not hold; else how it does, or how the claim fails.
fn claim(beginning: &Beginning, shuffle: &[Item]) -> Option<Result<Apart, String>> {
    let lists = [List::Left, List::Right].map(|list| of(shuffle, list));
    let alone = lists.each_ref().map(|items| on_second(beginning, items));
    let touched = footprints(beginning, &lists, &alone, Denied::Cut);
    if !keep_apart(&touched) {
        return None;
    }
    let to_their_end = footprints(beginning, &lists, &alone, Denied::Whole);
    let apart = Apart {
        both_write: touched.iter().all(|list| !list.written.is_empty()),
        by_a_cut: !keep_apart(&to_their_end),
    };
    let shuffled = on_model(beginning, shuffle);
    let holds = check_alone(beginning, &lists[0], &alone[0])
        .and_then(|()| check_alone(beginning, &lists[1], &alone[1]))
        .and_then(|()| check_given(shuffle, &shuffled, &alone))
        .and_then(|()| check_end(beginning, &shuffled, &alone, &touched));
    Some(holds.map(|()| apart))
}

fn footprints(
    beginning: &Beginning,
    lists: &[Vec<Item>; 2],
    alone: &[Ended; 2],
    denied: Denied,
) -> [Footprint; 2] {
    let of = |list: usize| footprint(&beginning.controller, &lists[list], &alone[list], denied);
    [of(0), of(1)]
}

fn of(shuffle: &[Item], list: List) -> Vec<Item> {
    let own = shuffle.iter().filter(|item| item.list == list);
    own.cloned().collect()
}

/// A list alone is run by both programs.
fn check_alone(beginning: &Beginning, items: &[Item], second: &Ended) -> Result<(), String> {
    let model = on_model(beginning, items);
    let alike = model.given == second.given
        && model.image == second.image
        && model.controller == second.controller;
    require(alike, || {
        "a list alone: the two programs disagree".to_owned()
    })
}

/// Each operation gives in the shuffle what it gives when its own list runs alone.
fn check_given(shuffle: &[Item], shuffled: &Ended, alone: &[Ended; 2]) -> Result<(), String> {
    let mut own = alone.each_ref().map(|ended| ended.given.iter());
    for (place, (item, given)) in shuffle.iter().zip(&shuffled.given).enumerate() {
        let expected = own[item.list as usize].next().expect("it ran alone");
        require(expected == given, || {
            format!("operation {place} gives {}", difference(given, expected))
        })?;
    }
    Ok(())
}

fn difference(given: &Given, alone: &Given) -> String {
    let mut words = given.buffer.iter().zip(&alone.buffer);
    let differs = words.position(|(given, alone)| given != alone);
    format!(
        "{:?}, alone {:?}; the first word that differs: {differs:?}",
        given.done, alone.done
    )
}

/// A written page ends as its list alone leaves it, every other page as it
/// began, and the recorded kinds are the union.
fn check_end(
    beginning: &Beginning,
    shuffled: &Ended,
    alone: &[Ended; 2],
    footprints: &[Footprint; 2],
) -> Result<(), String> {
    let mut image = beginning.image.clone();
    for (ended, footprint) in alone.iter().zip(footprints) {
        for &page in &footprint.written {
            let words = words_of(page);
            image[words.clone()].copy_from_slice(&ended.image[words]);
        }
    }
    require(shuffled.image == image, || "the flash differs".to_owned())?;
    let union = alone[0].controller.recorded | alone[1].controller.recorded;
    let recorded = shuffled.controller.recorded;
    require(recorded == union, || {
        format!("recorded kinds {recorded:#x}, not {union:#x}")
    })?;
    let changed = fields::differences(
        &without_record(shuffled.controller),
        &without_record(beginning.controller),
    );
    require(changed.is_empty(), || {
        format!("fields changed: {changed:?}")
    })
}

/// Whole operations leave a controller as it was, but for its record.
fn without_record(c: flat::Controller) -> flat::Controller {
    flat::Controller {
        recorded: 0,
        last_address: 0,
        ..c
    }
}

fn require(holds: bool, why: impl FnOnce() -> String) -> Result<(), String> {
    if holds {
        Ok(())
    } else {
        Err(why())
    }
}

// -- the two programs ----------------------------------------------------

fn on_model(beginning: &Beginning, items: &[Item]) -> Ended {
    let Beginning {
        controller: mut c,
        mut image,
    } = beginning.clone();
    let mut run = |item: &Item| {
        let mut buffer = item.buffer.clone();
        let done = library::run(&mut c, &mut image, item.operation, &mut buffer);
        Given { done, buffer }
    };
    let given = items.iter().map(&mut run).collect();
    Ended {
        given,
        controller: c,
        image,
    }
}

fn on_second(beginning: &Beginning, items: &[Item]) -> Ended {
    let mut c = to_reference(&beginning.controller).expect("a beginning encodes a state");
    let mut image = beginning.image.clone();
    let mut run = |item: &Item| {
        let mut buffer = item.buffer.clone();
        let operation = asked_operation(item.operation);
        let done = model::whole(&mut c, operation, &mut image, &mut buffer).into();
        Given { done, buffer }
    };
    let given = items.iter().map(&mut run).collect();
    Ended {
        given,
        controller: from_reference(&c),
        image,
    }
}

// -- the claim's own tests -------------------------------------------------

fn item(list: List, kind: u32, address: u32) -> Item {
    let operation = flat::Operation {
        address,
        count: 1,
        kind,
        ..flat::Operation::default()
    };
    Item {
        list,
        operation,
        buffer: vec![0x0F0F_0F0F],
    }
}

fn erased_with_all_rights() -> Beginning {
    let c = Controller {
        data_pages: 10,
        phase: model::Phase::Ready,
        default_rights: 7,
        bank_erase_permissions: [true, true],
        ..Controller::default()
    };
    Beginning {
        controller: from_reference(&c),
        image: vec![u32::MAX; model::image_words(10) as usize],
    }
}

/// Two readers may share a page; a writer shares with nobody, over its whole erase.
#[test]
fn the_premise_is_about_the_pages_that_are_written() {
    let holds = |left: (u32, u32), right: (u32, u32)| {
        let shuffle = [
            item(List::Left, left.0, left.1),
            item(List::Right, right.0, right.1),
        ];
        claim(&erased_with_all_rights(), &shuffle).is_some()
    };
    assert!(holds((flat::READ, 0x400), (flat::READ, 0x404)));
    assert!(holds((flat::PROGRAM, 0x400), (flat::PROGRAM, 0x800)));
    assert!(!holds((flat::PROGRAM, 0x400), (flat::PROGRAM, 0x7FC)));
    assert!(!holds((flat::PAGE_ERASE, 0x400), (flat::READ, 0x7FC)));
    assert!(!holds((flat::READ, 0x2400), (flat::BANK_ERASE, 0)));
    assert!(holds((flat::READ, 0x2800), (flat::BANK_ERASE, 0)));
    // An operation that is refused touches no page.
    assert!(holds((flat::PROGRAM, 0x400), (flat::PROGRAM, 0x7FD)));
}

/// Pages 1 and 3 may be read and programmed, page 2 only programmed.
#[test]
fn a_denied_read_reads_its_pages_before_the_first_denied_one() {
    let mut beginning = erased_with_all_rights();
    beginning.controller.regions[0] = flat::Region {
        first_page: 2,
        page_count: 1,
        on: 1,
        rights: 6,
    };
    let apart = |address, count, program| {
        let mut read = item(List::Left, flat::READ, address);
        read.operation.count = count;
        read.buffer = vec![0; count as usize];
        let shuffle = [item(List::Right, flat::PROGRAM, program), read];
        let holds = claim(&beginning, &shuffle)?;
        Some(holds.expect("the claim").by_a_cut)
    };
    // Of the page before the denied one, the denied one, and the one after it.
    assert_eq!(apart(0x7FC, 300, 0x400), None);
    assert_eq!(apart(0x7FC, 300, 0x800), Some(true));
    assert_eq!(apart(0x7FC, 300, 0xC00), Some(true));
    assert_eq!(apart(0x7FC, 2, 0xC00), Some(false));
    assert_eq!(apart(0x800, 300, 0x800), Some(false));
    assert_eq!(apart(0x800, 300, 0xC00), Some(false));
    // With a buffer too short it does not start.
    let mut short = item(List::Left, flat::READ, 0x7FC);
    short.operation.count = 300;
    let shuffle = [item(List::Right, flat::PROGRAM, 0x400), short];
    assert!(claim(&beginning, &shuffle).is_some());
}

/// A shuffle that gives, leaves or records anything else does not pass.
#[test]
fn a_wrong_end_is_told() {
    let mut beginning = erased_with_all_rights();
    beginning.controller.bank_erase[1] = 0;
    let shuffle = [
        item(List::Left, flat::PROGRAM, 0x400),
        item(List::Right, flat::PROGRAM, 0x800),
        item(List::Left, 9, 0),
        item(List::Right, flat::BANK_ERASE, 0x2800),
    ];
    let lists = [List::Left, List::Right].map(|list| of(&shuffle, list));
    let alone = lists.each_ref().map(|items| on_second(&beginning, items));
    let touched = footprints(&beginning, &lists, &alone, Denied::Cut);
    let passes = |spoil: fn(&mut Ended)| {
        let mut ended = on_model(&beginning, &shuffle);
        spoil(&mut ended);
        check_given(&shuffle, &ended, &alone).is_ok()
            && check_end(&beginning, &ended, &alone, &touched).is_ok()
    };
    assert!(passes(|_| ()));
    assert!(!passes(|ended| ended.given[1].done.bits += 1));
    assert!(!passes(|ended| ended.given[2].done.answer = 7));
    assert!(!passes(|ended| ended.given[3].done.decider = 8));
    assert!(!passes(|ended| ended.given[0].buffer[0] = 0));
    assert!(!passes(|ended| ended.image[256] = u32::MAX));
    assert!(!passes(|ended| ended.image[9] = 0));
    assert!(!passes(|ended| ended.controller.recorded = 0));
    assert!(!passes(|ended| ended.controller.read_queue.length = 1));
}
