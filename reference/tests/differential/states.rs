//! States: rich ones to start from, and fields that a bench writes, most of
//! which break the state.

use crate::arguments::Arguments;
use crate::bench::{Start, Write};
use crate::layout::{beside_the_border, words_to_move, MOST_DATA_PAGES, PAGE_BYTES};
use crate::pages::readable_words;
use crate::rng::Rng;
use reference::interface::{fields, flat};
use reference::model::Controller;

/// Data pages per bank that an image has room for past its D, so that reset can change D.
const ROOM: u32 = 2;

/// Rich in most cases, else garbage or zeros.
pub fn any(rng: &mut Rng, data_pages: u32) -> Start {
    match rng.below(20) {
        0 => start(rng, data_pages, garbage),
        1 => start(rng, data_pages, |_| flat::Controller::default()),
        _ => valid(rng, data_pages),
    }
}

/// From a valid state.
pub fn valid(rng: &mut Rng, data_pages: u32) -> Start {
    start(rng, data_pages, |rng| rich(rng, data_pages))
}

fn start(
    rng: &mut Rng,
    data_pages: u32,
    controller: impl FnOnce(&mut Rng) -> flat::Controller,
) -> Start {
    Start {
        controller: controller(rng),
        max_data_pages: (data_pages + ROOM).min(MOST_DATA_PAGES),
        image_seed: rng.seed(),
    }
}

/// Ready and with every right, to be left alone while long operations run.
pub fn all_rights(rng: &mut Rng, data_pages: u32) -> Start {
    let setting = flat::PageSetting { on: 1, rights: 7 };
    Start {
        controller: flat::Controller {
            data_pages,
            phase: flat::PHASE_READY,
            provision_enabled: 1,
            default_rights: 7,
            info_pages: [setting; flat::INFO_PAGES],
            bank_erase: [1, 1],
            ..flat::Controller::default()
        },
        max_data_pages: data_pages,
        image_seed: rng.seed(),
    }
}

fn garbage(rng: &mut Rng) -> flat::Controller {
    let mut c = flat::Controller::default();
    for field in fields::all() {
        field.set(&mut c, rng.word());
    }
    c
}

/// A valid state with nothing in progress: overlapping regions, mixed rights, records, read words and lost counts.
fn rich(rng: &mut Rng, data_pages: u32) -> flat::Controller {
    let mut c = flat::Controller {
        data_pages,
        phase: rng.weighted(&[15, 80, 5]) as u32,
        lost_turns: [rng.below(6), rng.below(6)],
        ..flat::Controller::default()
    };
    settle(rng, &mut c);
    if rng.percent(30) {
        c.recorded = rng.pick(&[1 << 5, 1 << 7, 1 << 8, 1 << 9, 0x3A0]);
        c.last_address = rng.word();
    }
    if rng.percent(30) {
        fill_free_places(rng, &mut c);
    }
    if c.phase == flat::PHASE_READY && rng.percent(30) {
        c.read_queue.length = rng.below(17);
    }
    c
}

/// Random inputs and settings that pass 13.
fn settle(rng: &mut Rng, c: &mut flat::Controller) {
    c.provision_enabled = rng.percent(70).into();
    c.seeds_locked = rng.percent(30).into();
    c.default_rights = legal_rights(rng);
    for setting in &mut c.info_pages {
        setting.on = rng.percent(80).into();
        setting.rights = legal_rights(rng);
    }
    for on in &mut c.bank_erase {
        *on = rng.percent(60).into();
    }
    for number in 0..flat::REGIONS {
        c.regions[number] = legal_region(rng, c);
    }
}

fn legal_rights(rng: &mut Rng) -> u32 {
    if rng.percent(50) {
        7
    } else {
        rng.below(8)
    }
}

/// It often begins beside the bank border.
fn legal_region(rng: &mut Rng, c: &flat::Controller) -> flat::Region {
    let beside = beside_the_border(c.data_pages);
    let first_page = match rng.below(4) {
        0 => rng.between(beside.start, beside.end - 1),
        _ => rng.below(2 * c.data_pages + 1),
    };
    let room = 2 * c.data_pages - first_page;
    let page_count = match rng.below(3) {
        0 => rng.below(room + 1),
        _ => rng.below(room.min(5) + 1),
    };
    flat::Region {
        first_page,
        page_count,
        on: rng.percent(50).into(),
        rights: legal_rights(rng),
    }
}

/// No rule looks at these.
fn fill_free_places(rng: &mut Rng, c: &mut flat::Controller) {
    for queue in [&mut c.read_queue, &mut c.program_queue] {
        queue.words = std::array::from_fn(|_| rng.word());
    }
    c.progress = flat::Progress {
        operation: flat::Operation {
            address: rng.word(),
            count: rng.word(),
            kind: rng.word(),
            partition: rng.word(),
            info_type: rng.word(),
        },
        moved: rng.word(),
        readable: rng.word(),
        running: 0,
    };
}

// -- writes --------------------------------------------------------------

/// New inputs and settings, as a bench that builds its state by hand writes them.
pub fn settings_written(rng: &mut Rng, c: &flat::Controller) -> Vec<Write> {
    let mut settled = *c;
    settle(rng, &mut settled);
    writes_between(c, &settled)
}

/// The operation in progress is near its end or, of a denied read, near its first denied word.
pub fn near_its_end(rng: &mut Rng, c: &flat::Controller) -> Vec<Write> {
    let mut near = *c;
    let words = words_to_move(c.data_pages, &c.progress.operation);
    let denied_read = c.progress.operation.kind == flat::READ && c.progress.readable < words;
    let goal = if denied_read && rng.percent(50) {
        c.progress.readable
    } else {
        words
    };
    let queued = c.program_queue.length;
    let left = rng.between(1, 4).max(queued);
    near.progress.moved = goal.saturating_sub(left).max(c.progress.moved);
    writes_between(c, &near)
}

/// Another number of readable words, of the read in progress.
pub fn readable_written(rng: &mut Rng, c: &flat::Controller) -> Vec<Write> {
    let mut written = *c;
    written.progress.readable = other_readable(rng, &c.progress, c.progress.readable);
    writes_between(c, &written)
}

/// One off the right number, none or all.
fn other_readable(rng: &mut Rng, progress: &flat::Progress, right: u32) -> u32 {
    match rng.below(4) {
        0 => right.wrapping_sub(1),
        1 => right.wrapping_add(1),
        2 => 0,
        _ => progress.operation.count,
    }
}

/// Some fields with other values: one alone, or several at once.
pub fn fields_written(rng: &mut Rng, c: &flat::Controller) -> Vec<Write> {
    let number = [1, 2, 3, 6][rng.weighted(&[70, 20, 7, 3])];
    (0..number).map(|_| field_written(rng, c)).collect()
}

fn field_written(rng: &mut Rng, c: &flat::Controller) -> Write {
    let all = fields::all();
    let field = if rng.percent(40) {
        let delicate = rng.pick(&DELICATE);
        all.iter().position(|field| field.name == delicate).unwrap()
    } else {
        rng.below(all.len() as u32) as usize
    };
    let value = other_value(rng, c, all[field].get(c));
    Write { field, value }
}

/// Fields that the rules tie to one another, and the few that only rounds look at.
const DELICATE: [&str; 18] = [
    "data_pages",
    "phase",
    "default_rights",
    "provision_enabled",
    "seeds_locked",
    "progress.operation.address",
    "progress.operation.count",
    "progress.operation.kind",
    "progress.operation.partition",
    "progress.operation.info_type",
    "progress.moved",
    "progress.readable",
    "progress.running",
    "read_queue.length",
    "program_queue.length",
    "last_address",
    "lost_turns[0]",
    "lost_turns[1]",
];

/// A border of some rule, a neighbour of what stands there, the same in its low bits, or anything.
fn other_value(rng: &mut Rng, c: &flat::Controller, value: u32) -> u32 {
    let d = c.data_pages;
    match rng.below(10) {
        0 => value.wrapping_add(1),
        1 => value.wrapping_sub(1),
        2 => value ^ 1 << rng.below(32),
        3 => rng.word(),
        4 => value.wrapping_add(rng.pick(&[1 << 8, 1 << 16, 1 << 24, 1 << 31])),
        5 => rng.pick(&[d - 1, d, d + 1, 2 * d - 1, 2 * d, 2 * d + 1, d * PAGE_BYTES]),
        6 => rng.pick(&[9, 10, 15, 16, 17, 255, 256, 257, 1024, 1025, u32::MAX]),
        _ => rng.below(10),
    }
}

/// An operation in progress that nobody started: some are valid, some only nearly.
pub fn progress_written(rng: &mut Rng, c: &flat::Controller, state: &Controller) -> Vec<Write> {
    let mut written = *c;
    let operation = Arguments { rng, state }.operation();
    written.progress = flat::Progress {
        operation,
        moved: 0,
        readable: 0,
        running: 1,
    };
    let words = words_to_move(c.data_pages, &operation);
    written.progress.moved = match rng.below(6) {
        0 => words,
        1 => words.wrapping_sub(1),
        2 => words.wrapping_add(1),
        3 => rng.below(words.clamp(1, 4096)),
        _ => 0,
    };
    let right = readable_words(c, &operation).unwrap_or(operation.count);
    written.progress.readable = match rng.below(8) {
        0 => rng.word(),
        1..=3 => other_readable(rng, &written.progress, right),
        _ => right,
    };
    let left = words.wrapping_sub(written.progress.moved);
    written.program_queue.length = match rng.below(6) {
        0 => left,
        1 => left.wrapping_add(1),
        2 => rng.below(18),
        _ => 0,
    };
    writes_between(c, &written)
}

fn writes_between(from: &flat::Controller, to: &flat::Controller) -> Vec<Write> {
    let changed = |(field, f): (usize, &fields::Field)| {
        let value = f.get(to);
        (f.get(from) != value).then_some(Write { field, value })
    };
    fields::all()
        .iter()
        .enumerate()
        .filter_map(changed)
        .collect()
}

#[test]
fn rich_states_are_valid() {
    let mut rng = Rng::new(1);
    for turn in 0..2_000 {
        let state = reference::interface::to_reference(&rich(&mut rng, 10 + turn % 247));
        assert!(state.is_some_and(|c| reference::model::is_valid(&c)));
    }
}
