//! What most boundary tests need.

use reference::interface::{fields, flat};
use reference::model;

/// The D of a bench program.
pub const D: u32 = 16;
pub const INFO_PAGES_OF_TYPE: [(u32, u32); 3] = [(0, 10), (1, 1), (2, 2)];

/// Just reset: everything else is 0.
pub fn uninitialised() -> flat::Controller {
    flat::Controller {
        data_pages: D,
        ..flat::Controller::default()
    }
}

/// Ready, with no right at all.
pub fn ready_without_rights() -> flat::Controller {
    flat::Controller {
        phase: flat::PHASE_READY,
        ..uninitialised()
    }
}

/// Ready, with every right.
pub fn ready() -> flat::Controller {
    flat::Controller {
        provision_enabled: 1,
        default_rights: 7,
        info_pages: [flat::PageSetting { on: 1, rights: 7 }; flat::INFO_PAGES],
        bank_erase: [1, 1],
        ..ready_without_rights()
    }
}

/// Ready, with every right but that to read one data page.
pub fn without_reading(page: u32) -> flat::Controller {
    let mut c = ready();
    c.regions[3] = flat::Region {
        first_page: page,
        page_count: 1,
        on: 1,
        rights: 6,
    };
    c
}

/// Every word tells its own place.
pub fn image() -> Vec<u32> {
    (0..model::image_words(D) as u32).collect()
}

pub fn data(kind: u32, address: u32, count: u32) -> flat::Operation {
    flat::Operation {
        address,
        count,
        kind,
        ..flat::Operation::default()
    }
}

pub fn info(kind: u32, info_type: u32, address: u32, count: u32) -> flat::Operation {
    flat::Operation {
        partition: flat::INFORMATION,
        info_type,
        ..data(kind, address, count)
    }
}

/// The controller with an operation in progress that has moved some words.
pub fn with_progress(
    mut c: flat::Controller,
    operation: flat::Operation,
    moved: u32,
) -> flat::Controller {
    let read = operation.kind == flat::READ;
    c.progress = flat::Progress {
        operation,
        moved,
        readable: if read { operation.count } else { 0 },
        running: 1,
    };
    c
}

/// The controller with one field set.
pub fn with(c: &flat::Controller, field: &str, value: u32) -> flat::Controller {
    let mut set = *c;
    fields::named(field).set(&mut set, value);
    set
}

/// What a call gives, and the controller that it leaves of this one.
pub fn left<T>(
    mut c: flat::Controller,
    call: impl FnOnce(&mut flat::Controller) -> T,
) -> (T, flat::Controller) {
    let given = call(&mut c);
    (given, c)
}

/// Exactly these fields differ, with these values in the first.
pub fn assert_changed(after: &flat::Controller, before: &flat::Controller, list: &[(&str, u32)]) {
    let changed: Vec<(&str, u32)> = fields::differences(after, before)
        .into_iter()
        .map(|(field, value, _)| (field, value))
        .collect();
    assert_eq!(changed, list);
}

/// Every information page: its place among the settings, bank, type and number.
pub fn info_pages() -> Vec<(usize, u32, u32, u32)> {
    let mut pages = Vec::new();
    for bank in 0..2 {
        for (info_type, number) in INFO_PAGES_OF_TYPE {
            for page in 0..number {
                pages.push((pages.len(), bank, info_type, page));
            }
        }
    }
    pages
}
