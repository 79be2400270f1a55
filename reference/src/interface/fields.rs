//! Every field of the flat controller, each array element by itself, to be
//! read, written and named one at a time.

use super::flat::{self, Controller};
use std::sync::OnceLock;

/// One field, as C would name it, and its number in the controller.
#[derive(Clone, Debug, PartialEq, Eq)]
pub struct Field {
    pub name: String,
    number: usize,
}

impl Field {
    pub fn get(&self, c: &Controller) -> u32 {
        c.numbers()[self.number]
    }

    pub fn set(&self, c: &mut Controller, value: u32) {
        c.numbers_mut()[self.number] = value;
    }
}

/// All fields, in the order of the header.
pub fn all() -> &'static [Field] {
    static FIELDS: OnceLock<Vec<Field>> = OnceLock::new();
    FIELDS.get_or_init(|| {
        let numbered = names().into_iter().enumerate();
        numbered
            .map(|(number, name)| Field { name, number })
            .collect()
    })
}

/// The field of this name, which must be one.
pub fn named(name: &str) -> &'static Field {
    all()
        .iter()
        .find(|field| field.name == name)
        .unwrap_or_else(|| panic!("no field is named {name}"))
}

/// The fields in which two controllers differ, with both values.
pub fn differences(a: &Controller, b: &Controller) -> Vec<(&'static str, u32, u32)> {
    all()
        .iter()
        .map(|field| (field.name.as_str(), field.get(a), field.get(b)))
        .filter(|(_, one, other)| one != other)
        .collect()
}

fn names() -> Vec<String> {
    let plain = |list: &[&str]| list.iter().map(|name| name.to_string()).collect();
    let parts: [Vec<String>; 9] = [
        plain(&[
            "data_pages",
            "phase",
            "provision_enabled",
            "seeds_locked",
            "default_rights",
        ]),
        of_each(
            "regions",
            flat::REGIONS,
            &[".first_page", ".page_count", ".on", ".rights"],
        ),
        of_each("info_pages", flat::INFO_PAGES, &[".on", ".rights"]),
        of_each("bank_erase", flat::BANKS, &[""]),
        plain(&[
            "progress.operation.address",
            "progress.operation.count",
            "progress.operation.kind",
            "progress.operation.partition",
            "progress.operation.info_type",
            "progress.moved",
            "progress.readable",
            "progress.running",
        ]),
        queue("read_queue"),
        queue("program_queue"),
        plain(&["recorded", "last_address"]),
        of_each("lost_turns", flat::BANKS, &[""]),
    ];
    parts.concat()
}

/// The members of every element of an array.
fn of_each(array: &str, elements: usize, members: &[&str]) -> Vec<String> {
    let of = |i| {
        members
            .iter()
            .map(move |member| format!("{array}[{i}]{member}"))
    };
    (0..elements).flat_map(of).collect()
}

fn queue(name: &str) -> Vec<String> {
    let mut names = of_each(&format!("{name}.words"), flat::QUEUE_WORDS, &[""]);
    names.push(format!("{name}.length"));
    names
}
