//! Damage to a sheet, with the place that is then bad, where it is known.

use crate::draft::{shortest_form, Draft, Number, Role};
use crate::rng::Rng;
use crate::sheets::{Known, Sheet};

/// Every number before the damage stands as it was, so that the damage is the first fault.
pub fn damaged(rng: &mut Rng, draft: &Draft) -> Sheet {
    match rng.weighted(&[20, 20, 20, 12, 10, 12, 10, 8, 8]) {
        0 => replaced(rng, draft, "long form", |_| true, long_form),
        1 => replaced(rng, draft, "2^32 or more", |_| true, too_large),
        2 => replaced(
            rng,
            draft,
            "over its limit",
            |role| role.limit().is_some(),
            over,
        ),
        3 => cut(rng, draft),
        4 => unfinished(rng, draft),
        5 => trailed(rng, draft),
        6 => byte_changed(rng, draft),
        7 => byte_inserted(rng, draft),
        _ => byte_removed(rng, draft),
    }
}

/// Another form of one number, of a role that is chosen first; the sheet may end behind it.
fn replaced(
    rng: &mut Rng,
    draft: &Draft,
    what: &str,
    has: impl Fn(Role) -> bool,
    form: impl Fn(&mut Rng, &Number) -> Vec<u8>,
) -> Sheet {
    let of = |role| {
        draft
            .numbers
            .iter()
            .filter(move |number| number.role == role)
    };
    let there = |role: &Role| has(*role) && of(*role).next().is_some();
    let roles: Vec<Role> = Role::ALL.into_iter().filter(there).collect();
    let role = rng.pick(&roles);
    let numbers: Vec<&Number> = of(role).collect();
    let number = rng.pick(&numbers);
    let (before, after) = around(draft, number);
    let form = form(rng, number);
    let after = if rng.percent(25) { &[] } else { after };
    let bytes = [before, &form, after].concat();
    Sheet::new(
        format!("{what}: {role:?}"),
        bytes,
        Known::BadAt(number.place),
    )
}

/// The bytes before and after a number.
fn around<'a>(draft: &'a Draft, number: &Number) -> (&'a [u8], &'a [u8]) {
    let (before, rest) = draft.bytes.split_at(number.place);
    (before, &rest[shortest_form(number.value.into()).len()..])
}

fn long_form(rng: &mut Rng, number: &Number) -> Vec<u8> {
    let mut form = shortest_form(number.value.into());
    let groups = [1, 1, 2, 4, 5, 9, 40];
    form.resize(form.len() + rng.pick(&groups), 0);
    let last = form.len() - 1;
    form[..last].iter_mut().for_each(|byte| *byte |= 0x80);
    form
}

/// The number itself stands in the low bits, for a reader that forgets the high ones.
fn too_large(rng: &mut Rng, number: &Number) -> Vec<u8> {
    let bit = rng.pick(&[32, 32, 33, 34, 35, 38, 41, 42, 62, 63, 64, 69, 70, 100]);
    shortest_form(u128::from(number.value) + (1 << bit))
}

fn over(rng: &mut Rng, number: &Number) -> Vec<u8> {
    if number.role == Role::Repeats && rng.percent(30) {
        return shortest_form(0);
    }
    let limit = number.role.limit().expect("it has one");
    let low = number.value + 256 * rng.between(1, 300);
    let wrong = rng.pick(&[limit + 1, limit + 2, low, u32::MAX]);
    shortest_form(wrong.into())
}

/// The block does not end.
fn cut(rng: &mut Rng, draft: &Draft) -> Sheet {
    let length = rng.below(draft.bytes.len() as u32) as usize;
    let between = draft.numbers.iter().any(|number| number.place == length);
    let what = if between {
        "cut between numbers"
    } else {
        "cut inside a number"
    };
    Sheet::new(
        what.to_owned(),
        draft.bytes[..length].to_vec(),
        Known::BadAt(length),
    )
}

/// The sheet ends in a number, perhaps of many bytes.
fn unfinished(rng: &mut Rng, draft: &Draft) -> Sheet {
    let number = rng.pick(&draft.numbers);
    let mut bytes = draft.bytes[..number.place].to_vec();
    for _ in 0..rng.pick(&[1, 2, 4, 5, 6, 9, 10, 11, 100, 900]) {
        bytes.push(rng.pick(&[0x80, 0xFF, 0x81, 0x87]));
    }
    let length = bytes.len();
    Sheet::new("unfinished number".to_owned(), bytes, Known::BadAt(length))
}

fn trailed(rng: &mut Rng, draft: &Draft) -> Sheet {
    let tails: [(&str, &[u8]); 4] = [
        ("zero after the block", &[0]),
        ("rights after the block", &[3, 7]),
        ("block after the block", &[3, 7, 0]),
        ("unfinished after the block", &[0x80]),
    ];
    let (what, tail) = rng.pick(&tails);
    let bytes = [&draft.bytes, tail].concat();
    Sheet::new(what.to_owned(), bytes, Known::BadAt(draft.bytes.len()))
}

fn byte_changed(rng: &mut Rng, draft: &Draft) -> Sheet {
    let mut bytes = draft.bytes.clone();
    let place = rng.below(bytes.len() as u32) as usize;
    bytes[place] = any_byte(rng);
    Sheet::new("byte changed".to_owned(), bytes, Known::Nothing)
}

fn byte_inserted(rng: &mut Rng, draft: &Draft) -> Sheet {
    let mut bytes = draft.bytes.clone();
    let place = rng.below(bytes.len() as u32 + 1) as usize;
    bytes.insert(place, any_byte(rng));
    Sheet::new("byte inserted".to_owned(), bytes, Known::Nothing)
}

fn byte_removed(rng: &mut Rng, draft: &Draft) -> Sheet {
    let mut bytes = draft.bytes.clone();
    bytes.remove(rng.below(bytes.len() as u32) as usize);
    Sheet::new("byte removed".to_owned(), bytes, Known::Nothing)
}

/// Any, but often one that can stand in many places.
pub fn any_byte(rng: &mut Rng) -> u8 {
    let any = rng.word() as u8;
    let few = rng.below(4) as u8;
    [any, few, any | 0x80][rng.weighted(&[40, 40, 20])]
}
