//! The table settled.txt, and the whole of it held against one program.

use crate::told::{disagreement, Output};
use crate::watch::watched;

const TABLE: &str = include_str!("settled.txt");

struct Case {
    label: &'static str,
    sheet: Vec<u8>,
    prints: String,
}

/// Every sheet of the table prints what the table says.
pub fn hold(printed: fn(&[u8]) -> Output) {
    let wrong = watched(1, move |worker, watch| {
        let cases = TABLE.lines().filter_map(case).zip(0..);
        let begun = cases.take_while(|(_, number)| watch.begins(worker, *number));
        let differing = begun.filter_map(|(case, _)| differs(&case, printed));
        differing.collect::<Vec<String>>().join("\n")
    });
    assert!(wrong[0].is_empty(), "{}", wrong[0]);
}

fn differs(case: &Case, printed: fn(&[u8]) -> Output) -> Option<String> {
    let outputs = [
        ("the table", Ok(case.prints.clone())),
        ("the program", printed(&case.sheet)),
    ];
    disagreement(case.label, &case.sheet, outputs)
}

/// The case of a line that is neither empty nor a comment.
fn case(line: &'static str) -> Option<Case> {
    if line.is_empty() || line.starts_with('#') {
        return None;
    }
    let (label, rest) = line.split_once(": ").expect("a label");
    let (sheet, prints) = rest.split_once("->").expect("a sheet and its lines");
    let sheet = parts(sheet).flat_map(|(times, hex)| bytes(hex).repeat(times));
    let lines = parts(prints).map(|(times, line)| format!("{line}\n").repeat(times));
    Some(Case {
        label,
        sheet: sheet.collect(),
        prints: lines.collect(),
    })
}

/// How often each part stands there, and the part.
fn parts(text: &str) -> impl Iterator<Item = (usize, &str)> {
    let parts = text.split(',').map(str::trim);
    let present = parts.filter(|part| !part.is_empty());
    present.map(|part| match part.split_once(" x ") {
        Some((times, part)) => (times.parse().expect("how often"), part),
        None => (1, part),
    })
}

fn bytes(hex: &str) -> Vec<u8> {
    let byte = |digits| u8::from_str_radix(digits, 16).expect("two hex digits");
    hex.split(' ').map(byte).collect()
}
