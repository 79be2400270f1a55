//! Two outputs that differ, to be read.

use std::fmt::Write;

/// Of a sheet or an output, what is shown.
const BYTES: usize = 400;
const LINES: usize = 12;

/// What a program prints, or what went wrong.
pub type Output = Result<String, String>;

/// None if the outputs are the same.
pub fn disagreement(label: &str, sheet: &[u8], outputs: [(&str, Output); 2]) -> Option<String> {
    let [(_, one), (_, other)] = &outputs;
    if one == other {
        return None;
    }
    let mut text = format!("{label}, {} bytes:\n  {}\n", sheet.len(), hex(sheet));
    let from = first_difference(one, other);
    for (who, output) in &outputs {
        writeln!(text, "{who}, from line {}:", from + 1).unwrap();
        text += &shown(output, from);
    }
    Some(text)
}

fn hex(sheet: &[u8]) -> String {
    let shown = sheet.iter().take(BYTES);
    let digits: Vec<String> = shown.map(|byte| format!("{byte:02X}")).collect();
    let more = if sheet.len() > BYTES { " .." } else { "" };
    digits.join(" ") + more
}

/// The number of lines that are the same at the beginning.
fn first_difference(one: &Output, other: &Output) -> usize {
    let (Ok(one), Ok(other)) = (one, other) else {
        return 0;
    };
    let pairs = one.lines().zip(other.lines());
    pairs.take_while(|(one, other)| one == other).count()
}

fn shown(output: &Output, from: usize) -> String {
    let (Ok(text) | Err(text)) = output;
    let mut lines = text.lines().skip(from);
    let mut shown: String = lines
        .by_ref()
        .take(LINES)
        .map(|line| format!("  {line}\n"))
        .collect();
    match lines.count() {
        0 => {}
        more => writeln!(shown, "  and {more} more").unwrap(),
    }
    shown
}

#[test]
fn two_outputs_are_told_from_where_they_differ() {
    let told = |other: &str| {
        let outputs = [
            ("one", Ok("9 0\n0 8\n".to_owned())),
            ("other", Ok(other.to_owned())),
        ];
        disagreement("a sheet", &[3, 0x87], outputs)
    };
    assert_eq!(told("9 0\n0 8\n"), None);
    let expected = "a sheet, 2 bytes:\n  03 87\none, from line 2:\n  0 8\nother, from line 2:\n";
    assert_eq!(told("9 0\n").as_deref(), Some(expected));
}
