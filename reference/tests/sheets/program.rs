//! The proved model's own program, as it is run: bytes in, lines out.

use crate::told::Output;
use std::ffi::OsString;
use std::io::{ErrorKind, Write};
use std::process::{Child, Command, Stdio};
use std::time::Duration;

/// Names another program.
const VARIABLE: &str = "LURGABEL_SHEET";
const BUILT: &str = concat!(env!("CARGO_MANIFEST_DIR"), "/../target/bin/sheet");
/// Long enough for the program to have read what is there.
const PAUSE: Duration = Duration::from_millis(100);

pub fn printed(sheet: &[u8]) -> Output {
    printed_of([sheet])
}

/// The same of a sheet whose parts come one after the other, with pauses.
pub fn printed_of<'a>(parts: impl IntoIterator<Item = &'a [u8]>) -> Output {
    let mut child = started();
    give(&mut child, parts);
    let output = child
        .wait_with_output()
        .map_err(|error| error.to_string())?;
    if !output.status.success() || !output.stderr.is_empty() {
        let said = String::from_utf8_lossy(&output.stderr);
        return Err(format!("{}: {said}", output.status));
    }
    String::from_utf8(output.stdout).map_err(|error| error.to_string())
}

fn started() -> Child {
    let path = std::env::var_os(VARIABLE).unwrap_or_else(|| OsString::from(BUILT));
    let command = Command::new(&path)
        .stdin(Stdio::piped())
        .stdout(Stdio::piped())
        .stderr(Stdio::piped())
        .spawn();
    command.unwrap_or_else(|error| {
        panic!(
            "{}: {error}: run `./lurgabel sheet FILE` first",
            path.display()
        )
    })
}

/// A program that has seen enough may close its input before the sheet's end.
fn give<'a>(child: &mut Child, parts: impl IntoIterator<Item = &'a [u8]>) {
    let mut input = child.stdin.take().expect("its input is a pipe");
    for (number, part) in parts.into_iter().enumerate() {
        if number > 0 {
            std::thread::sleep(PAUSE);
        }
        if let Err(error) = input.write_all(part) {
            assert_eq!(error.kind(), ErrorKind::BrokenPipe, "{error}");
        }
    }
}
