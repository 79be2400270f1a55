//! Many sheets, by both programs.

use crate::panics::caught;
use crate::program;
use crate::rng::Rng;
use crate::sheets::{sheet, Sheet};
use crate::tally::Tally;
use crate::told::disagreement;
use crate::watch::{watched, Watch};
use reference::sheet::{run as second, Outcome};

const WORKERS: u64 = 2;
/// Where a sheet on which they disagree is left.
const KEPT: &str = concat!(env!("CARGO_TARGET_TMPDIR"), "/disagreement.sheet");

/// What so many sheets met, or the first disagreement found.
pub fn run(seed: u64, sheets: u64) -> Result<Tally, String> {
    let parts = watched(WORKERS, move |worker, watch| {
        share(seed, sheets, worker, watch)
    });
    let mut all = Tally::default();
    for part in parts {
        all.add(part?);
    }
    Ok(all)
}

/// Every second sheet of two workers, and so on.
fn share(seed: u64, sheets: u64, worker: u64, watch: &Watch) -> Result<Tally, String> {
    let mut tally = Tally::default();
    let places = (worker..sheets).step_by(WORKERS as usize);
    for place in places.take_while(|&place| watch.begins(worker, place)) {
        let sheet = sheet(&mut Rng::new(seed.wrapping_add(place << 32)));
        let outcome = agreed(&sheet).map_err(|told| {
            watch.stop();
            std::fs::write(KEPT, &sheet.bytes).expect("the folder takes it");
            format!("seed {seed:#x}, sheet {place}: {told}kept as {KEPT}\n")
        })?;
        tally.count(&sheet, &outcome);
    }
    Ok(tally)
}

/// What both programs make of the sheet, or how they disagree.
fn agreed(sheet: &Sheet) -> Result<Outcome, String> {
    let outcome = caught(|| second(&sheet.bytes));
    let printed = outcome
        .as_ref()
        .map(Outcome::to_string)
        .map_err(Clone::clone);
    let outputs = [
        ("the second program", printed),
        ("the program", program::printed(&sheet.bytes)),
    ];
    if let Some(told) = disagreement(&sheet.made, &sheet.bytes, outputs) {
        return Err(told);
    }
    let outcome = outcome?;
    match sheet.surprise(&outcome) {
        None => Ok(outcome),
        Some(why) => Err(format!("{}: {why}, but both print {outcome}", sheet.made)),
    }
}
