//! What must be alike after a call: the answer and its values, the state, and
//! the lent memory.

use crate::calls::{Call, Memory, Outcome};
use crate::layout::WORD_BYTES;
use crate::pages::readable_words;
use crate::{deciders, table};
use reference::interface::{fields, flat, from_reference, to_reference};
use reference::model::{self, Controller};
use std::ops::Range;

/// Why the two programs, or the model and 01, do not agree.
pub type Compared = Result<(), String>;

pub fn outcomes(call: &Call, model: &Outcome, second: &Outcome) -> Compared {
    if model != second {
        return Err(format!(
            "the model gives {}, the second program {}",
            model.shown(),
            second.shown()
        ));
    }
    let broken = table::broken_rule(call, model).or_else(|| deciders::broken_rule(call, model));
    match broken {
        Some(rule) => Err(rule),
        None => Ok(()),
    }
}

/// The state that the model leaves: number for number what 01 and the header
/// leave, and the second program's.
pub fn states(
    call: &Call,
    answer: u32,
    before: &flat::Controller,
    after: &flat::Controller,
    second: &Option<Controller>,
) -> Compared {
    let left = left_by(call, answer, before, second);
    if *after != left {
        return Err(differences(after, &left));
    }
    let model = to_reference(after);
    if model != *second {
        return Err(told(&model, second));
    }
    Ok(())
}

fn told(model: &Option<Controller>, second: &Option<Controller>) -> String {
    match (model, second) {
        (Some(model), Some(second)) => differences(&from_reference(model), &from_reference(second)),
        _ => "one leaves a state that encodes nothing, the other does not".to_owned(),
    }
}

fn differences(model: &flat::Controller, expected: &flat::Controller) -> String {
    let told = fields::differences(model, expected)
        .into_iter()
        .map(|(field, model, other)| format!("{field} is {model:#x} and should be {other:#x}"));
    told.collect::<Vec<_>>().join(", ")
}

/// The flat controller that a call leaves, from the one before it and, where
/// the call changes it, from the second program's. Past a queue's length the
/// second program has zeros once it has used the queue, and leaves what stands
/// there otherwise.
fn left_by(
    call: &Call,
    answer: u32,
    before: &flat::Controller,
    second: &Option<Controller>,
) -> flat::Controller {
    if !changes_state(call, answer) {
        return *before;
    }
    if answer != 0 && !is_cut_read(call, answer) {
        return recorded(call, answer, before);
    }
    let Some(second) = second else {
        // Reset alone changes a state that encodes nothing.
        return *before;
    };
    let mut left = from_reference(second);
    if !starts_or_ends(call, before, &left) {
        keep_unused_progress(before, &mut left);
    }
    if is_cut_read(call, answer) {
        cut(call, before, &mut left);
    }
    left
}

/// Accepted, or recorded: every other refusal leaves all unchanged.
fn changes_state(call: &Call, answer: u32) -> bool {
    let recorded = call.operation().is_some() && is_recorded(answer);
    answer == 0 || recorded
}

fn is_recorded(answer: u32) -> bool {
    [
        model::MALFORMED,
        model::OUT_OF_RANGE,
        model::CROSSES_WINDOW,
        model::DENIED,
    ]
    .map(u32::from)
    .contains(&answer)
}

/// A denied read still starts.
fn is_cut_read(call: &Call, answer: u32) -> bool {
    let read = call.operation().is_some_and(|o| o.kind == flat::READ);
    read && answer == u32::from(model::DENIED)
}

/// The last address is that of the first denied word; a start leaves how many come before it.
fn cut(call: &Call, before: &flat::Controller, left: &mut flat::Controller) {
    let read = call.operation().expect("a read is an operation");
    let readable = readable_words(before, &read).expect("it passes all but 9");
    left.last_address = read.address + WORD_BYTES * readable;
    if left.progress.running == 1 {
        left.progress.readable = readable;
    }
}

/// The kind joins the recorded ones, the address becomes the last one, nothing else changes.
fn recorded(call: &Call, answer: u32, before: &flat::Controller) -> flat::Controller {
    let operation = call.operation().expect("only operations are recorded");
    flat::Controller {
        recorded: before.recorded | 1 << answer,
        last_address: operation.address,
        ..*before
    }
}

/// A whole operation starts and ends within its call: `running` is 0 before and after, and the rest stays as given.
/// Calls with a number of steps start and end operations as their parts do.
fn starts_or_ends(call: &Call, before: &flat::Controller, left: &flat::Controller) -> bool {
    let by_parts = matches!(
        call,
        Call::Reset { .. } | Call::RunFor { .. } | Call::WriteScan { .. } | Call::TakeScan { .. }
    );
    by_parts || before.progress.running != left.progress.running
}

/// No rule looks at these, so they stay as given.
fn keep_unused_progress(before: &flat::Controller, left: &mut flat::Controller) {
    if left.progress.running == 0 {
        left.progress = before.progress;
    } else if left.progress.operation.kind != flat::READ {
        left.progress.readable = before.progress.readable;
    }
}

/// The image and the buffer, whole.
pub fn memories(model: &Memory, second: &Memory) -> Compared {
    words("image", &model.image, &second.image, 0)?;
    words("buffer", &model.buffer, &second.buffer, 0)
}

/// A part of the image.
pub fn part(model: &Memory, second: &Memory, range: Range<usize>) -> Compared {
    let start = range.start;
    words(
        "image",
        &model.image[range.clone()],
        &second.image[range],
        start,
    )
}

fn words(what: &str, model: &[u32], second: &[u32], start: usize) -> Compared {
    if model == second {
        return Ok(());
    }
    let differs = model.iter().zip(second).position(|(a, b)| a != b);
    let place = differs.expect("both have one length");
    let (model, second) = (model[place], second[place]);
    Err(format!(
        "{what} word {}: the model has {model:#010x}, the second program {second:#010x}",
        start + place
    ))
}
