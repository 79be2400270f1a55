//! A bench on which both programs stand side by side and take the same turns.

use crate::calls::{on_model, on_second, Call, Memory, Outcome};
use crate::compare;
use crate::layout::{
    first_page_of_bank, image_page, words_of, words_of_data_page, DATA_PAGES, PAGE_WORDS,
};
use crate::panics::caught;
use crate::rng::Rng;
use crate::slots;
use reference::interface::{fields, flat, to_reference};
use reference::model::{self, Controller};
use std::ops::Range;

/// Both memories are compared whole at least once in so many turns.
const TURNS_BETWEEN_WHOLE_LOOKS: u32 = 64;
/// Room past the longest right image, so that images can be too long by two pages.
const IMAGE_ROOM: usize = 2 * PAGE_WORDS as usize;
pub const BUFFER_WORDS: usize = 1_040;

/// What a run starts with. The image holds what its seed gives.
#[derive(Clone, Debug)]
pub struct Start {
    pub controller: flat::Controller,
    /// The largest D whose image fits.
    pub max_data_pages: u32,
    pub image_seed: u64,
}

/// A field of the flat controller that the bench itself writes.
#[derive(Clone, Copy, Debug, PartialEq, Eq)]
pub struct Write {
    pub field: usize,
    pub value: u32,
}

/// Two data pages that the bench itself fills with the slots that the seed gives.
#[derive(Clone, Copy, Debug)]
pub struct Filled {
    pub pages: [u32; 2],
    pub seed: u64,
}

/// A call, made after the bench has written some fields of the state or filled two pages.
#[derive(Clone, Debug)]
pub struct Turn {
    pub writes: Vec<Write>,
    pub filled: Option<Filled>,
    pub call: Call,
}

/// The call alone.
impl From<Call> for Turn {
    fn from(call: Call) -> Self {
        Turn {
            writes: Vec::new(),
            filled: None,
            call,
        }
    }
}

/// What a turn met and what it gave.
pub struct Taken {
    pub outcome: Outcome,
    /// The state that the call met, and the one that it left.
    pub before: flat::Controller,
    pub after: flat::Controller,
    /// The words that the operation then in progress had moved by steps since its start, if all of them so.
    pub stepped: Option<u32>,
}

/// Changes what the second program answered; tests of the comparison itself use it.
pub type Alter = fn(&Call, &mut Outcome);

pub fn unaltered(_: &Call, _: &mut Outcome) {}

#[derive(Clone)]
pub struct Bench {
    flat: flat::Controller,
    second: Option<Controller>,
    model_memory: Memory,
    second_memory: Memory,
    turns: u32,
    stepped: Option<u32>,
    alter: Alter,
}

impl Bench {
    pub fn new(start: &Start, alter: Alter) -> Self {
        let memory = Memory {
            image: Rng::new(start.image_seed).flash_words(image_room(start.max_data_pages)),
            buffer: vec![0; BUFFER_WORDS],
        };
        Bench {
            flat: start.controller,
            second: to_reference(&start.controller),
            model_memory: memory.clone(),
            second_memory: memory,
            turns: 0,
            stepped: None,
            alter,
        }
    }

    pub fn flat(&self) -> &flat::Controller {
        &self.flat
    }

    /// The second program's state, if it is valid.
    pub fn state(&self) -> Option<&Controller> {
        self.second.as_ref().filter(|c| model::is_valid(c))
    }

    /// The proved model's image.
    pub fn image(&self) -> &[u32] {
        &self.model_memory.image
    }

    /// Takes a turn on both programs and compares all they leave. A state that
    /// the bench has broken is mended after the call.
    pub fn take(&mut self, turn: &Turn) -> Result<Taken, String> {
        let mended = (self.flat, self.second.clone());
        self.write(&turn.writes);
        if let Some(filled) = &turn.filled {
            self.fill(filled);
        }
        let taken = self.call(&turn.call)?;
        if !turn.writes.is_empty() && self.state().is_none() {
            (self.flat, self.second) = mended;
        }
        Ok(taken)
    }

    /// The flat controller as the writes leave it.
    pub fn flat_after(&self, writes: &[Write]) -> flat::Controller {
        let mut flat = self.flat;
        for write in writes {
            fields::all()[write.field].set(&mut flat, write.value);
        }
        flat
    }

    fn write(&mut self, writes: &[Write]) {
        if !writes.is_empty() {
            self.stepped = None;
            self.flat = self.flat_after(writes);
            self.second = to_reference(&self.flat);
        }
    }

    /// Pages that do not exist stay out of it.
    fn fill(&mut self, filled: &Filled) {
        let d = self.flat.data_pages;
        let drawn = slots::two_pages(&mut Rng::new(filled.seed));
        for (page, words) in filled.pages.into_iter().zip(drawn) {
            if !DATA_PAGES.contains(&d) || page >= 2 * d {
                continue;
            }
            for memory in [&mut self.model_memory, &mut self.second_memory] {
                if let Some(place) = memory.image.get_mut(words_of_data_page(d, page)) {
                    place.copy_from_slice(&words);
                }
            }
        }
    }

    fn call(&mut self, call: &Call) -> Result<Taken, String> {
        let before = self.flat;
        let model = on_model(call, &mut self.flat, &mut self.model_memory);
        let second = self.call_second(call)?;
        self.turns += 1;
        compare::outcomes(call, &model, &second)?;
        compare::states(call, model.answer, &before, &self.flat, &self.second)?;
        self.compare_memory(call, &model, &before)?;
        let stepped = self.stepped;
        self.count_steps(&before, &model);
        Ok(Taken {
            outcome: model,
            before,
            after: self.flat,
            stepped,
        })
    }

    fn count_steps(&mut self, before: &flat::Controller, outcome: &Outcome) {
        if self.flat.progress.running > before.progress.running {
            self.stepped = Some(self.flat.progress.moved);
        } else if outcome.movement == flat::MOVEMENT_MOVED {
            self.stepped = self.stepped.map(|words| words + 1);
        }
    }

    fn call_second(&mut self, call: &Call) -> Result<Outcome, String> {
        let (state, memory) = (&mut self.second, &mut self.second_memory);
        let alter = self.alter;
        let answered = caught(|| {
            let mut outcome = on_second(call, state, memory);
            alter(call, &mut outcome);
            outcome
        });
        answered.map_err(|message| format!("the second program panics: {message}"))
    }

    /// The words that the call may change; whole after a refusal, at an operation's end and from time to time.
    fn compare_memory(
        &self,
        call: &Call,
        outcome: &Outcome,
        before: &flat::Controller,
    ) -> compare::Compared {
        let (model, second) = (&self.model_memory, &self.second_memory);
        let ends = match call {
            Call::Step { .. } | Call::Round { .. } => outcome.movement == flat::MOVEMENT_FINISHED,
            Call::Run { .. } | Call::Rma { .. } => true,
            Call::RunFor { .. } | Call::WriteScan { .. } | Call::TakeScan { .. } => true,
            _ => false,
        };
        if outcome.answer != 0 || ends || self.turns.is_multiple_of(TURNS_BETWEEN_WHOLE_LOOKS) {
            return compare::memories(model, second);
        }
        match call {
            Call::Step { .. } | Call::Round { .. } if outcome.movement != flat::MOVEMENT_NONE => {
                compare::part(model, second, page_at_work(before))
            }
            Call::View { .. } => compare::part(model, second, outcome.view.clone()),
            _ => Ok(()),
        }
    }
}

fn image_room(max_data_pages: u32) -> usize {
    model::image_words(max_data_pages) as usize + IMAGE_ROOM
}

/// The image's page that holds the word which a step of this state changes.
fn page_at_work(c: &flat::Controller) -> Range<usize> {
    let operation = &c.progress.operation;
    let address = operation.address;
    let page = match operation.kind {
        flat::READ => return 0..0,
        flat::BANK_ERASE => {
            first_page_of_bank(c.data_pages, address) + c.progress.moved / PAGE_WORDS
        }
        _ => image_page(c.data_pages, operation, address),
    };
    words_of(page)
}

/// Bank 1 begins at bus word 7,424 and the creator page at 4,352 where D is 16.
#[test]
fn the_page_at_work_is_where_01_puts_it() {
    let at = |kind, partition, info_type, address, moved| {
        let mut c = flat::Controller {
            data_pages: 16,
            ..flat::Controller::default()
        };
        c.progress.operation = flat::Operation {
            address,
            kind,
            partition,
            info_type,
            ..flat::Operation::default()
        };
        c.progress.moved = moved;
        page_at_work(&c).start
    };
    assert_eq!(at(flat::PROGRAM, 0, 0, 0x4000, 0), 7_424);
    assert_eq!(at(flat::PROGRAM, 1, 0, 0x0400, 0), 4_352);
    assert_eq!(at(flat::PAGE_ERASE, 1, 2, 0x4400, 9), 7_424 + 28 * 256);
    assert_eq!(at(flat::BANK_ERASE, 1, 9, 0x4000, 257), 7_424 + 256);
}
