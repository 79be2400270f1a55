//! The calls of documents 01 and 02 with their arguments, made on the proved model
//! through its C interface and on the second program.

use crate::layout::PAGE_WORDS;
use crate::rng::Rng;
use reference::interface::{
    asked_byte, asked_flag, asked_operation, asked_region, asked_setting, calls as library,
    decider_number, flat,
};
use reference::model::{self, Controller};
use std::ops::Range;

/// Image lengths are in bus words; a buffer holds what its seed gives before the call,
/// and so does a scan that is written.
#[derive(Clone, Debug)]
pub enum Call {
    Reset {
        data_pages: u32,
    },
    SetInputs {
        provision_enabled: u32,
        seeds_locked: u32,
    },
    SetRegion {
        number: u32,
        region: flat::Region,
    },
    SetDefaultRights {
        rights: u32,
    },
    SetInfoPage {
        bank: u32,
        info_type: u32,
        page: u32,
        setting: flat::PageSetting,
    },
    SetBankErase {
        bank: u32,
        on: u32,
    },
    ClearErrors,
    Initialise {
        image_words: usize,
    },
    Start {
        operation: flat::Operation,
    },
    Step {
        image_words: usize,
    },
    Push {
        word: u32,
    },
    Pop,
    Run {
        operation: flat::Operation,
        image_words: usize,
        buffer_words: usize,
        buffer_seed: u64,
    },
    HostRead {
        address: u32,
        image_words: usize,
    },
    View {
        page: u32,
        image_words: usize,
    },
    Round {
        asked: AskedInRound,
        image_words: usize,
    },
    Rma {
        image_words: usize,
    },
    RunFor {
        operation: flat::Operation,
        image_words: usize,
        buffer_words: usize,
        buffer_seed: u64,
        steps: u32,
    },
    WriteScan {
        pages: [u32; 2],
        length: usize,
        bytes_seed: u64,
        image_words: usize,
        steps: u32,
    },
    TakeScan {
        pages: [u32; 2],
        image_words: usize,
        steps: u32,
    },
}

/// The address of a host that does not ask is given as well.
#[derive(Clone, Copy, Debug)]
pub struct AskedInRound {
    pub host_asks: u32,
    pub host_address: u32,
    pub step_asks: u32,
}

impl Call {
    /// The operation that the call asks for, whole or in parts.
    pub fn operation(&self) -> Option<flat::Operation> {
        match self {
            Call::Start { operation }
            | Call::Run { operation, .. }
            | Call::RunFor { operation, .. } => Some(*operation),
            _ => None,
        }
    }

    /// A call for scans with another number of steps.
    pub fn with_steps(&self, number: u32) -> Call {
        let mut call = self.clone();
        if let Call::WriteScan { steps, .. } | Call::TakeScan { steps, .. } = &mut call {
            *steps = number;
        }
        call
    }

    /// The pages of a call for scans.
    pub fn scan_pages(&self) -> Option<[u32; 2]> {
        match self {
            Call::WriteScan { pages, .. } | Call::TakeScan { pages, .. } => Some(*pages),
            _ => None,
        }
    }
}

/// The bytes of a scan: often such as an erased word has.
pub fn scan_bytes(seed: u64, length: usize) -> Vec<u8> {
    let words = Rng::new(seed).flash_words(length.div_ceil(4));
    let bytes = words.into_iter().flat_map(u32::to_le_bytes);
    bytes.take(length).collect()
}

/// The lent memory of one program.
#[derive(Clone, PartialEq, Eq)]
pub struct Memory {
    pub image: Vec<u32>,
    pub buffer: Vec<u32>,
}

impl Memory {
    fn image(&mut self, words: usize) -> &mut [u32] {
        let words = words.min(self.image.len());
        &mut self.image[..words]
    }

    /// The image and the buffer of a whole operation, the buffer newly filled.
    fn lend(
        &mut self,
        image_words: usize,
        buffer_words: usize,
        buffer_seed: u64,
    ) -> (&mut [u32], &mut [u32]) {
        self.buffer = Rng::new(buffer_seed).flash_words(self.buffer.len());
        let image_words = image_words.min(self.image.len());
        let buffer_words = buffer_words.min(self.buffer.len());
        (
            &mut self.image[..image_words],
            &mut self.buffer[..buffer_words],
        )
    }
}

/// The answer number and all values of a call; what it does not give is 0.
#[derive(Clone, Debug, Default, PartialEq, Eq)]
pub struct Outcome {
    /// Of a round its step's, or its host's if no step is asked.
    pub answer: u32,
    /// The number of who decided, 255 for nobody; None of a call that reports none, and of a round, which tells its host's.
    pub decider: Option<u32>,
    pub word: u32,
    pub bits: u32,
    pub movement: u32,
    /// The steps that were not used.
    pub left: u32,
    pub cut: u32,
    pub seeds: flat::Seeds,
    /// The words of the image that a view shows.
    pub view: Range<usize>,
    /// All that a round tells.
    pub round: flat::Rounded,
    /// All that a take tells.
    pub taken: flat::ScanTaken,
}

impl Outcome {
    pub fn answer(answer: u8) -> Self {
        Outcome {
            answer: answer.into(),
            ..Outcome::default()
        }
    }

    /// The answer, and the values that are not 0.
    pub fn shown(&self) -> String {
        let mut text = format!("answer {}", self.answer);
        if let Some(decider) = self.decider.filter(|number| *number != flat::NO_DECIDER) {
            text += &format!(", decider {decider}");
        }
        for (name, value) in [
            ("word", self.word),
            ("bits", self.bits),
            ("movement", self.movement),
            ("left", self.left),
            ("cut", self.cut),
        ] {
            if value != 0 {
                text += &format!(", {name} {value:#x}");
            }
        }
        if self.seeds != flat::Seeds::default() {
            text += &format!(", {:?}", self.seeds);
        }
        if self.view != (0..0) {
            text += &format!(", view {:?}", self.view);
        }
        if self.round != flat::Rounded::default() {
            text += &format!(", {:?}", self.round);
        }
        if self.taken != flat::ScanTaken::default() {
            text += &format!(", {:?}", self.taken);
        }
        text
    }
}

pub fn on_model(call: &Call, c: &mut flat::Controller, memory: &mut Memory) -> Outcome {
    let answer = match *call {
        Call::Reset { data_pages } => library::reset(c, data_pages),
        Call::SetInputs {
            provision_enabled,
            seeds_locked,
        } => library::set_inputs(c, provision_enabled, seeds_locked),
        Call::SetRegion { number, region } => library::set_region(c, number, region),
        Call::SetDefaultRights { rights } => library::set_default_rights(c, rights),
        Call::SetInfoPage {
            bank,
            info_type,
            page,
            setting,
        } => library::set_info_page(c, bank, info_type, page, setting),
        Call::SetBankErase { bank, on } => library::set_bank_erase(c, bank, on),
        Call::ClearErrors => library::clear_errors(c),
        Call::Push { word } => library::push(c, word),
        Call::Rma { image_words } => library::rma(c, memory.image(image_words)),
        _ => return on_model_with_values(call, c, memory),
    };
    Outcome {
        answer,
        ..Outcome::default()
    }
}

/// The calls that hand out more than their answer.
fn on_model_with_values(call: &Call, c: &mut flat::Controller, memory: &mut Memory) -> Outcome {
    match *call {
        Call::Initialise { image_words } => {
            let given = library::initialise(c, memory.image(image_words));
            Outcome {
                answer: given.answer,
                seeds: given.seeds,
                ..Outcome::default()
            }
        }
        Call::Start { operation } => started(library::start(c, operation)),
        Call::Step { image_words } => stepped(library::step(c, memory.image(image_words))),
        Call::Run {
            operation,
            image_words,
            buffer_words,
            buffer_seed,
        } => {
            let (image, buffer) = memory.lend(image_words, buffer_words, buffer_seed);
            completed(library::run(c, image, operation, buffer))
        }
        Call::Pop => fetched(library::pop(c)),
        Call::HostRead {
            address,
            image_words,
        } => host_fetched(library::host_read(c, memory.image(image_words), address)),
        Call::View { page, image_words } => {
            viewed(library::view(c, memory.image(image_words), page))
        }
        Call::Round { asked, image_words } => rounded(library::round(
            c,
            memory.image(image_words),
            asked.host_asks,
            asked.host_address,
            asked.step_asks,
        )),
        Call::RunFor {
            operation,
            image_words,
            buffer_words,
            buffer_seed,
            steps,
        } => {
            let (image, buffer) = memory.lend(image_words, buffer_words, buffer_seed);
            ran_for(library::run_for(c, image, operation, buffer, steps))
        }
        Call::WriteScan {
            pages,
            length,
            bytes_seed,
            image_words,
            steps,
        } => {
            let bytes = scan_bytes(bytes_seed, length);
            let image = memory.image(image_words);
            scan_written(library::write_scan_for(c, image, pages, &bytes, steps))
        }
        Call::TakeScan {
            pages,
            image_words,
            steps,
        } => {
            let image = memory.image(image_words);
            scan_taken(library::take_scan_for(c, image, pages, steps))
        }
        _ => unreachable!("it hands out its answer alone"),
    }
}

fn started(given: flat::Started) -> Outcome {
    Outcome {
        answer: given.answer,
        decider: Some(given.decider),
        ..Outcome::default()
    }
}

fn completed(given: flat::Completed) -> Outcome {
    Outcome {
        answer: given.answer,
        decider: Some(given.decider),
        bits: given.bits,
        ..Outcome::default()
    }
}

fn stepped(given: flat::Stepped) -> Outcome {
    Outcome {
        answer: given.answer,
        movement: given.movement,
        bits: given.bits,
        ..Outcome::default()
    }
}

fn fetched(given: flat::Fetched) -> Outcome {
    Outcome {
        answer: given.answer,
        word: given.word,
        ..Outcome::default()
    }
}

fn host_fetched(given: flat::HostFetched) -> Outcome {
    Outcome {
        answer: given.answer,
        decider: Some(given.decider),
        word: given.word,
        ..Outcome::default()
    }
}

/// Refused, the view is empty.
fn viewed(given: flat::Viewed) -> Outcome {
    let start = given.start as usize;
    let length = if given.answer == 0 { PAGE_WORDS } else { 0 } as usize;
    Outcome {
        answer: given.answer,
        decider: Some(given.decider),
        view: start..start + length,
        ..Outcome::default()
    }
}

fn rounded(given: flat::Rounded) -> Outcome {
    let step_asked = given.step_turn != flat::TURN_UNASKED;
    Outcome {
        answer: if step_asked {
            given.step_answer
        } else {
            given.host_answer
        },
        movement: given.movement,
        round: given,
        ..Outcome::default()
    }
}

fn ran_for(given: flat::RanFor) -> Outcome {
    Outcome {
        answer: given.answer,
        decider: Some(given.decider),
        bits: given.bits,
        left: given.left,
        cut: given.cut,
        ..Outcome::default()
    }
}

fn scan_written(given: flat::ScanWritten) -> Outcome {
    Outcome {
        answer: given.answer,
        cut: given.cut,
        ..Outcome::default()
    }
}

fn scan_taken(given: flat::ScanTaken) -> Outcome {
    Outcome {
        answer: given.answer,
        cut: given.cut,
        taken: given,
        ..Outcome::default()
    }
}

/// None is a state that encodes nothing: only reset takes it, and every other
/// call finds it as invalid as the default is.
pub fn on_second(call: &Call, state: &mut Option<Controller>, memory: &mut Memory) -> Outcome {
    if let Call::Reset { data_pages } = *call {
        return reset_any(state, data_pages);
    }
    let mut invalid = Controller::default();
    let c = state.as_mut().unwrap_or(&mut invalid);
    match *call {
        Call::SetInputs {
            provision_enabled,
            seeds_locked,
        } => Outcome::answer(model::set_inputs(
            c,
            asked_flag(provision_enabled),
            asked_flag(seeds_locked),
        )),
        Call::SetRegion { number, region } => {
            Outcome::answer(model::set_region(c, number, asked_region(region)))
        }
        Call::SetDefaultRights { rights } => {
            Outcome::answer(model::set_default_rights(c, asked_byte(rights)))
        }
        Call::SetInfoPage {
            bank,
            info_type,
            page,
            setting,
        } => Outcome::answer(model::set_info_page(
            c,
            bank,
            asked_byte(info_type),
            page,
            asked_setting(setting),
        )),
        Call::SetBankErase { bank, on } => {
            Outcome::answer(model::set_bank_erase_permission(c, bank, asked_flag(on)))
        }
        Call::ClearErrors => Outcome::answer(model::clear(c)),
        Call::Push { word } => Outcome::answer(model::push(c, word)),
        Call::Rma { image_words } => Outcome::answer(model::rma(c, memory.image(image_words))),
        _ => on_second_with_values(call, c, memory),
    }
}

fn on_second_with_values(call: &Call, c: &mut Controller, memory: &mut Memory) -> Outcome {
    match *call {
        Call::Initialise { image_words } => seeded(model::initialise(c, memory.image(image_words))),
        Call::Start { operation } => started(model::start(c, asked_operation(operation)).into()),
        Call::Step { image_words } => stepped(model::step(c, memory.image(image_words)).into()),
        Call::Run {
            operation,
            image_words,
            buffer_words,
            buffer_seed,
        } => {
            let (image, buffer) = memory.lend(image_words, buffer_words, buffer_seed);
            completed(model::whole(c, asked_operation(operation), image, buffer).into())
        }
        Call::Pop => fetched(model::pop(c).into()),
        Call::HostRead {
            address,
            image_words,
        } => host_fetched(model::host_read(c, memory.image(image_words), address).into()),
        Call::View { page, image_words } => {
            let given = model::view(c, memory.image(image_words), page);
            Outcome {
                decider: Some(decider_number(given.decider)),
                view: given.start..given.start + given.length,
                ..Outcome::answer(given.refusal)
            }
        }
        Call::Round { asked, image_words } => {
            let host = asked_flag(asked.host_asks).then_some(asked.host_address);
            let steps = asked_flag(asked.step_asks);
            rounded(model::round(c, memory.image(image_words), host, steps).into())
        }
        Call::RunFor {
            operation,
            image_words,
            buffer_words,
            buffer_seed,
            steps,
        } => {
            let (image, buffer) = memory.lend(image_words, buffer_words, buffer_seed);
            ran_for(model::run_for(c, asked_operation(operation), image, buffer, steps).into())
        }
        Call::WriteScan {
            pages,
            length,
            bytes_seed,
            image_words,
            steps,
        } => {
            let bytes = scan_bytes(bytes_seed, length);
            let image = memory.image(image_words);
            scan_written(model::write_scan(c, image, pages, &bytes, steps).into())
        }
        Call::TakeScan {
            pages,
            image_words,
            steps,
        } => scan_taken(model::take_scan(c, memory.image(image_words), pages, steps).into()),
        _ => unreachable!("it hands out its answer alone"),
    }
}

/// Reset takes any state, also one that encodes nothing.
fn reset_any(state: &mut Option<Controller>, data_pages: u32) -> Outcome {
    let mut c = state.clone().unwrap_or_default();
    let answer = model::reset(&mut c, data_pages);
    if answer == model::NONE {
        *state = Some(c);
    }
    Outcome::answer(answer)
}

fn seeded(given: model::Initialised) -> Outcome {
    Outcome {
        seeds: flat::Seeds {
            creator: given.creator_seed,
            owner: given.owner_seed,
            given: given.seeds_given.into(),
        },
        ..Outcome::answer(given.refusal)
    }
}
