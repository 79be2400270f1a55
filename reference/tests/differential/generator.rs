//! Chooses turns by the state that a run is in, so that runs go deep and every
//! call meets every answer it can.

use crate::arguments::{scan_length, Arguments};
use crate::bench::{Bench, Filled, Start, Turn, Write};
use crate::calls::Call;
use crate::layout::{bank_pages, DATA_PAGES, PAGE_BYTES, PAGE_WORDS};
use crate::rng::Rng;
use crate::states;
use reference::interface::{flat, to_reference};
use reference::model::{self, Controller, InProgress, Phase};

/// Small D, whose images are quick to compare; at D = 10 a bank's addresses end with its type 0 pages.
const SMALL_DATA_PAGES: [u32; 8] = [10, 10, 10, 11, 11, 12, 13, 16];
/// The first episodes are short ones, of every D.
const SWEEP: u64 = (*DATA_PAGES.end() - *DATA_PAGES.start() + 1) as u64;
const SWEEP_LENGTH: u32 = 40;
/// After them, one episode in so many takes the next D of all.
const EPISODES_PER_SWEPT_D: u64 = 3;
/// One episode in so many, an odd number for two workers, runs bank erases by steps to their end.
const EPISODES_PER_LONG_ONE: u64 = 121;
const LONG_LENGTH: u32 = 10_000;
/// One episode in so many, an odd number as well, runs whole operations.
const EPISODES_PER_WHOLE_ONE: u64 = 25;
/// The rhythm of steps against pushes or pops changes about every so many turns.
const TURNS_PER_RHYTHM: u32 = 40;
/// Weights of steps and of pushes or pops.
const RHYTHMS: [(u32, u32); 3] = [(700, 150), (420, 420), (150, 700)];

/// How one episode goes.
#[derive(Clone, Copy, Debug, PartialEq, Eq)]
enum Mode {
    /// Everything is tried.
    Mixed,
    /// Bank erases run to their end, nearly undisturbed.
    BankErases,
    /// Whole operations between settings.
    WholeOperations,
}

/// What a run is in the middle of.
#[derive(Clone, Copy, Debug, PartialEq, Eq)]
enum Situation {
    Invalid,
    Uninitialised,
    Idle,
    Reading,
    Programming,
    Erasing,
    Disabled,
}

#[derive(Clone, Copy, Debug, PartialEq, Eq)]
enum Choice {
    Reset,
    Inputs,
    Region,
    DefaultRights,
    InfoPage,
    BankErase,
    Initialise,
    Start,
    Step,
    Push,
    Pop,
    Run,
    HostRead,
    View,
    Clear,
    Rma,
    Round,
    RunFor,
    WriteScan,
    TakeScan,
}

const CHOICES: [Choice; 20] = [
    Choice::Reset,
    Choice::Inputs,
    Choice::Region,
    Choice::DefaultRights,
    Choice::InfoPage,
    Choice::BankErase,
    Choice::Initialise,
    Choice::Start,
    Choice::Step,
    Choice::Push,
    Choice::Pop,
    Choice::Run,
    Choice::HostRead,
    Choice::View,
    Choice::Clear,
    Choice::Rma,
    Choice::Round,
    Choice::RunFor,
    Choice::WriteScan,
    Choice::TakeScan,
];

/// Weights of the choices, in their order; the rhythm sets those that are 0.
fn weights(situation: Situation) -> [u32; 20] {
    match situation {
        Situation::Invalid => [
            500, 30, 30, 30, 30, 30, 30, 30, 30, 30, 30, 30, 30, 30, 30, 30, 30, 10, 10, 10,
        ],
        Situation::Uninitialised => [
            10, 60, 150, 50, 150, 50, 150, 30, 30, 30, 30, 50, 30, 30, 20, 4, 30, 10, 10, 10,
        ],
        Situation::Idle => [
            2, 20, 50, 20, 50, 20, 8, 280, 15, 15, 0, 240, 80, 80, 10, 2, 60, 12, 8, 8,
        ],
        Situation::Reading => [
            1, 6, 6, 6, 6, 6, 4, 10, 0, 6, 0, 10, 30, 30, 6, 4, 0, 2, 2, 2,
        ],
        Situation::Programming => [
            1, 6, 6, 6, 6, 6, 4, 10, 0, 0, 6, 10, 30, 30, 6, 4, 0, 2, 2, 2,
        ],
        Situation::Erasing => [
            1, 4, 4, 4, 4, 4, 4, 8, 900, 6, 10, 8, 20, 20, 6, 4, 400, 2, 2, 2,
        ],
        Situation::Disabled => [
            60, 60, 60, 60, 60, 60, 60, 60, 60, 60, 60, 60, 60, 60, 60, 40, 60, 20, 20, 20,
        ],
    }
}

pub struct Generator {
    rng: Rng,
    mode: Mode,
    rhythm: (u32, u32),
}

impl Generator {
    /// The generator of one episode, the run's start, and its length in calls.
    pub fn of_episode(seed: u64, episode: u64) -> (Self, Start, u32) {
        let mut rng = Rng::new(seed);
        let bank_erases = episode > SWEEP && episode.is_multiple_of(EPISODES_PER_LONG_ONE);
        let data_pages = data_pages_of(&mut rng, episode);
        let (mode, start, length) = if bank_erases {
            let few_pages = rng.pick(&SMALL_DATA_PAGES);
            let start = states::all_rights(&mut rng, few_pages);
            (Mode::BankErases, start, LONG_LENGTH)
        } else if episode < SWEEP {
            let start = states::valid(&mut rng, data_pages);
            (Mode::Mixed, start, SWEEP_LENGTH)
        } else if episode.is_multiple_of(EPISODES_PER_WHOLE_ONE) {
            let few_pages = rng.pick(&SMALL_DATA_PAGES);
            let start = states::valid(&mut rng, few_pages);
            (Mode::WholeOperations, start, rng.between(100, 600))
        } else {
            let start = states::any(&mut rng, data_pages);
            (Mode::Mixed, start, rng.between(100, 600))
        };
        let generator = Generator {
            rng,
            mode,
            rhythm: RHYTHMS[1],
        };
        (generator, start, length)
    }

    pub fn turn(&mut self, bench: &Bench) -> Turn {
        if self.rng.below(TURNS_PER_RHYTHM) == 0 {
            self.rhythm = self.rng.pick(&RHYTHMS);
        }
        match self.mode {
            Mode::Mixed => self.mixed_turn(bench),
            Mode::BankErases => self.bank_erase_turn(bench),
            Mode::WholeOperations => self.whole_operation_turn(bench),
        }
    }

    fn mixed_turn(&mut self, bench: &Bench) -> Turn {
        let situation = situation(bench.state());
        let in_progress = bench.flat().progress.running == 1;
        let valid = situation != Situation::Invalid;
        match self.rng.below(1_000) {
            0..=39 if valid => self.written_turn(bench),
            40..=79 if valid && in_progress => {
                let writes = states::near_its_end(&mut self.rng, bench.flat());
                self.turn_after(bench, writes, Choice::Step)
            }
            80..=84 if valid && !in_progress => {
                let writes = states::settings_written(&mut self.rng, bench.flat());
                let choice = self.choice(bench.state());
                self.turn_after(bench, writes, choice)
            }
            _ => {
                let choice = self.choice(bench.state());
                self.turn_after(bench, Vec::new(), choice)
            }
        }
    }

    /// Any call, on a state that the bench has written to and mostly broken.
    fn written_turn(&mut self, bench: &Bench) -> Turn {
        let flat = bench.flat();
        let reading = situation(bench.state()) == Situation::Reading;
        let writes = match bench.state() {
            Some(state) if self.rng.percent(20) => {
                states::progress_written(&mut self.rng, flat, state)
            }
            Some(_) if reading && self.rng.percent(20) => {
                states::readable_written(&mut self.rng, flat)
            }
            _ => states::fields_written(&mut self.rng, flat),
        };
        let choice = self.rng.pick(&CHOICES);
        self.turn_after(bench, writes, choice)
    }

    fn bank_erase_turn(&mut self, bench: &Bench) -> Turn {
        if situation(bench.state()) == Situation::Erasing {
            let choice = match self.rng.below(200) {
                0 => Choice::HostRead,
                1 => Choice::View,
                2 => Choice::Pop,
                3..=8 => Choice::Round,
                _ => Choice::Step,
            };
            return self.turn_after(bench, Vec::new(), choice);
        }
        let operation = flat::Operation {
            address: self.rng.below(2) * bench.flat().data_pages * PAGE_BYTES,
            count: self.rng.word(),
            kind: flat::BANK_ERASE,
            partition: self.rng.below(2),
            info_type: self.rng.word(),
        };
        Call::Start { operation }.into()
    }

    /// A controller that cannot take a whole operation goes on as in any episode.
    fn whole_operation_turn(&mut self, bench: &Bench) -> Turn {
        let idle = situation(bench.state()) == Situation::Idle;
        if !idle || bench.flat().read_queue.length > 0 {
            return self.mixed_turn(bench);
        }
        let choice = match self.rng.below(20) {
            0 | 1 => Choice::Region,
            2 => Choice::InfoPage,
            3 => self
                .rng
                .pick(&[Choice::DefaultRights, Choice::BankErase, Choice::Inputs]),
            _ => Choice::Run,
        };
        self.turn_after(bench, Vec::new(), choice)
    }

    fn choice(&mut self, state: Option<&Controller>) -> Choice {
        let situation = situation(state);
        let mut weights = weights(situation);
        let place = |choice| CHOICES.iter().position(|c| *c == choice).unwrap();
        let (steps, words) = self.rhythm;
        if matches!(situation, Situation::Reading | Situation::Programming) {
            weights[place(Choice::Step)] = steps;
            weights[place(Choice::Round)] = steps / 2;
        }
        match situation {
            Situation::Reading => weights[place(Choice::Pop)] = words,
            Situation::Programming => weights[place(Choice::Push)] = words,
            Situation::Idle => {
                let held = state.is_some_and(|c| c.read_queue.length > 0);
                weights[place(Choice::Pop)] = if held { words } else { 15 };
            }
            _ => {}
        }
        CHOICES[self.rng.weighted(&weights)]
    }

    /// The arguments suit the state as the writes leave it, its D above all.
    fn turn_after(&mut self, bench: &Bench, writes: Vec<Write>, choice: Choice) -> Turn {
        let flat = bench.flat_after(&writes);
        let state = to_reference(&flat).unwrap_or(Controller {
            data_pages: flat.data_pages,
            ..Controller::default()
        });
        let call = self.call(choice, &state, bench.image().len());
        Turn {
            writes,
            filled: self.filled(bench, &call),
            call,
        }
    }

    /// In most cases a call for scans that may look finds slots in its pages.
    fn filled(&mut self, bench: &Bench, call: &Call) -> Option<Filled> {
        let pages = call.scan_pages()?;
        let seed = self.rng.seed();
        let looks = situation(bench.state()) == Situation::Idle;
        (looks && self.rng.percent(80)).then_some(Filled { pages, seed })
    }

    fn call(&mut self, choice: Choice, state: &Controller, room: usize) -> Call {
        let image_words = self.image_words(state.data_pages, room);
        let rng = &mut self.rng;
        match choice {
            Choice::Reset => Call::Reset {
                data_pages: new_data_pages(rng, state.data_pages, room),
            },
            Choice::Clear => Call::ClearErrors,
            Choice::Initialise => Call::Initialise { image_words },
            Choice::Step => Call::Step { image_words },
            Choice::Push => Call::Push {
                word: rng.flash_word(),
            },
            Choice::Pop => Call::Pop,
            Choice::Rma => Call::Rma { image_words },
            _ => argued(choice, Arguments { rng, state }, image_words),
        }
    }

    /// The right length, rarely a wrong one.
    fn image_words(&mut self, data_pages: u32, room: usize) -> usize {
        let right = model::image_words(data_pages.min(1 << 20)) as usize;
        let words = match self.rng.below(300) {
            0 => right.saturating_sub(1),
            1 => right + 1,
            2 => 0,
            3 => right.saturating_sub(512),
            4 => right + 512,
            5 => self.rng.below(room as u32) as usize,
            _ => right,
        };
        words.min(room)
    }
}

/// Calls whose arguments look at the state.
fn argued(choice: Choice, mut of: Arguments, image_words: usize) -> Call {
    match choice {
        Choice::Inputs => Call::SetInputs {
            provision_enabled: of.flag(),
            seeds_locked: of.flag(),
        },
        Choice::Region => Call::SetRegion {
            number: of.region_number(),
            region: of.region(),
        },
        Choice::DefaultRights => Call::SetDefaultRights {
            rights: of.rights(),
        },
        Choice::InfoPage => {
            let info_type = of.info_type();
            Call::SetInfoPage {
                bank: of.bank(),
                info_type,
                page: of.page_of_type(info_type),
                setting: of.info_setting(),
            }
        }
        Choice::BankErase => Call::SetBankErase {
            bank: of.bank(),
            on: of.flag(),
        },
        Choice::Start => Call::Start {
            operation: of.operation(),
        },
        Choice::Run => {
            let operation = of.operation();
            Call::Run {
                operation,
                image_words,
                buffer_words: of.buffer_words(&operation),
                buffer_seed: of.rng.seed(),
            }
        }
        Choice::HostRead => Call::HostRead {
            address: of.host_address(),
            image_words,
        },
        Choice::View => Call::View {
            page: of.view_page(),
            image_words,
        },
        Choice::Round => Call::Round {
            asked: of.round(),
            image_words,
        },
        Choice::RunFor => {
            let operation = of.operation();
            Call::RunFor {
                operation,
                image_words,
                buffer_words: of.buffer_words(&operation),
                buffer_seed: of.rng.seed(),
                steps: of.steps(&operation),
            }
        }
        Choice::WriteScan => Call::WriteScan {
            pages: of.scan_pages(),
            length: scan_length(of.rng),
            bytes_seed: of.rng.seed(),
            image_words,
            steps: of.write_steps(),
        },
        Choice::TakeScan => Call::TakeScan {
            pages: of.scan_pages(),
            image_words,
            steps: of.rng.pick(&[0, 1, 1, 2, u32::MAX]),
        },
        _ => unreachable!("its arguments do not look at the state"),
    }
}

fn situation(state: Option<&Controller>) -> Situation {
    let Some(state) = state else {
        return Situation::Invalid;
    };
    match (state.phase, state.in_progress) {
        (Phase::Uninitialised, _) => Situation::Uninitialised,
        (Phase::Disabled, _) => Situation::Disabled,
        (Phase::Ready, InProgress::Nothing) => Situation::Idle,
        (Phase::Ready, InProgress::Read { .. }) => Situation::Reading,
        (Phase::Ready, InProgress::Program { .. }) => Situation::Programming,
        (Phase::Ready, InProgress::Erase { .. }) => Situation::Erasing,
    }
}

/// Every D in turn; after the sweep mostly small ones.
fn data_pages_of(rng: &mut Rng, episode: u64) -> u32 {
    let nth = |number: u64| DATA_PAGES.start() + (number % SWEEP) as u32;
    if episode < SWEEP {
        nth(episode)
    } else if episode.is_multiple_of(EPISODES_PER_SWEPT_D) {
        nth(episode / EPISODES_PER_SWEPT_D)
    } else {
        rng.pick(&SMALL_DATA_PAGES)
    }
}

/// A D for reset whose image fits, or a wrong one.
fn new_data_pages(rng: &mut Rng, data_pages: u32, room: usize) -> u32 {
    // The room past the right image is one page in each bank.
    let least = *DATA_PAGES.start();
    let room_of_bank = room as u32 / PAGE_WORDS / 2;
    let fits = room_of_bank
        .saturating_sub(bank_pages(1))
        .clamp(least, *DATA_PAGES.end());
    match rng.below(10) {
        0 => rng.pick(&[0, 9, 257, 1024, u32::MAX, 1 << 31]),
        1 => least,
        2 => data_pages.saturating_add(1),
        3 => rng.between(least, fits),
        _ if DATA_PAGES.contains(&data_pages) => data_pages,
        _ => fits,
    }
}
