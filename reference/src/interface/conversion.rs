//! Between the numbers of the C interface and the second program's state,
//! arguments and answers.

use super::flat;
use crate::model::{
    self, Controller, Decider, HostGiven, InProgress, InfoSetting, Operation, Phase, Progress,
    Queue, RanFor, Region, Rounded, Scan, ScanTaken, ScanWritten, Started, Stepped, Turn,
    WholeDone, WordGiven, BANK_ERASE, PAGE_ERASE, PROGRAM, READ,
};

/// The kinds that a record holds: 5, 7, 8 and 9.
const RECORDED_KINDS: u32 = 1 << model::MALFORMED
    | 1 << model::OUT_OF_RANGE
    | 1 << model::CROSSES_WINDOW
    | 1 << model::DENIED;

// -- the state -----------------------------------------------------------------

/// None if a field encodes nothing: a flag over 1, a phase over 2, rights over
/// 255, another bit in the record than its four kinds, or an operation in
/// progress of no kind or with a partition or type over 255.
pub fn to_reference(c: &flat::Controller) -> Option<Controller> {
    Some(Controller {
        data_pages: c.data_pages,
        phase: phase(c.phase)?,
        provision_enabled: flag(c.provision_enabled)?,
        seeds_locked: flag(c.seeds_locked)?,
        regions: all(c.regions, region)?,
        default_rights: byte(c.default_rights)?,
        info_settings: all(c.info_pages, info_setting)?,
        bank_erase_permissions: all(c.bank_erase, flag)?,
        recorded: recorded(c.recorded)?,
        last_address: c.last_address,
        read_queue: queue(c.read_queue),
        program_queue: queue(c.program_queue),
        in_progress: in_progress(c.progress)?,
        lost: c.lost_turns,
    })
}

fn all<A: Copy, B: Copy + Default, const N: usize>(
    list: [A; N],
    decode: impl Fn(A) -> Option<B>,
) -> Option<[B; N]> {
    let mut decoded = [B::default(); N];
    for (to, from) in decoded.iter_mut().zip(list) {
        *to = decode(from)?;
    }
    Some(decoded)
}

fn byte(number: u32) -> Option<u8> {
    u8::try_from(number).ok()
}

fn flag(number: u32) -> Option<bool> {
    match number {
        0 => Some(false),
        1 => Some(true),
        _ => None,
    }
}

fn phase(number: u32) -> Option<Phase> {
    match number {
        flat::PHASE_UNINITIALISED => Some(Phase::Uninitialised),
        flat::PHASE_READY => Some(Phase::Ready),
        flat::PHASE_DISABLED => Some(Phase::Disabled),
        _ => None,
    }
}

fn recorded(bits: u32) -> Option<u32> {
    (bits & !RECORDED_KINDS == 0).then_some(bits)
}

fn region(r: flat::Region) -> Option<Region> {
    Some(Region {
        on: flag(r.on)?,
        first_page: r.first_page,
        page_count: r.page_count,
        rights: byte(r.rights)?,
    })
}

fn info_setting(s: flat::PageSetting) -> Option<InfoSetting> {
    Some(InfoSetting {
        on: flag(s.on)?,
        rights: byte(s.rights)?,
    })
}

fn queue(q: flat::Queue) -> Queue {
    Queue {
        words: q.words,
        length: q.length,
    }
}

/// While nothing is running, the other fields encode nothing.
fn in_progress(p: flat::Progress) -> Option<InProgress> {
    if !flag(p.running)? {
        return Some(InProgress::Nothing);
    }
    let operation = operation(p.operation)?;
    let moved = p.moved;
    match operation.kind {
        READ => Some(InProgress::Read {
            operation,
            moved,
            readable: p.readable,
        }),
        PROGRAM => Some(InProgress::Program { operation, moved }),
        PAGE_ERASE | BANK_ERASE => Some(InProgress::Erase { operation, moved }),
        _ => None,
    }
}

fn operation(o: flat::Operation) -> Option<Operation> {
    Some(Operation {
        kind: byte(o.kind)?,
        partition: byte(o.partition)?,
        info_type: byte(o.info_type)?,
        address: o.address,
        count: o.count,
    })
}

/// Unused fields of the progress are 0.
pub fn from_reference(c: &Controller) -> flat::Controller {
    flat::Controller {
        data_pages: c.data_pages,
        phase: match c.phase {
            Phase::Uninitialised => flat::PHASE_UNINITIALISED,
            Phase::Ready => flat::PHASE_READY,
            Phase::Disabled => flat::PHASE_DISABLED,
        },
        provision_enabled: u32::from(c.provision_enabled),
        seeds_locked: u32::from(c.seeds_locked),
        default_rights: u32::from(c.default_rights),
        regions: c.regions.map(|r| flat::Region {
            first_page: r.first_page,
            page_count: r.page_count,
            on: u32::from(r.on),
            rights: u32::from(r.rights),
        }),
        info_pages: c.info_settings.map(|s| flat::PageSetting {
            on: u32::from(s.on),
            rights: u32::from(s.rights),
        }),
        bank_erase: c.bank_erase_permissions.map(u32::from),
        progress: flat_progress(c.in_progress),
        read_queue: flat_queue(c.read_queue),
        program_queue: flat_queue(c.program_queue),
        recorded: c.recorded,
        last_address: c.last_address,
        lost_turns: c.lost,
    }
}

fn flat_queue(q: Queue) -> flat::Queue {
    flat::Queue {
        words: q.words,
        length: q.length,
    }
}

fn flat_progress(p: InProgress) -> flat::Progress {
    let running = |operation: Operation, moved, readable| flat::Progress {
        operation: operation.into(),
        moved,
        readable,
        running: 1,
    };
    match p {
        InProgress::Nothing => flat::Progress::default(),
        InProgress::Read {
            operation,
            moved,
            readable,
        } => running(operation, moved, readable),
        InProgress::Program { operation, moved } | InProgress::Erase { operation, moved } => {
            running(operation, moved, 0)
        }
    }
}

impl From<Operation> for flat::Operation {
    fn from(o: Operation) -> Self {
        flat::Operation {
            address: o.address,
            count: o.count,
            kind: u32::from(o.kind),
            partition: u32::from(o.partition),
            info_type: u32::from(o.info_type),
        }
    }
}

// -- arguments -----------------------------------------------------------------

/// An argument that the rules hold in a byte: over 255 it counts as 255.
pub fn asked_byte(number: u32) -> u8 {
    number.min(255) as u8
}

/// A flag argument is false at 0 and true otherwise.
pub fn asked_flag(number: u32) -> bool {
    number != 0
}

pub fn asked_operation(o: flat::Operation) -> Operation {
    Operation {
        kind: asked_byte(o.kind),
        partition: asked_byte(o.partition),
        info_type: asked_byte(o.info_type),
        address: o.address,
        count: o.count,
    }
}

pub fn asked_region(region: flat::Region) -> Region {
    Region {
        on: asked_flag(region.on),
        first_page: region.first_page,
        page_count: region.page_count,
        rights: asked_byte(region.rights),
    }
}

pub fn asked_setting(setting: flat::PageSetting) -> InfoSetting {
    InfoSetting {
        on: asked_flag(setting.on),
        rights: asked_byte(setting.rights),
    }
}

// -- answers -------------------------------------------------------------------

pub fn decider_number(decider: Option<Decider>) -> u32 {
    decider.map_or(flat::NO_DECIDER, |decider| decider.number().into())
}

impl From<Started> for flat::Started {
    fn from(given: Started) -> Self {
        flat::Started {
            answer: given.refusal.into(),
            decider: decider_number(given.decider),
        }
    }
}

impl From<WholeDone> for flat::Completed {
    fn from(given: WholeDone) -> Self {
        flat::Completed {
            answer: given.refusal.into(),
            decider: decider_number(given.decider),
            bits: given.bits,
        }
    }
}

impl From<RanFor> for flat::RanFor {
    fn from(given: RanFor) -> Self {
        flat::RanFor {
            answer: given.refusal.into(),
            decider: decider_number(given.decider),
            bits: given.bits,
            left: given.left,
            cut: given.cut.into(),
        }
    }
}

impl From<ScanWritten> for flat::ScanWritten {
    fn from(given: ScanWritten) -> Self {
        flat::ScanWritten {
            answer: given.refusal.into(),
            cut: given.cut.into(),
        }
    }
}

/// Where there is no scan, its fields are 0.
impl From<ScanTaken> for flat::ScanTaken {
    fn from(given: ScanTaken) -> Self {
        let mut taken = flat::ScanTaken {
            answer: given.refusal.into(),
            cut: given.cut.into(),
            ..flat::ScanTaken::default()
        };
        if let Some(Scan { serial, bytes }) = given.scan {
            taken.serial = serial;
            taken.length = bytes.len() as u32;
            taken.bytes.0[..bytes.len()].copy_from_slice(&bytes);
        }
        taken
    }
}

impl From<Stepped> for flat::Stepped {
    fn from(given: Stepped) -> Self {
        flat::Stepped {
            answer: given.refusal.into(),
            movement: match given.progress {
                None => flat::MOVEMENT_NONE,
                Some(Progress::Moved) => flat::MOVEMENT_MOVED,
                Some(Progress::Finished) => flat::MOVEMENT_FINISHED,
                Some(Progress::Waiting) => flat::MOVEMENT_STALLED,
            },
            bits: given.bits,
        }
    }
}

impl From<WordGiven> for flat::Fetched {
    fn from(given: WordGiven) -> Self {
        flat::Fetched {
            answer: given.refusal.into(),
            word: given.word,
        }
    }
}

impl From<HostGiven> for flat::HostFetched {
    fn from(given: HostGiven) -> Self {
        flat::HostFetched {
            answer: given.refusal.into(),
            decider: decider_number(given.decider),
            word: given.word,
        }
    }
}

/// A side that is not served is answered 0; a step that waits for its turn is stalled.
impl From<Rounded> for flat::Rounded {
    fn from(given: Rounded) -> Self {
        let no_word = flat::HostFetched::from(HostGiven::default());
        let (host_turn, host) = side(given.host, no_word, no_word);
        let stalled = flat::Stepped {
            movement: flat::MOVEMENT_STALLED,
            ..flat::Stepped::default()
        };
        let (step_turn, step) = side(given.step, flat::Stepped::default(), stalled);
        flat::Rounded {
            host_turn,
            host_answer: host.answer,
            host_decider: host.decider,
            word: host.word,
            step_turn,
            step_answer: step.answer,
            movement: step.movement,
            bits: step.bits,
        }
    }
}

/// The number of a side's turn, and what it is told.
fn side<T: Into<F>, F>(turn: Turn<T>, unasked: F, waiting: F) -> (u32, F) {
    match turn {
        Turn::Unasked => (flat::TURN_UNASKED, unasked),
        Turn::Waiting => (flat::TURN_WAITING, waiting),
        Turn::Served(given) => (flat::TURN_SERVED, given.into()),
    }
}
