//! The header's structs, field for field. Every field is a `u32`, so that the
//! controller is an array of numbers, but for the bytes of a scan; the number of
//! each field is asserted.

use std::mem::{offset_of, size_of};

pub const REGIONS: usize = 8;
pub const INFO_PAGES: usize = 26;
pub const BANKS: usize = 2;
pub const QUEUE_WORDS: usize = 16;
pub const SEED_WORDS: usize = 8;
pub const SCAN_BYTES: usize = 48;

pub const READ: u32 = 0;
pub const PROGRAM: u32 = 1;
pub const PAGE_ERASE: u32 = 2;
pub const BANK_ERASE: u32 = 3;

pub const DATA: u32 = 0;
pub const INFORMATION: u32 = 1;

pub const PHASE_UNINITIALISED: u32 = 0;
pub const PHASE_READY: u32 = 1;
pub const PHASE_DISABLED: u32 = 2;

pub const MOVEMENT_NONE: u32 = 0;
pub const MOVEMENT_MOVED: u32 = 1;
pub const MOVEMENT_FINISHED: u32 = 2;
pub const MOVEMENT_STALLED: u32 = 3;

pub const TURN_UNASKED: u32 = 0;
pub const TURN_WAITING: u32 = 1;
pub const TURN_SERVED: u32 = 2;

// Deciders 0 to 7 are the regions of these numbers.
pub const BY_DEFAULT: u32 = 8;
pub const BY_PAGE_SETTING: u32 = 9;
pub const BY_SEED_LOCK: u32 = 10;
pub const BY_BANK_PERMISSION: u32 = 11;
/// Every answer but 9 reports nobody.
pub const NO_DECIDER: u32 = 255;

const NUMBER_BYTES: usize = size_of::<u32>();

/// Declares a struct of the header; asserts how many numbers it has and which
/// is the first of each field.
macro_rules! header_struct {
    ($name:ident, numbers $numbers:expr, { $($number:literal $field:ident: $type:ty),+ $(,)? }) => {
        #[repr(C)]
        #[derive(Clone, Copy, Debug, Default, PartialEq, Eq)]
        pub struct $name {
            $(pub $field: $type,)+
        }
        const _: () = assert!(size_of::<$name>() == NUMBER_BYTES * $numbers);
        $(const _: () = assert!(offset_of!($name, $field) == NUMBER_BYTES * $number);)+
    };
}

header_struct!(Operation, numbers 5, {
    0 address: u32,
    1 count: u32,
    2 kind: u32,
    3 partition: u32,
    4 info_type: u32,
});

header_struct!(Region, numbers 4, {
    0 first_page: u32,
    1 page_count: u32,
    2 on: u32,
    3 rights: u32,
});

header_struct!(PageSetting, numbers 2, {
    0 on: u32,
    1 rights: u32,
});

header_struct!(Queue, numbers 17, {
    0 words: [u32; QUEUE_WORDS],
    16 length: u32,
});

header_struct!(Progress, numbers 8, {
    0 operation: Operation,
    5 moved: u32,
    6 readable: u32,
    7 running: u32,
});

/// The numbers of a controller.
pub const NUMBERS: usize = 137;

header_struct!(Controller, numbers NUMBERS, {
    0 data_pages: u32,
    1 phase: u32,
    2 provision_enabled: u32,
    3 seeds_locked: u32,
    4 default_rights: u32,
    5 regions: [Region; REGIONS],
    37 info_pages: [PageSetting; INFO_PAGES],
    89 bank_erase: [u32; BANKS],
    91 progress: Progress,
    99 read_queue: Queue,
    116 program_queue: Queue,
    133 recorded: u32,
    134 last_address: u32,
    135 lost_turns: [u32; BANKS],
});

impl Controller {
    pub fn numbers(&self) -> &[u32; NUMBERS] {
        // SAFETY: it is made of so many `u32` and nothing else.
        unsafe { &*std::ptr::from_ref(self).cast() }
    }

    pub fn numbers_mut(&mut self) -> &mut [u32; NUMBERS] {
        // SAFETY: as above, and every number may stand in every field.
        unsafe { &mut *std::ptr::from_mut(self).cast() }
    }
}

header_struct!(Seeds, numbers 17, {
    0 creator: [u32; SEED_WORDS],
    8 owner: [u32; SEED_WORDS],
    16 given: u32,
});

header_struct!(Initialised, numbers 18, {
    0 answer: u32,
    1 seeds: Seeds,
});

header_struct!(Started, numbers 2, {
    0 answer: u32,
    1 decider: u32,
});

header_struct!(Stepped, numbers 3, {
    0 answer: u32,
    1 movement: u32,
    2 bits: u32,
});

header_struct!(Fetched, numbers 2, {
    0 answer: u32,
    1 word: u32,
});

header_struct!(HostFetched, numbers 3, {
    0 answer: u32,
    1 decider: u32,
    2 word: u32,
});

header_struct!(Completed, numbers 3, {
    0 answer: u32,
    1 decider: u32,
    2 bits: u32,
});

header_struct!(RanFor, numbers 5, {
    0 answer: u32,
    1 decider: u32,
    2 bits: u32,
    3 left: u32,
    4 cut: u32,
});

header_struct!(ScanWritten, numbers 2, {
    0 answer: u32,
    1 cut: u32,
});

/// The bytes of a scan, zeros past its length.
#[repr(transparent)]
#[derive(Clone, Copy, Debug, PartialEq, Eq)]
pub struct ScanBytes(pub [u8; SCAN_BYTES]);

impl Default for ScanBytes {
    fn default() -> Self {
        ScanBytes([0; SCAN_BYTES])
    }
}

header_struct!(ScanTaken, numbers 16, {
    0 answer: u32,
    1 cut: u32,
    2 serial: u32,
    3 length: u32,
    4 bytes: ScanBytes,
});

header_struct!(Viewed, numbers 3, {
    0 answer: u32,
    1 decider: u32,
    2 start: u32,
});

header_struct!(Rounded, numbers 8, {
    0 host_turn: u32,
    1 host_answer: u32,
    2 host_decider: u32,
    3 word: u32,
    4 step_turn: u32,
    5 step_answer: u32,
    6 movement: u32,
    7 bits: u32,
});
