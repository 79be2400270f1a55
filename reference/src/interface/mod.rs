//! The proved model through its C interface, `include/lurgabel.h`.

pub mod calls;
mod conversion;
pub mod fields;
pub mod flat;

pub use conversion::{
    asked_byte, asked_flag, asked_operation, asked_region, asked_setting, decider_number,
    from_reference, to_reference,
};
