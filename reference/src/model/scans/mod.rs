//! 02, L11: a queue of scans in two data pages, above the controller's own calls.

mod jobs;
mod look;
mod slots;
mod take;
mod write;

pub use slots::*;
pub use take::*;
pub use write::*;
