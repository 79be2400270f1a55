//! A second, independent program for the flash controller of documents 01 and 02, and
//! the C interface of the proved model, so that the two can be compared.
//!
//! The second program (`model`, and `sheet` for bench sheets) shares no code with the
//! proved model. `plain` is what the proved model's speed is measured against.

pub mod interface;
pub mod model;
mod numbers;
pub mod plain;
pub mod sheet;
