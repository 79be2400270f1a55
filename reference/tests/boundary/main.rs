//! The boundary of the C interface: every field of the flat controller, of the
//! arguments and of the results arrives where it should, and nowhere else.

mod breakage;
mod conversion;
mod deciders;
mod handed_back;
mod helpers;
mod meaning;
mod progress;
mod results;
mod rounds;
mod scans;
mod settings;
