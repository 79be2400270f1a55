//! Document 01, "Exact rules for the build", with the change requests of 02 that
//! have landed (L1 to L3 and L11), as one plain program.
//!
//! Every public call takes any controller, also a broken one, and gives the
//! refusal number of 01 or 02 (0 for none) with whatever else the call hands out.
//! Every call that can answer 9 tells with it who decided.

mod answers;
mod checks;
mod deciders;
mod geometry;
mod host;
mod lifecycle;
mod operation;
mod operation_checks;
mod queue;
mod refusals;
mod rights;
mod rounds;
mod scans;
mod settings;
mod state;
mod steps;
mod validity;
mod whole;

pub use answers::*;
pub use deciders::*;
pub use geometry::*;
pub use host::*;
pub use lifecycle::*;
pub use operation::*;
pub use queue::*;
pub use refusals::*;
pub use rights::*;
pub use rounds::*;
pub use scans::*;
pub use settings::*;
pub use state::*;
pub use steps::*;
pub use validity::*;
pub use whole::*;
