//! The original, run: an oracle for every comparison.
//!
//! - [`original`]: the original's own answers, on values read from document 01's bytes.
//! - [`doc01`]: the oracle's reading of document 01, for what the original has no counterpart for.
//! - [`log`]: a log that many questions are about, with what the original said of it.
//! - [`judge`]: both together, one function for each entry: bytes in, refusal or output bytes out.
//! - [`generator`]: cases, deterministic by kind, seed and number.
//! - [`answer`]: all that is observable of one case, as text, numbers and bytes.

pub use doc01;
pub use generator;

pub mod answer;
pub mod desk;
pub mod differences;
pub mod json;
pub mod judge;
pub mod log;
pub mod original;
pub mod record;
pub mod reference;
pub mod rule_cases;
pub mod script;

pub use doc01::{Book, Sheet, State};
pub use original::{
    action, cents, compare, drift, fixed, limit, marks_after, max_checkpoint_sequence, peak, reconcile, recover, verdict,
    window_complete, Drift, Panicked, Ran, Reconciled, Recovered,
};

/// What a fault of the oracle itself begins with.
pub const FAULT: &str = "fault of the oracle: ";

/// Stops on a fault of the oracle itself; never an answer of the original.
pub fn fault(what: &str) -> ! {
    panic!("{FAULT}{what}")
}
