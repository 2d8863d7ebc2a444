//! The judge: the given modules of the crate `markdown` 1.0.0, unchanged, with
//! a test-only door to their states and events.
//!
//! The build script assembles the modules; see there, and the README, for what
//! is given and what stands in.

include!(concat!(env!("OUT_DIR"), "/crate/modules.rs"));

#[cfg(feature = "log")]
mod calls;
mod domain;
mod door;
mod place;
mod reading;

#[cfg(feature = "log")]
pub use calls::{Call, STATES};
pub use door::{Answer, Construct, Judge, Kind, Mark, Outcome, Scan, Verdict};
pub use place::Place;

/// The wrong reading that this judge was built with, if it was.
pub const VARIANT: Option<&str> = option_env!("JUDGE_VARIANT");
