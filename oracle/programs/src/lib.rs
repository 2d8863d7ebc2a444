//! What the oracle's programs share: cases and lists as text, sets of them,
//! chance, and what a case reaches.

pub mod case;
pub mod chance;
pub mod list;
#[cfg(feature = "log")]
pub mod reach;
pub mod sets;
