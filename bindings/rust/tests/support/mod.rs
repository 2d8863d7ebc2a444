//! What the tests share: recorded lines, cases as they are written, answers as they are written.

// Each test is a program of its own, and uses a part of this.
#![allow(dead_code)]

pub mod case;
pub mod made_up;
pub mod random;
pub mod recorded;
pub mod written;
