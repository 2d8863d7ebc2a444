//! Finds an MDX expression, tag or ESM block at a place of a page: where it ends, the events of its
//! parts, or why and where it fails.
//!
//! The work is done by libtarredlath.a, whose functions are proved: each returns on every input,
//! and makes no more steps than it is allowed. This crate says the same in types of Rust. What it
//! adds itself is not proved.
//!
//! | to | use |
//! |---|---|
//! | scan a construct, and judge its JavaScript by a closure | [`drive`] |
//! | scan one in lent memory, in one call | [`scan_once`] |
//! | scan one in steps, with pauses and verdicts of one's own | [`Scan`] |
//! | scan all openings of a page in one call | [`fill`] |
//! | keep sixteen pages going, a few steps of each in turn | [`Worker`] |
//! | store a state as numbers, or call with numbers | [`raw`] |
//!
//! # Example
//!
//! The body of an expression is judged wherever a `}` could close it; here by a toy that looks at
//! quotes alone, where a pipeline has its JavaScript parser.
//!
//! ```
//! use tarredlath::{drive, Answer, Body, Construct, Job, Signal};
//!
//! fn judge(body: &Body) -> Signal {
//!     match body.bytes.iter().filter(|byte| **byte == b'"').count() % 2 {
//!         0 => Signal::Ok,
//!         _ => Signal::Eof("a string is not closed".into()),
//!     }
//! }
//!
//! // The page, what to look for and where, and how many bodies may be judged.
//! let page = br#"See <Price of={shop["}"]} /> there"#;
//! let job = Job { start: 4, ..Job::new(Construct::Tag) };
//! let driven = drive(page, &job, 100, judge);
//!
//! // It is whole, and ends before offset 28: the first `}` was judged unfinished.
//! assert_eq!(driven.end(), Some(28));
//! assert_eq!(driven.questions, 2);
//! let lines: Vec<String> = driven.events().map(|event| event.to_string()).collect();
//! assert_eq!(lines.first().unwrap(), "enter jsx-flow-tag 4 1 5");
//! assert_eq!(lines.last().unwrap(), "exit jsx-flow-tag 28 1 29");
//!
//! // A page with a mistake says where, and what to tell its author.
//! let driven = drive(b"<a b=5>", &Job::new(Construct::Tag), 100, judge);
//! let said = driven.answer.to_string();
//! assert!(said.starts_with("1:6: unexpected byte before an attribute's value; a value"));
//! assert!(matches!(driven.answer, Answer::Unexpected { place, .. } if place.offset == 5));
//! ```
//!
//! # What the library's answers are here
//!
//! Answers that end a scan, and those of one that goes on, are [`Answer`]. Calls that were not
//! taken are [`Refusal`], as an error or as [`Answer::Refused`]. That a verdict is kept, a worker
//! started, a page placed, a turn made or none to be made, a body found and where, is what the
//! methods return where they return no refusal.

#![deny(unsafe_code)]
#![warn(missing_docs)]

mod answer;
mod body;
mod drive;
mod event;
mod job;
mod list;
mod place;
#[allow(unsafe_code)]
pub mod raw;
mod reading;
mod refusal;
mod room;
mod scan;
mod verdict;
mod worker;

pub use answer::{Answer, NotWhole, Tally};
pub use body::{Body, BodyKind};
pub use drive::{drive, Driven, Signal};
pub use event::{Edge, Event, Events, Kind, EVENT_WORDS};
pub use job::{Construct, Context, Job};
pub use list::{fill, Filled, Opening};
pub use place::Place;
pub use reading::{Note, Where};
pub use refusal::Refusal;
pub use room::{scratch_enough, steps_enough, words_enough, PAGE_LIMIT};
pub use scan::{scan_once, Ran, Scan};
pub use verdict::Verdict;
pub use worker::{Started, View, Waits, Worker, PLACES};

/// The version of the C interface that this crate was written for. A library with another number
/// has other functions, numbers or structs, and must not be called.
pub const VERSION: u32 = 1;

/// The version that the library was built with.
pub fn version() -> u32 {
    raw::version()
}
