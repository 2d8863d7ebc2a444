//! The structs of the header, field by field.

use std::mem::size_of;

/// How many places a worker has.
pub const PLACES: usize = 16;

/// An answer: its number, and what it carries.
#[repr(C)]
#[derive(Clone, Copy, Debug, Default, Eq, PartialEq)]
pub struct Answer {
    pub place: usize,
    pub line: usize,
    pub column: usize,
    pub events: usize,
    pub steps: usize,
    pub verdict: u32,
    pub number: u8,
    pub r#where: u8,
    pub note: u8,
}

/// How many words are enough.
#[repr(C)]
#[derive(Clone, Copy, Debug, Default, Eq, PartialEq)]
pub struct Words {
    pub words: usize,
    pub number: u8,
}

/// A scan.
#[repr(C)]
#[derive(Clone, Copy, Debug, Default, Eq, PartialEq)]
pub struct Scan {
    pub length: usize,
    pub start: usize,
    pub words: usize,
    pub at: usize,
    pub saved: usize,
    pub body: usize,
    pub joint: usize,
    pub fault: usize,
    pub line: usize,
    pub column: usize,
    pub kept_line: usize,
    pub kept_column: usize,
    pub fault_line: usize,
    pub fault_column: usize,
    pub used: usize,
    pub steps: usize,
    pub heard_offset: usize,
    pub depth: u32,
    pub last: u32,
    pub heard_number: u32,
    pub quote: u16,
    pub construct: u8,
    pub kind: u8,
    pub flags: u8,
    pub state: u8,
    pub back: u8,
    pub prefix: u8,
    pub r#where: u8,
    pub note: u8,
    pub tab: u8,
    pub heard: u8,
}

/// The scan to go on with, beside the answer.
#[repr(C)]
#[derive(Clone, Copy, Debug, Default, Eq, PartialEq)]
pub struct Ran {
    pub scan: Scan,
    pub answer: Answer,
}

/// Where a body is.
#[repr(C)]
#[derive(Clone, Copy, Debug, Default, Eq, PartialEq)]
pub struct Body {
    pub at: usize,
    pub length: usize,
    pub number: u8,
    pub kind: u8,
}

/// One opening of a list. The caller fills in the first four fields, and the call the others.
#[repr(C)]
#[derive(Clone, Copy, Debug, Default, Eq, PartialEq)]
pub struct Opening {
    /// The offset in the page at which to look.
    pub start: usize,
    /// What to look for: 0 for an expression, 1 for a tag.
    pub construct: u8,
    /// Where it stands: 0 for flow, 1 for text.
    pub kind: u8,
    /// 0, or [`INTERRUPT`](crate::raw::flag::INTERRUPT).
    pub flags: u8,
    /// The answer's number.
    pub answer: u8,
    /// The place that the answer carries, or the end.
    pub place: usize,
    /// The place's line.
    pub line: usize,
    /// The place's column.
    pub column: usize,
    /// The where-number.
    pub r#where: u8,
    /// The note, or 0.
    pub note: u8,
    /// How many events it has in the buffer.
    pub events: usize,
    /// How many steps its scan made.
    pub steps: usize,
    /// The number of its first event in the buffer, counted in events.
    pub first: usize,
}

/// What became of a list.
#[repr(C)]
#[derive(Clone, Copy, Debug, Default, Eq, PartialEq)]
pub struct Filled {
    pub answer: u8,
    pub openings: usize,
    pub events: usize,
}

/// A place of a worker.
#[repr(C)]
#[derive(Clone, Copy, Debug, Default, Eq, PartialEq)]
pub struct Place {
    pub scan: Scan,
    pub at: usize,
    pub taken: usize,
}

/// A worker.
#[repr(C)]
#[derive(Clone, Copy, Debug, Default, Eq, PartialEq)]
pub struct Worker {
    pub places: [Place; PLACES],
    pub last: usize,
    pub q: usize,
    pub words: usize,
}

/// A worker that was started.
#[repr(C)]
#[derive(Clone, Copy, Debug, Default, Eq, PartialEq)]
pub struct Started {
    pub worker: Worker,
    pub longest: usize,
    pub number: u8,
    pub fits: u8,
}

/// The worker to go on with, beside the answer.
#[repr(C)]
#[derive(Clone, Copy, Debug, Default, Eq, PartialEq)]
pub struct Called {
    pub worker: Worker,
    pub answer: Answer,
}

/// What there is of a place.
#[repr(C)]
#[derive(Clone, Copy, Debug, Default, Eq, PartialEq)]
pub struct View {
    pub at: usize,
    pub length: usize,
    pub first: usize,
    pub events: usize,
    pub waits: u8,
    pub body: u8,
}

// A struct of another size than the library's would be read and written past its end.
const _: () = assert!(size_of::<Answer>() == 48);
const _: () = assert!(size_of::<Words>() == 16);
const _: () = assert!(size_of::<Scan>() == 160);
const _: () = assert!(size_of::<Ran>() == 208);
const _: () = assert!(size_of::<Body>() == 24);
const _: () = assert!(size_of::<Opening>() == 72);
const _: () = assert!(size_of::<Filled>() == 24);
const _: () = assert!(size_of::<Place>() == 176);
const _: () = assert!(size_of::<Worker>() == 2840);
const _: () = assert!(size_of::<Started>() == 2856);
const _: () = assert!(size_of::<Called>() == 2888);
const _: () = assert!(size_of::<View>() == 40);
