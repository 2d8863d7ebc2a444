//! The C interface as `include/tarredlath.h` has it: its structs and its functions, over slices in
//! place of pointers.
//!
//! The other modules say the same in types of Rust. This one is for whoever stores a state as
//! numbers, or hands over numbers that the types can't say: every bit pattern of a state is
//! answered, with [`number::BAD_CALL`] where it can't be taken. Then the state comes back as it
//! was.
//!
//! It is the only module with `unsafe` code. What the library asks of a caller is that each pointer
//! is valid for the length beside it and not null, and that memory to be written overlaps no other
//! memory of the same call. A slice has such a pointer and such a length, and a `&mut` slice
//! overlaps nothing else that is borrowed. The library keeps no pointer. The structs are plain
//! numbers, of which every bit pattern is valid.

// What the fields mean is said in the header, and those of a state are no business of a caller's.
#![allow(missing_docs)]

mod numbers;
mod structs;

pub use numbers::{flag, number, verdict};
pub use structs::*;

/// What a scan is asked, in the C interface's numbers: the page is `length` bytes from `at` on of
/// the lent bytes. The functions of the header take these one by one.
#[derive(Clone, Copy, Debug, Default, Eq, PartialEq)]
pub struct Asked {
    pub at: usize,
    pub length: usize,
    pub start: usize,
    pub construct: u8,
    pub kind: u8,
    pub flags: u8,
}

/// A verdict, in the C interface's numbers.
#[derive(Clone, Copy, Debug, Default, Eq, PartialEq)]
pub struct Verdict {
    pub verdict: u8,
    pub number: u32,
    pub offset: usize,
}

#[rustfmt::skip] // In the header's order and shape.
extern "C" {
    fn tarredlath_words_enough(length: usize) -> Words;
    fn tarredlath_version() -> u32;
    fn tarredlath_scan_once(bytes: *const u8, bytes_length: usize, at: usize, length: usize,
        start: usize, construct: u8, kind: u8, flags: u8, allowance: usize, events: *mut u32,
        events_length: usize) -> Ran;
    fn tarredlath_scan_new(bytes: *const u8, bytes_length: usize, at: usize, length: usize,
        start: usize, construct: u8, kind: u8, flags: u8, words: usize) -> Ran;
    fn tarredlath_scan_run(scan: Scan, page: *const u8, page_length: usize, events: *mut u32,
        events_length: usize, allowance: usize) -> Ran;
    fn tarredlath_scan_give(scan: Scan, verdict: u8, number: u32, offset: usize) -> Ran;
    fn tarredlath_scan_answer(scan: Scan) -> Answer;
    fn tarredlath_scan_body(scan: Scan, page: *const u8, page_length: usize, scratch: *mut u8,
        scratch_length: usize) -> Body;
    fn tarredlath_fill(page: *const u8, page_length: usize, openings: *mut Opening,
        openings_length: usize, events: *mut u32, events_length: usize) -> Filled;
    fn tarredlath_worker_start(q: usize, words: usize) -> Started;
    fn tarredlath_worker_admit(worker: Worker, bytes: *const u8, bytes_length: usize, at: usize,
        length: usize, start: usize, construct: u8, kind: u8, flags: u8) -> Called;
    fn tarredlath_worker_turn(worker: Worker, bytes: *const u8, bytes_length: usize,
        events: *mut u32, events_length: usize) -> Called;
    fn tarredlath_worker_verdict(worker: Worker, place: usize, verdict: u8, number: u32,
        offset: usize) -> Called;
    fn tarredlath_worker_collect(worker: Worker, place: usize) -> Called;
    fn tarredlath_worker_body(worker: Worker, bytes: *const u8, bytes_length: usize, place: usize,
        scratch: *mut u8, scratch_length: usize) -> Body;
    fn tarredlath_worker_view(worker: Worker, place: usize) -> View;
}

/// The words of an event buffer that no scan of a page of `length` bytes fills.
pub fn words_enough(length: usize) -> Words {
    // SAFETY: numbers alone go in and out.
    unsafe { tarredlath_words_enough(length) }
}

/// The version that the library was built with.
pub fn version() -> u32 {
    // SAFETY: nothing goes in, a number comes out.
    unsafe { tarredlath_version() }
}

/// A single scan in one call.
pub fn scan_once(bytes: &[u8], asked: &Asked, allowance: usize, events: &mut [u32]) -> Ran {
    // SAFETY: pointer and length are those of a slice, twice; the one that is written is borrowed
    // alone.
    unsafe {
        tarredlath_scan_once(
            bytes.as_ptr(),
            bytes.len(),
            asked.at,
            asked.length,
            asked.start,
            asked.construct,
            asked.kind,
            asked.flags,
            allowance,
            events.as_mut_ptr(),
            events.len(),
        )
    }
}

/// A new scan over an event buffer of `words` words.
pub fn scan_new(bytes: &[u8], asked: &Asked, words: usize) -> Ran {
    // SAFETY: pointer and length are those of a slice, which is read alone.
    unsafe {
        tarredlath_scan_new(
            bytes.as_ptr(),
            bytes.len(),
            asked.at,
            asked.length,
            asked.start,
            asked.construct,
            asked.kind,
            asked.flags,
            words,
        )
    }
}

/// At most `allowance` steps of a scan over its page.
pub fn scan_run(scan: Scan, page: &[u8], events: &mut [u32], allowance: usize) -> Ran {
    // SAFETY: pointer and length are those of a slice, twice; the one that is written is borrowed
    // alone.
    unsafe {
        tarredlath_scan_run(
            scan,
            page.as_ptr(),
            page.len(),
            events.as_mut_ptr(),
            events.len(),
            allowance,
        )
    }
}

/// The verdict that a scan asked for.
pub fn scan_give(scan: Scan, verdict: Verdict) -> Ran {
    // SAFETY: numbers alone go in and out.
    unsafe { tarredlath_scan_give(scan, verdict.verdict, verdict.number, verdict.offset) }
}

/// The answer of a scan as it stands.
pub fn scan_answer(scan: Scan) -> Answer {
    // SAFETY: numbers alone go in and out.
    unsafe { tarredlath_scan_answer(scan) }
}

/// The body that a scan asks about.
pub fn scan_body(scan: Scan, page: &[u8], scratch: &mut [u8]) -> Body {
    // SAFETY: pointer and length are those of a slice, twice; the one that is written is borrowed
    // alone.
    unsafe {
        tarredlath_scan_body(
            scan,
            page.as_ptr(),
            page.len(),
            scratch.as_mut_ptr(),
            scratch.len(),
        )
    }
}

/// All openings of a page in one call.
pub fn fill(page: &[u8], openings: &mut [Opening], events: &mut [u32]) -> Filled {
    // SAFETY: pointer and length are those of a slice, three times; the two that are written are
    // borrowed alone.
    unsafe {
        tarredlath_fill(
            page.as_ptr(),
            page.len(),
            openings.as_mut_ptr(),
            openings.len(),
            events.as_mut_ptr(),
            events.len(),
        )
    }
}

/// A worker whose turns have `q` steps, over an event buffer of `words` words.
pub fn worker_start(q: usize, words: usize) -> Started {
    // SAFETY: numbers alone go in and out.
    unsafe { tarredlath_worker_start(q, words) }
}

/// A page is given the lowest free place.
pub fn worker_admit(worker: Worker, bytes: &[u8], asked: &Asked) -> Called {
    // SAFETY: pointer and length are those of a slice, which is read alone.
    unsafe {
        tarredlath_worker_admit(
            worker,
            bytes.as_ptr(),
            bytes.len(),
            asked.at,
            asked.length,
            asked.start,
            asked.construct,
            asked.kind,
            asked.flags,
        )
    }
}

/// One turn, of the next place that runs.
pub fn worker_turn(worker: Worker, bytes: &[u8], events: &mut [u32]) -> Called {
    // SAFETY: pointer and length are those of a slice, twice; the one that is written is borrowed
    // alone.
    unsafe {
        tarredlath_worker_turn(
            worker,
            bytes.as_ptr(),
            bytes.len(),
            events.as_mut_ptr(),
            events.len(),
        )
    }
}

/// The verdict that a place asked for.
pub fn worker_verdict(worker: Worker, place: usize, verdict: Verdict) -> Called {
    // SAFETY: numbers alone go in and out.
    unsafe {
        tarredlath_worker_verdict(
            worker,
            place,
            verdict.verdict,
            verdict.number,
            verdict.offset,
        )
    }
}

/// The answer of a page that has ended, whose place is free again.
pub fn worker_collect(worker: Worker, place: usize) -> Called {
    // SAFETY: numbers alone go in and out.
    unsafe { tarredlath_worker_collect(worker, place) }
}

/// The body that a place asks about.
pub fn worker_body(worker: Worker, bytes: &[u8], place: usize, scratch: &mut [u8]) -> Body {
    // SAFETY: pointer and length are those of a slice, twice; the one that is written is borrowed
    // alone.
    unsafe {
        tarredlath_worker_body(
            worker,
            bytes.as_ptr(),
            bytes.len(),
            place,
            scratch.as_mut_ptr(),
            scratch.len(),
        )
    }
}

/// What there is of a place.
pub fn worker_view(worker: Worker, place: usize) -> View {
    // SAFETY: numbers alone go in and out.
    unsafe { tarredlath_worker_view(worker, place) }
}
