//! Stands in for `util/location.rs`: from an offset in a body to a place in
//! the page.

use crate::unist::Point;
use crate::util::constant::TAB_SIZE;
use crate::util::mdx_collect::Stop;
use alloc::vec::Vec;

/// A page in which offsets are placed.
#[derive(Debug)]
pub struct Location {
    bytes: Vec<u8>,
}

impl Location {
    /// Keep a page.
    pub fn new(bytes: &[u8]) -> Location {
        Location {
            bytes: bytes.into(),
        }
    }

    /// The place of the body byte at `relative`.
    ///
    /// A body is made of runs; each stop says where a run begins in the body
    /// and where in the page. The byte lies in the last run that begins at or
    /// before it, as far from the run's beginning in the page as in the body.
    /// So where a run begins inside a tab, places drift: the spaces that stand
    /// for the rest of that one byte are two or three in the body. An empty
    /// body has no run, and past the page there is no place: `None`.
    pub fn relative_to_point(&self, stops: &[Stop], relative: usize) -> Option<Point> {
        let (in_body, in_page) = stops.iter().rev().find(|stop| stop.0 <= relative)?;
        let offset = in_page.checked_add(relative - in_body)?;
        let before = self.bytes.get(..offset)?;
        let (line, column) = before.iter().fold((1, 1), past);
        Some(Point::new(line, column, offset))
    }
}

/// Line and column past a byte, by the tokenizer's tab stops (line feeds only:
/// pages hold no byte 13).
fn past((line, column): (usize, usize), byte: &u8) -> (usize, usize) {
    match byte {
        b'\n' => (line + 1, 1),
        b'\t' => (line, column + TAB_SIZE - (column - 1) % TAB_SIZE),
        _ => (line, column + 1),
    }
}
