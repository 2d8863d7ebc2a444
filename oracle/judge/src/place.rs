//! Places in a page, as the crate counts them.

use crate::event;
use crate::unist;
use std::fmt;

/// A place, with the crate's own line and column.
#[derive(Clone, Copy, Debug, Eq, PartialEq)]
pub struct Place {
    pub offset: usize,
    /// From 1.
    pub line: usize,
    /// From 1: a byte is one column, but a tab goes on to the next stop of
    /// four.
    pub column: usize,
}

/// Where an event stands, or the tokenizer.
impl From<&event::Point> for Place {
    fn from(point: &event::Point) -> Place {
        Place {
            offset: point.index,
            line: point.line,
            column: point.column,
        }
    }
}

/// What a message is about.
impl From<&unist::Point> for Place {
    fn from(point: &unist::Point) -> Place {
        Place {
            offset: point.offset,
            line: point.line,
            column: point.column,
        }
    }
}

/// `OFFSET:LINE:COLUMN`, as the programs write it.
impl fmt::Display for Place {
    fn fmt(&self, f: &mut fmt::Formatter<'_>) -> fmt::Result {
        write!(f, "{}:{}:{}", self.offset, self.line, self.column)
    }
}
