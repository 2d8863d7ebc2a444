//! A place in a page.

use crate::raw;
use std::fmt;

/// A place in a page. As text it is `LINE:COLUMN`.
#[derive(Clone, Copy, Debug, Default, Eq, PartialEq)]
pub struct Place {
    /// Bytes from the page's first byte.
    pub offset: usize,
    /// The line, from 1.
    pub line: usize,
    /// The column, from 1. A byte is one column; behind a tab it is the next of 1, 5, 9, ..
    pub column: usize,
}

impl From<raw::Answer> for Place {
    fn from(raw: raw::Answer) -> Place {
        Place {
            offset: raw.place,
            line: raw.line,
            column: raw.column,
        }
    }
}

impl fmt::Display for Place {
    fn fmt(&self, f: &mut fmt::Formatter<'_>) -> fmt::Result {
        write!(f, "{}:{}", self.line, self.column)
    }
}
