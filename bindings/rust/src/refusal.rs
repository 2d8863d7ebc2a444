//! Why a call was not taken.

use crate::raw::{self, number};
use crate::Place;
use std::fmt;

/// Why a call was not taken. Nothing was done: states and lent memory are as they were.
#[derive(Clone, Copy, Debug, Eq, PartialEq)]
pub enum Refusal {
    /// The page is longer than [`PAGE_LIMIT`](crate::PAGE_LIMIT).
    TooLong,
    /// The start is past the page's end, or the page is not inside the lent bytes.
    BadStart,
    /// The page has a carriage return, or is not UTF-8: the place of the first such byte.
    BadText(Place),
    /// All places of the worker are taken.
    NoPlace,
    /// The call does not fit the state: a page or an event buffer of another length, an allowance
    /// of 0, a verdict that was not asked for, a place that waits for something else.
    BadCall,
    /// An answer with a number that has no meaning here. The library that this crate was written
    /// for gives none; compare [`version`](crate::version) with [`VERSION`](crate::VERSION).
    Unknown(u8),
}

impl From<raw::Answer> for Refusal {
    fn from(raw: raw::Answer) -> Refusal {
        match raw.number {
            number::BAD_TEXT => Refusal::BadText(Place::from(raw)),
            number => Refusal::from_number(number),
        }
    }
}

impl Refusal {
    /// A refusal that carries no place.
    pub(crate) fn from_number(number: u8) -> Refusal {
        match number {
            number::TOO_LONG => Refusal::TooLong,
            number::BAD_START => Refusal::BadStart,
            number::NO_PLACE => Refusal::NoPlace,
            number::BAD_CALL => Refusal::BadCall,
            other => Refusal::Unknown(other),
        }
    }
}

impl fmt::Display for Refusal {
    fn fmt(&self, f: &mut fmt::Formatter<'_>) -> fmt::Result {
        match self {
            Refusal::TooLong => write!(f, "the page has more than {} bytes", crate::PAGE_LIMIT),
            Refusal::BadStart => write!(f, "the page has no such offset"),
            Refusal::BadText(place) => write!(
                f,
                "{place}: a carriage return, or bytes that are not UTF-8; \
                 save the file as UTF-8 with line ends of Unix kind (LF)"
            ),
            Refusal::NoPlace => write!(f, "all places of the worker are taken"),
            Refusal::BadCall => {
                write!(f, "the call can't be taken, which is no fault of the page")
            }
            Refusal::Unknown(number) => {
                write!(f, "the library answers {number}, which has no meaning here")
            }
        }
    }
}

impl std::error::Error for Refusal {}
