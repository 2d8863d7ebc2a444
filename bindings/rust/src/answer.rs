//! What a scan answers.

use crate::raw::{self, number};
use crate::{Note, Place, Refusal, Where};
use std::fmt;

/// How much a scan has made.
#[derive(Clone, Copy, Debug, Default, Eq, PartialEq)]
pub struct Tally {
    /// The events that it has written.
    pub events: usize,
    /// The steps that it has made.
    pub steps: usize,
}

/// The answer of a scan. Those from `Done` to `Full` end it; after `Asking` and `Paused` it goes
/// on.
///
/// As text it says to a person what happened, with line and column where there are any:
///
/// ```
/// use tarredlath::{drive, Construct, Job, Signal};
///
/// let page = br#"<Price.Tag item:sku=<b>4711</b> />"#;
/// let driven = drive(page, &Job::new(Construct::Tag), 10, |_| Signal::Ok);
/// assert_eq!(
///     driven.answer.to_string(),
///     "1:21: unexpected byte before an attribute's value; write an element as a value in braces"
/// );
/// ```
#[derive(Clone, Copy, Debug, Eq, PartialEq)]
pub enum Answer {
    /// The construct is whole.
    Done {
        /// The offset behind its last byte.
        end: usize,
        /// What the scan has made.
        tally: Tally,
    },
    /// There is no such construct here.
    Nok {
        /// What the scan has made.
        tally: Tally,
    },
    /// A letter outside ASCII stands in a tag where a plain one is due.
    NotAscii {
        /// Where the letter is.
        place: Place,
        /// What the scan has made.
        tally: Tally,
    },
    /// The page ended too early.
    Eof {
        /// The page's end.
        place: Place,
        /// What was being read.
        reading: Where,
        /// What the scan has made.
        tally: Tally,
    },
    /// A byte can't stand where it does.
    Unexpected {
        /// Where the byte is.
        place: Place,
        /// What was being read.
        reading: Where,
        /// A hint for the author, where a usual mistake was recognised.
        note: Option<Note>,
        /// What the scan has made.
        tally: Tally,
    },
    /// A verdict said error.
    VerdictError {
        /// The byte of the page at which the verdict found the body wrong.
        place: Place,
        /// The number that was given with the verdict.
        number: u32,
        /// What the scan has made.
        tally: Tally,
    },
    /// The page ended behind a verdict that said unfinished.
    VerdictEof {
        /// The page's end.
        place: Place,
        /// The number that was given with the verdict.
        number: u32,
        /// What the scan has made.
        tally: Tally,
    },
    /// The event buffer is full.
    Full {
        /// How far the scan came.
        place: Place,
        /// What the scan has made.
        tally: Tally,
    },
    /// The scan waits for a verdict on a body.
    Asking {
        /// How far the scan came: the body ends before it.
        place: Place,
        /// What the scan has made.
        tally: Tally,
    },
    /// The allowance of steps is spent.
    Paused {
        /// How far the scan came.
        place: Place,
        /// What the scan has made.
        tally: Tally,
    },
    /// Nothing was done.
    Refused(Refusal),
}

impl Answer {
    /// Whether the construct is whole.
    pub fn is_done(&self) -> bool {
        matches!(self, Answer::Done { .. })
    }

    /// Whether the scan goes on: it asks, or is paused.
    pub fn goes_on(&self) -> bool {
        matches!(self, Answer::Asking { .. } | Answer::Paused { .. })
    }

    /// The offset behind the construct, where it is whole.
    pub fn end(&self) -> Option<usize> {
        match *self {
            Answer::Done { end, .. } => Some(end),
            _ => None,
        }
    }

    /// The offset behind the construct, or an error that holds the answer, for `?`.
    pub fn whole(self) -> Result<usize, NotWhole> {
        self.end().ok_or(NotWhole(self))
    }

    /// The place that the answer speaks of, if it speaks of one.
    pub fn place(&self) -> Option<Place> {
        match *self {
            Answer::NotAscii { place, .. }
            | Answer::Eof { place, .. }
            | Answer::Unexpected { place, .. }
            | Answer::VerdictError { place, .. }
            | Answer::VerdictEof { place, .. }
            | Answer::Full { place, .. }
            | Answer::Asking { place, .. }
            | Answer::Paused { place, .. }
            | Answer::Refused(Refusal::BadText(place)) => Some(place),
            Answer::Done { .. } | Answer::Nok { .. } | Answer::Refused(_) => None,
        }
    }

    /// What the scan has made; nothing, where it was refused.
    pub fn tally(&self) -> Tally {
        match *self {
            Answer::Done { tally, .. }
            | Answer::Nok { tally }
            | Answer::NotAscii { tally, .. }
            | Answer::Eof { tally, .. }
            | Answer::Unexpected { tally, .. }
            | Answer::VerdictError { tally, .. }
            | Answer::VerdictEof { tally, .. }
            | Answer::Full { tally, .. }
            | Answer::Asking { tally, .. }
            | Answer::Paused { tally, .. } => tally,
            Answer::Refused(_) => Tally::default(),
        }
    }
}

impl From<raw::Answer> for Answer {
    fn from(raw: raw::Answer) -> Answer {
        let place = Place::from(raw);
        let tally = Tally {
            events: raw.events,
            steps: raw.steps,
        };
        match raw.number {
            number::DONE => Answer::Done {
                end: raw.place,
                tally,
            },
            number::NOK => Answer::Nok { tally },
            number::NOT_ASCII => Answer::NotAscii { place, tally },
            number::EOF | number::UNEXPECTED => misread(raw, place, tally),
            number::VERDICT_ERROR | number::VERDICT_EOF => misjudged(raw, place, tally),
            number::FULL => Answer::Full { place, tally },
            number::ASKING => Answer::Asking { place, tally },
            number::PAUSED => Answer::Paused { place, tally },
            _ => Answer::Refused(Refusal::from(raw)),
        }
    }
}

/// One of the two answers with a where-number.
fn misread(raw: raw::Answer, place: Place, tally: Tally) -> Answer {
    let reading = Where::from(raw.r#where);
    if raw.number == number::EOF {
        return Answer::Eof {
            place,
            reading,
            tally,
        };
    }
    Answer::Unexpected {
        place,
        reading,
        note: Note::from_number(raw.note),
        tally,
    }
}

/// One of the two answers with a verdict's number.
fn misjudged(raw: raw::Answer, place: Place, tally: Tally) -> Answer {
    let number = raw.verdict;
    if raw.number == number::VERDICT_ERROR {
        return Answer::VerdictError {
            place,
            number,
            tally,
        };
    }
    Answer::VerdictEof {
        place,
        number,
        tally,
    }
}

impl fmt::Display for Answer {
    fn fmt(&self, f: &mut fmt::Formatter<'_>) -> fmt::Result {
        if let Answer::Refused(refusal) = self {
            return refusal.fmt(f);
        }
        if let Some(place) = self.place() {
            write!(f, "{place}: ")?;
        }
        match *self {
            Answer::Done { end, .. } => write!(f, "whole; it ends before offset {end}"),
            Answer::Eof { reading, .. } => {
                write!(f, "the page ends {reading}; {}", reading.missing())
            }
            Answer::Unexpected { reading, note, .. } => {
                let advice = note.map_or(reading.advice(), Note::advice);
                write!(f, "unexpected byte {reading}; {advice}")
            }
            Answer::VerdictError { number, .. } => {
                write!(f, "the body is wrong, says verdict {number}")
            }
            Answer::VerdictEof { number, .. } => {
                write!(
                    f,
                    "the page ends in a body that is unfinished, says verdict {number}"
                )
            }
            _ => f.write_str(self.plain_sentence()),
        }
    }
}

impl Answer {
    /// The sentence of an answer that has no more to say than its name.
    fn plain_sentence(&self) -> &'static str {
        match self {
            Answer::Nok { .. } => "there is no such construct here",
            Answer::NotAscii { .. } => {
                "a letter outside ASCII in a tag; names have plain letters, digits, -, $ and _, \
                 and other text stands in quotes or braces"
            }
            Answer::Full { .. } => "the events did not fit, which is no fault of the page",
            Answer::Asking { .. } => "it waits for a verdict on the body that ends here",
            Answer::Paused { .. } => "its allowance of steps is spent",
            _ => "",
        }
    }
}

/// The answer of a scan that did not find a whole construct, as an error.
#[derive(Clone, Copy, Debug, Eq, PartialEq)]
pub struct NotWhole(pub Answer);

impl fmt::Display for NotWhole {
    fn fmt(&self, f: &mut fmt::Formatter<'_>) -> fmt::Result {
        self.0.fmt(f)
    }
}

impl std::error::Error for NotWhole {}
