//! All openings of a page in one call.

use crate::raw::{self, number};
use crate::{Answer, Events, Job, Refusal, EVENT_WORDS};

pub use crate::raw::Opening;

/// What stands in an opening before it is answered, and is no answer's number.
const UNANSWERED: u8 = u8::MAX;

/// What became of a list.
#[derive(Clone, Copy, Debug, Eq, PartialEq)]
pub struct Filled {
    /// How many openings are answered, from the first on.
    pub openings: usize,
    /// How many events stand in the buffer.
    pub events: usize,
    /// Whether the event buffer ran full: the last opening that is answered says so, and those
    /// behind it are as they were.
    pub full: bool,
}

/// Scan each opening as [`scan_once`](crate::scan_once) does with steps enough, in list order, over
/// the room for events that the earlier ones left. The page's text is checked once. A list that
/// asks for anything but counting expressions and tags is refused, and nothing is touched.
///
/// ```
/// use tarredlath::{fill, Construct, Job, Opening};
///
/// let page = b"{a} <b/>";
/// let mut openings = [
///     Opening::of(&Job::new(Construct::Expression)),
///     Opening::of(&Job { start: 4, ..Job::new(Construct::Tag) }),
/// ];
/// let mut words = [0; 4 * 20];
/// let filled = fill(page, &mut openings, &mut words)?;
/// assert_eq!((filled.openings, filled.events, filled.full), (2, 20, false));
/// assert_eq!(openings[1].answered().and_then(|answer| answer.end()), Some(8));
/// assert_eq!(openings[1].events_in(&words).len(), 12);
/// # Ok::<(), tarredlath::Refusal>(())
/// ```
pub fn fill(page: &[u8], openings: &mut [Opening], events: &mut [u32]) -> Result<Filled, Refusal> {
    let filled = raw::fill(page, openings, events);
    match filled.answer {
        answer @ (number::DONE | number::FULL) => Ok(Filled {
            openings: filled.openings,
            events: filled.events,
            full: answer == number::FULL,
        }),
        other => Err(Refusal::from_number(other)),
    }
}

impl Opening {
    /// An opening that is yet to be answered.
    pub fn of(job: &Job) -> Opening {
        Opening {
            start: job.start,
            construct: job.construct as u8,
            kind: job.context as u8,
            flags: job.flags(),
            answer: UNANSWERED,
            ..Opening::default()
        }
    }

    /// What it was answered, or `None` where it is as [`Opening::of`] made it.
    pub fn answered(&self) -> Option<Answer> {
        let answer = raw::Answer {
            place: self.place,
            line: self.line,
            column: self.column,
            events: self.events,
            steps: self.steps,
            verdict: 0,
            number: self.answer,
            r#where: self.r#where,
            note: self.note,
        };
        (self.answer != UNANSWERED).then(|| Answer::from(answer))
    }

    /// Its events, in the buffer that was lent.
    pub fn events_in<'a>(&self, words: &'a [u32]) -> Events<'a> {
        Events::in_buffer(words, self.first.saturating_mul(EVENT_WORDS), self.events)
    }
}
