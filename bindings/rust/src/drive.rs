//! A whole scan with a closure that judges bodies.

use crate::{
    scratch_enough, steps_enough, words_enough, Answer, Body, Events, Job, Refusal, Scan, Verdict,
    EVENT_WORDS,
};
use std::num::NonZeroU16;

/// What a closure says of a body: the three cases of the crate `markdown`'s `MdxSignal`.
#[derive(Clone, Debug, Eq, PartialEq)]
pub enum Signal {
    /// The body is whole.
    Ok,
    /// The body could go on: why it is not whole yet.
    Eof(String),
    /// The body is wrong: why, and the offset in the body.
    Error(String, usize),
}

/// What a scan that was driven to its end came to.
#[derive(Clone, Debug, Eq, PartialEq)]
pub struct Driven {
    /// The scan's answer.
    pub answer: Answer,
    /// The message of the closure's verdict that ended the scan, if one did.
    pub message: Option<String>,
    /// How many bodies the closure judged.
    pub questions: usize,
    /// Whether the scan was ended because it asked once more than it may.
    pub limit_reached: bool,
    words: Vec<u32>,
}

impl Driven {
    /// The offset behind the construct, where it is whole.
    pub fn end(&self) -> Option<usize> {
        self.answer.end()
    }

    /// The scan's events.
    pub fn events(&self) -> Events<'_> {
        Events::new(&self.words)
    }

    /// The events as words of an event buffer.
    pub fn into_words(self) -> Vec<u32> {
        self.words
    }

    fn refused(refusal: Refusal) -> Driven {
        Driven {
            answer: Answer::Refused(refusal),
            message: None,
            questions: 0,
            limit_reached: false,
            words: Vec::new(),
        }
    }
}

/// Scan a page to the construct's end, with a closure that judges each body. The job asks, whatever
/// it says itself.
///
/// Each `}` of an expression asks again, with a longer body. So that no page can make the closure
/// read tens of thousands of bodies, it is called `limit` times at most: where the scan would ask
/// once more, it is ended with an error at the body's end, and the result says that the limit was
/// reached.
///
/// The event buffer and the scratch are allocated here, 96 bytes and at most one and a half for
/// each byte of the page; what the events don't use is given back.
///
/// ```
/// use tarredlath::{drive, Construct, Job, Signal};
///
/// let quotes_are_closed = |body: &tarredlath::Body| {
///     match body.bytes.iter().filter(|byte| **byte == b'"').count() % 2 {
///         0 => Signal::Ok,
///         _ => Signal::Eof("a string is not closed".into()),
///     }
/// };
/// let job = Job::new(Construct::Expression);
///
/// let whole = drive(br#"{"}"} and more"#, &job, 100, quotes_are_closed);
/// assert_eq!((whole.end(), whole.questions), (Some(5), 2));
///
/// let cut = drive(br#"{"}} and more"#, &job, 100, quotes_are_closed);
/// assert_eq!(cut.message.as_deref(), Some("a string is not closed"));
///
/// let long = [b"{\"".to_vec(), vec![b'}'; 40_000]].concat();
/// let limited = drive(&long, &job, 100, quotes_are_closed);
/// assert!(limited.limit_reached && limited.questions == 100);
/// ```
pub fn drive<F>(page: &[u8], job: &Job, limit: usize, judge: F) -> Driven
where
    F: FnMut(&Body<'_>) -> Signal,
{
    let Some(words) = words_enough(page.len()) else {
        return Driven::refused(Refusal::TooLong);
    };
    let job = Job { asks: true, ..*job };
    match Scan::new(page, &job, words) {
        Ok(scan) => run_to_end(scan, page, words, Questions::new(limit, judge)),
        Err(refusal) => Driven::refused(refusal),
    }
}

/// Run, and answer each question, until there are no more.
fn run_to_end<F>(mut scan: Scan, page: &[u8], words: usize, mut questions: Questions<F>) -> Driven
where
    F: FnMut(&Body<'_>) -> Signal,
{
    let mut events = vec![0; words];
    let mut scratch = vec![0; scratch_enough(page.len())];
    let answer = loop {
        let answer = scan.run(page, &mut events, steps_enough(page.len()));
        if !matches!(answer, Answer::Asking { .. }) {
            break answer;
        }
        let heard = scan
            .body(page, &mut scratch)
            .map(|body| questions.ask(&body))
            .and_then(|verdict| scan.give(verdict));
        if let Err(refusal) = heard {
            break Answer::Refused(refusal);
        }
    };
    events.truncate(answer.tally().events.saturating_mul(EVENT_WORDS));
    events.shrink_to_fit();
    Driven {
        answer,
        message: questions.message_of(answer),
        questions: questions.asked,
        limit_reached: questions.limit_reached,
        words: events,
    }
}

/// The number of every verdict of the closure's: one is enough, since a scan that ends by a verdict
/// ends by the last that was not Ok.
const OF_CLOSURE: NonZeroU16 = NonZeroU16::MIN;

/// The closure, how often it was called, and its last message.
struct Questions<F> {
    limit: usize,
    asked: usize,
    limit_reached: bool,
    last_message: Option<String>,
    judge: F,
}

impl<F> Questions<F>
where
    F: FnMut(&Body<'_>) -> Signal,
{
    fn new(limit: usize, judge: F) -> Questions<F> {
        Questions {
            limit,
            asked: 0,
            limit_reached: false,
            last_message: None,
            judge,
        }
    }

    /// The verdict on a body: the closure's, or an error past the limit.
    fn ask(&mut self, body: &Body<'_>) -> Verdict {
        if self.asked >= self.limit {
            self.limit_reached = true;
            return Verdict::Error {
                number: OF_CLOSURE,
                offset: body.bytes.len(),
            };
        }
        self.asked += 1;
        match (self.judge)(body) {
            Signal::Ok => Verdict::Ok,
            Signal::Eof(message) => {
                self.last_message = Some(message);
                Verdict::Unfinished(OF_CLOSURE)
            }
            Signal::Error(message, offset) => {
                self.last_message = Some(message);
                Verdict::Error {
                    number: OF_CLOSURE,
                    offset,
                }
            }
        }
    }

    /// The closure's message, where its verdict ended the scan.
    fn message_of(&mut self, answer: Answer) -> Option<String> {
        match answer {
            Answer::VerdictError { .. } if self.limit_reached => None,
            Answer::VerdictError { .. } | Answer::VerdictEof { .. } => self.last_message.take(),
            _ => None,
        }
    }
}
