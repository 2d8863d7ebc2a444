//! Single scans.

use crate::raw::{self, number};
use crate::{Answer, Body, Job, Refusal, Verdict};

/// A scan of one page, which makes steps, pauses and asks. It is a state of numbers alone: copy it,
/// store it as its [`raw::Scan`], and go on with either. Page and event buffer are lent to each
/// call, and must be the same each time.
///
/// ```
/// use std::num::NonZeroU16;
/// use tarredlath::{scratch_enough, words_enough, Answer, Construct, Job, Scan, Verdict};
///
/// let page = b"{a}b}";
/// let mut events = vec![0; words_enough(page.len()).unwrap()];
/// let mut scratch = vec![0; scratch_enough(page.len())];
/// let job = Job { asks: true, ..Job::new(Construct::Expression) };
///
/// let mut scan = Scan::new(page, &job, events.len())?;
/// assert!(matches!(scan.run(page, &mut events, 100), Answer::Asking { .. }));
/// assert_eq!(scan.body(page, &mut scratch)?.bytes, b"a");
/// scan.give(Verdict::Unfinished(NonZeroU16::MIN))?;
/// assert!(matches!(scan.run(page, &mut events, 100), Answer::Asking { .. }));
/// assert_eq!(scan.body(page, &mut scratch)?.bytes, b"a}b");
/// scan.give(Verdict::Ok)?;
/// assert_eq!(scan.run(page, &mut events, 100).end(), Some(5));
/// # Ok::<(), tarredlath::Refusal>(())
/// ```
#[derive(Clone, Copy, Debug, Eq, PartialEq)]
pub struct Scan {
    raw: raw::Scan,
}

/// A scan that was made in one call, and its answer.
#[derive(Clone, Copy, Debug, Eq, PartialEq)]
pub struct Ran {
    /// The scan to go on with where the answer is `Asking` or `Paused`.
    pub scan: Scan,
    /// The answer.
    pub answer: Answer,
}

/// A single scan in one call, with at most `allowance` steps. The events stand in front of
/// `events`, [`Tally::events`](crate::Tally) of them.
///
/// ```
/// use tarredlath::{scan_once, steps_enough, words_enough, Construct, Events, Job};
///
/// let page = b"<a b='c'/> and more";
/// let mut words = vec![0; words_enough(page.len()).unwrap()];
/// let job = Job::new(Construct::Tag);
/// let answer = scan_once(page, &job, steps_enough(page.len()), &mut words).answer;
/// assert_eq!(answer.end(), Some(10));
/// let first = Events::in_buffer(&words, 0, answer.tally().events).next().unwrap();
/// assert_eq!(first.to_string(), "enter jsx-flow-tag 0 1 1");
/// ```
pub fn scan_once(page: &[u8], job: &Job, allowance: usize, events: &mut [u32]) -> Ran {
    let asked = job.asked_of(0, page.len());
    let ran = raw::scan_once(page, &asked, allowance, events);
    Ran {
        scan: Scan { raw: ran.scan },
        answer: Answer::from(ran.answer),
    }
}

impl Scan {
    /// A scan that has made no step, over an event buffer that will have `words` words.
    pub fn new(page: &[u8], job: &Job, words: usize) -> Result<Scan, Refusal> {
        let ran = raw::scan_new(page, &job.asked_of(0, page.len()), words);
        match ran.answer.number {
            number::PAUSED => Ok(Scan { raw: ran.scan }),
            _ => Err(Refusal::from(ran.answer)),
        }
    }

    /// Make at most `allowance` steps. Events are written behind those that the scan has written
    /// before.
    pub fn run(&mut self, page: &[u8], events: &mut [u32], allowance: usize) -> Answer {
        let ran = raw::scan_run(self.raw, page, events, allowance);
        self.raw = ran.scan;
        Answer::from(ran.answer)
    }

    /// Give the verdict that the scan asked for. The next run applies it.
    pub fn give(&mut self, verdict: Verdict) -> Result<(), Refusal> {
        let ran = raw::scan_give(self.raw, verdict.into());
        self.raw = ran.scan;
        match ran.answer.number {
            number::KEPT => Ok(()),
            _ => Err(Refusal::from(ran.answer)),
        }
    }

    /// The body that the scan asks about. A scratch of
    /// [`scratch_enough`](crate::scratch_enough) bytes is enough.
    pub fn body<'a>(&self, page: &'a [u8], scratch: &'a mut [u8]) -> Result<Body<'a>, Refusal> {
        let body = raw::scan_body(self.raw, page, scratch);
        Body::found(body, page, scratch)
    }

    /// The answer of the scan as it stands.
    pub fn answer(&self) -> Answer {
        Answer::from(raw::scan_answer(self.raw))
    }

    /// The scan as numbers.
    pub fn raw(&self) -> &raw::Scan {
        &self.raw
    }
}

/// A scan that was stored as numbers. Numbers that no scan has are refused by the calls.
impl From<raw::Scan> for Scan {
    fn from(raw: raw::Scan) -> Scan {
        Scan { raw }
    }
}
