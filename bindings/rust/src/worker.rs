//! A worker, which keeps sixteen pages going.

use crate::raw::{self, number};
use crate::{Answer, Body, BodyKind, Events, Job, Refusal, Verdict};
use std::ops::Range;

/// How many places a worker has.
pub const PLACES: usize = raw::PLACES;

/// A worker of sixteen places, each of which scans a page, a few steps of each in turn. All pages
/// are lent to a turn as one slice, and all events go to one buffer, of which each place has a
/// sixteenth. It is a state of numbers alone, as a [`Scan`](crate::Scan) is.
///
/// ```
/// use tarredlath::{words_enough, Construct, Job, Waits, Worker, PLACES};
///
/// let lent = b"{}<a>";
/// let mut events = vec![0; PLACES * words_enough(3).unwrap()];
/// let mut worker = Worker::start(4, events.len())?.worker;
/// worker.admit(lent, 0..2, &Job::new(Construct::Expression))?;
/// let tag = worker.admit(lent, 2..5, &Job::new(Construct::Tag))?;
/// while worker.turn(lent, &mut events)?.is_some() {}
///
/// let view = worker.view(tag).unwrap();
/// assert_eq!(view.waits, Waits::Collect);
/// assert_eq!(view.events_in(&events).len(), 10);
/// assert_eq!(worker.collect(tag)?.end(), Some(3));
/// # Ok::<(), tarredlath::Refusal>(())
/// ```
#[derive(Clone, Copy, Debug, Eq, PartialEq)]
pub struct Worker {
    raw: raw::Worker,
}

/// A worker that was started.
#[derive(Clone, Copy, Debug, Eq, PartialEq)]
pub struct Started {
    /// The worker.
    pub worker: Worker,
    /// No page of up to so many bytes can run full in it; `None` where no length is promised.
    pub longest: Option<usize>,
}

/// What a place waits for.
#[derive(Clone, Copy, Debug, Eq, Hash, PartialEq)]
#[repr(u8)]
pub enum Waits {
    /// A page: it is free.
    Page = 0,
    /// A turn: it runs.
    Turn = 1,
    /// A verdict: it asks.
    Verdict = 2,
    /// To be collected: its page has ended.
    Collect = 3,
}

/// What there is of a place.
#[derive(Clone, Debug, Eq, PartialEq)]
pub struct View {
    /// What it waits for.
    pub waits: Waits,
    /// Where its page is in the lent bytes.
    pub page: Range<usize>,
    /// The kind of body that it asks about.
    pub asks_about: Option<BodyKind>,
    /// The word of the event buffer at which its events begin.
    pub first_word: usize,
    /// How many events are written.
    pub events: usize,
}

impl Worker {
    /// A worker whose turns have `steps` steps, 1 to 4096, over an event buffer that will have
    /// `words` words.
    pub fn start(steps: usize, words: usize) -> Result<Started, Refusal> {
        let started = raw::worker_start(steps, words);
        match started.number {
            number::STARTED => Ok(Started {
                worker: Worker {
                    raw: started.worker,
                },
                longest: (started.fits == 1).then_some(started.longest),
            }),
            other => Err(Refusal::from_number(other)),
        }
    }

    /// Give a page the lowest free place, and say which. Its bytes are `page` of the lent ones,
    /// none where the range runs backwards, and must stay there until it is collected.
    pub fn admit(&mut self, lent: &[u8], page: Range<usize>, job: &Job) -> Result<usize, Refusal> {
        let asked = job.asked_of(page.start, page.len());
        let answer = self.take(raw::worker_admit(self.raw, lent, &asked));
        match answer.number {
            number::PLACED => Ok(answer.place),
            _ => Err(Refusal::from(answer)),
        }
    }

    /// Make a turn of the next place that runs, and say which it was; `None` where no place runs.
    /// The event buffer must have the length of the start.
    pub fn turn(&mut self, lent: &[u8], events: &mut [u32]) -> Result<Option<usize>, Refusal> {
        let answer = self.take(raw::worker_turn(self.raw, lent, events));
        match answer.number {
            number::SERVED => Ok(Some(answer.place)),
            number::IDLE => Ok(None),
            _ => Err(Refusal::from(answer)),
        }
    }

    /// Give the verdict that a place asked for. Its next turn applies it.
    pub fn verdict(&mut self, place: usize, verdict: Verdict) -> Result<(), Refusal> {
        let answer = self.take(raw::worker_verdict(self.raw, place, verdict.into()));
        match answer.number {
            number::KEPT => Ok(()),
            _ => Err(Refusal::from(answer)),
        }
    }

    /// The body that a place asks about. A scratch of
    /// [`scratch_enough`](crate::scratch_enough) bytes is enough.
    pub fn body<'a>(
        &self,
        lent: &'a [u8],
        place: usize,
        scratch: &'a mut [u8],
    ) -> Result<Body<'a>, Refusal> {
        let body = raw::worker_body(self.raw, lent, place, scratch);
        let page = lent.get(raw::worker_view(self.raw, place).at..);
        Body::found(body, page.unwrap_or_default(), scratch)
    }

    /// The answer of a page that has ended, whose place is free again. Its events stay in the
    /// buffer until a turn overwrites them: look at the place's [`View`] before.
    pub fn collect(&mut self, place: usize) -> Result<Answer, Refusal> {
        let answer = self.take(raw::worker_collect(self.raw, place));
        match Answer::from(answer) {
            Answer::Refused(refusal) => Err(refusal),
            answer => Ok(answer),
        }
    }

    /// What there is of a place; `None` where there is no such place.
    pub fn view(&self, place: usize) -> Option<View> {
        let view = raw::worker_view(self.raw, place);
        Some(View {
            waits: Waits::from_number(view.waits)?,
            page: view.at..view.at.saturating_add(view.length),
            asks_about: BodyKind::from_number(view.body),
            first_word: view.first,
            events: view.events,
        })
    }

    /// The worker as numbers.
    pub fn raw(&self) -> &raw::Worker {
        &self.raw
    }

    /// Go on with the worker that a call handed back, whatever it answered.
    fn take(&mut self, called: raw::Called) -> raw::Answer {
        self.raw = called.worker;
        called.answer
    }
}

/// A worker that was stored as numbers. Numbers that no worker has are refused by the calls.
impl From<raw::Worker> for Worker {
    fn from(raw: raw::Worker) -> Worker {
        Worker { raw }
    }
}

impl Waits {
    fn from_number(number: u8) -> Option<Waits> {
        [Waits::Page, Waits::Turn, Waits::Verdict, Waits::Collect]
            .into_iter()
            .find(|waits| *waits as u8 == number)
    }
}

impl View {
    /// The place's events, in the buffer that is lent to the turns.
    pub fn events_in<'a>(&self, words: &'a [u32]) -> Events<'a> {
        Events::in_buffer(words, self.first_word, self.events)
    }
}
