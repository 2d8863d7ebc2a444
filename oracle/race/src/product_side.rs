//! The product, through its Rust bindings.
//!
//! A round of a page: it is checked and scanned, bodies are judged, and the
//! words become a list of events. So a round ends as one of the crate's does:
//! with an answer and a list of events in types of Rust. The list is freed.
//!
//! The event buffer has room enough for any page of that length, the scratch
//! for any body. They are made once, before the first round, since the
//! library's functions are lent their memory; or in each round and freed, where
//! the case says so: by `drive`, or for a page that asks nothing by hand.
//!
//! A round of a worker: the pages are laid side by side in one slice, the
//! worker is started, each page is admitted and checked, turns are made until
//! no place runs, bodies are judged, each page's events become a list, and it
//! is collected.

use crate::case::{Case, Page, Verdicts, Way};
use crate::seen::{Digest, Seen};
use judge::Construct as Given;
use std::num::NonZeroU16;
use tarredlath::{
    drive, scan_once, scratch_enough, steps_enough, words_enough, Answer, Construct, Edge, Event,
    Events, Job, Refusal, Scan, Signal, Verdict, Waits, Worker, PLACES,
};

/// The steps of a worker's turn: what the product's README calls a fair choice.
const TURN: usize = 2048;

/// What came of a page.
pub struct Made {
    answer: Answer,
    events: Vec<Event>,
}

pub struct ProductSide<'a> {
    case: &'a Case,
    kept: Buffers,
}

/// What is lent to the library.
struct Buffers {
    words: Vec<u32>,
    scratch: Vec<u8>,
}

impl Buffers {
    /// Enough for so many pages of up to `length` bytes at a time.
    fn new(pages: usize, length: usize) -> Buffers {
        let words = words_enough(length).expect("no page of a case is too long");
        Buffers {
            words: vec![0; pages * words],
            scratch: vec![0; scratch_enough(length)],
        }
    }
}

impl ProductSide<'_> {
    pub fn new(case: &Case) -> ProductSide<'_> {
        let lengths = case.pages.iter().map(|page| page.bytes.len());
        let longest = lengths.max().unwrap_or(0);
        let kept = match case.way {
            Way::Kept => Buffers::new(1, longest),
            Way::Worker => Buffers::new(PLACES, longest),
            Way::Fresh => Buffers::new(0, 0),
        };
        ProductSide { case, kept }
    }

    /// Scan each page, in the case's way, and hand over which it was and what
    /// came of it.
    pub fn round(&mut self, mut take: impl FnMut(usize, Made)) {
        if self.case.way == Way::Worker {
            worked(self.case, &mut self.kept, take).expect("a worker takes the pages");
            return;
        }
        for (number, page) in self.case.pages.iter().enumerate() {
            let is_judged = page.verdicts != Verdicts::None;
            let made = match (self.case.way, is_judged) {
                (Way::Fresh, true) => driven(page),
                (Way::Fresh, false) => scanned(page, &mut Buffers::new(1, page.bytes.len())),
                (_, true) => judged(page, &mut self.kept).expect("a scan takes the page"),
                (_, false) => scanned(page, &mut self.kept),
            };
            take(number, made);
        }
    }

    /// What a round comes to. Pages of a worker end in an order of their own:
    /// here they have the case's.
    pub fn seen(&mut self) -> Seen {
        let mut all = vec![];
        self.round(|number, made| all.push((number, made)));
        all.sort_by_key(|(number, _)| *number);
        let mut seen = Seen::default();
        all.iter().for_each(|(_, made)| see(&mut seen, made));
        seen
    }
}

/// One call, in lent memory.
fn scanned(page: &Page, lent: &mut Buffers) -> Made {
    let steps = steps_enough(page.bytes.len());
    let answer = scan_once(&page.bytes, &job(page), steps, &mut lent.words).answer;
    made(answer, &lent.words)
}

/// Call by call, in lent memory: run, fetch the body, give the verdict.
fn judged(page: &Page, lent: &mut Buffers) -> Result<Made, Refusal> {
    let steps = steps_enough(page.bytes.len());
    let mut scan = Scan::new(&page.bytes, &job(page), lent.words.len())?;
    loop {
        let answer = scan.run(&page.bytes, &mut lent.words, steps);
        if !matches!(answer, Answer::Asking { .. }) {
            return Ok(made(answer, &lent.words));
        }
        scan.body(&page.bytes, &mut lent.scratch)?;
        scan.give(verdict(page))?;
    }
}

/// With a closure that judges, as often as it is asked.
fn driven(page: &Page) -> Made {
    let driven = drive(&page.bytes, &job(page), usize::MAX, |_| {
        match page.verdicts {
            Verdicts::AllUnfinished => Signal::Eof("unfinished".into()),
            _ => Signal::Ok,
        }
    });
    Made {
        answer: driven.answer,
        events: driven.events().collect(),
    }
}

/// All pages at a time.
fn worked(
    case: &Case,
    kept: &mut Buffers,
    mut take: impl FnMut(usize, Made),
) -> Result<(), Refusal> {
    let (lent, mut worker) = admitted(case, kept.words.len())?;
    while let Some(place) = worker.turn(&lent, &mut kept.words)? {
        let view = worker.view(place).ok_or(Refusal::BadCall)?;
        match view.waits {
            Waits::Verdict => {
                worker.body(&lent, place, &mut kept.scratch)?;
                worker.verdict(place, verdict(&case.pages[place]))?;
            }
            Waits::Collect => {
                let events = view.events_in(&kept.words).collect();
                let answer = worker.collect(place)?;
                take(place, Made { answer, events });
            }
            Waits::Page | Waits::Turn => {}
        }
    }
    Ok(())
}

/// The pages side by side, and a worker that has them: each has the place of
/// its number, since a page gets the lowest that is free.
fn admitted(case: &Case, words: usize) -> Result<(Vec<u8>, Worker), Refusal> {
    let pages: Vec<&[u8]> = case.pages.iter().map(|page| &page.bytes[..]).collect();
    let lent = pages.concat();
    let mut worker = Worker::start(TURN, words)?.worker;
    let mut from = 0;
    for page in &case.pages {
        let behind = from + page.bytes.len();
        worker.admit(&lent, from..behind, &job(page))?;
        from = behind;
    }
    Ok((lent, worker))
}

fn made(answer: Answer, words: &[u32]) -> Made {
    Made {
        answer,
        events: Events::in_buffer(words, 0, answer.tally().events).collect(),
    }
}

fn verdict(page: &Page) -> Verdict {
    match page.verdicts {
        Verdicts::AllUnfinished => Verdict::Unfinished(NonZeroU16::MIN),
        _ => Verdict::Ok,
    }
}

fn job(page: &Page) -> Job {
    Job {
        asks: page.verdicts != Verdicts::None,
        ..Job::new(match page.construct {
            Given::Expression => Construct::Expression,
            Given::Tag => Construct::Tag,
            Given::Esm => Construct::Esm,
        })
    }
}

fn see(seen: &mut Seen, made: &Made) {
    let mut digest = Digest::default();
    for event in &made.events {
        let place = event.place;
        let passed = usize::from(event.tab_columns);
        let numbers = [place.offset, place.line, place.column, passed];
        digest.add(event.edge == Edge::Exit, event.kind.name(), numbers);
    }
    let answer = match made.answer {
        Answer::Done { end, .. } => format!("done {end}"),
        Answer::VerdictEof { place, number, .. } => format!(
            "verdict-eof {}:{}:{} {number}",
            place.offset, place.line, place.column
        ),
        other => format!("product: {other:?}"),
    };
    seen.add(&answer, made.events.len(), digest);
}
