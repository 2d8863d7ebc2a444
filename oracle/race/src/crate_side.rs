//! The crate's own modules, through the door.
//!
//! Made once, before the first round: the options, among them the verdict
//! source, and the list that it says; a pipeline has these for all its pages.
//!
//! A round of a page: the page is looked through for bytes that document 01
//! does not take; a tokenizer is made and run to its end; the message that
//! stopped it is read; its events become a list of marks. So a round ends as
//! one of the product does: with an answer and a list of events in types of
//! Rust. The door also copies each body that it is asked about, and the list of
//! verdicts: a copy of memory, beside the walk over all events for which the
//! crate asks. Both lists are freed.

use crate::case::{Case, Page, Verdicts};
use crate::seen::{Digest, Seen};
use judge::{Answer, Judge, Kind, Outcome, Scan, Verdict};

/// The number of each verdict: the one that the bindings' `drive` gives, so that
/// answers that carry it can be compared.
const NUMBER: u32 = 1;

pub struct CrateSide<'a> {
    judge: Judge,
    scans: Vec<(&'a Page, Vec<Verdict>)>,
}

impl CrateSide<'_> {
    pub fn new(case: &Case) -> CrateSide<'_> {
        let with_verdicts = |page| (page, verdicts(page));
        CrateSide {
            judge: Judge::new(),
            scans: case.pages.iter().map(with_verdicts).collect(),
        }
    }

    /// Scan each page, one after the other.
    pub fn round(&self, mut take: impl FnMut(Outcome)) {
        for (page, verdicts) in &self.scans {
            take(self.judge.judge(&Scan {
                construct: page.construct,
                kind: Kind::Flow,
                asks: page.verdicts != Verdicts::None,
                interrupt: false,
                start: 0,
                page: &page.bytes,
                verdicts,
            }));
        }
    }

    /// What a round comes to.
    pub fn seen(&self) -> Seen {
        let mut seen = Seen::default();
        self.round(|outcome| self.see(&mut seen, &outcome));
        seen
    }

    /// Add what came of a page.
    pub fn see(&self, seen: &mut Seen, outcome: &Outcome) {
        let mut digest = Digest::default();
        for mark in &outcome.events {
            let place = mark.place;
            let numbers = [place.offset, place.line, place.column, mark.passed];
            digest.add(mark.exit, self.judge.label(mark), numbers);
        }
        let answer = match outcome.answer {
            Answer::Done { end } => format!("done {end}"),
            Answer::VerdictEof { place, number } => format!("verdict-eof {place} {number}"),
            ref other => format!("crate: {other:?}"),
        };
        seen.add(&answer, outcome.events.len(), digest);
    }
}

/// What the verdict source says: no page asks more often than it has bytes.
fn verdicts(page: &Page) -> Vec<Verdict> {
    match page.verdicts {
        Verdicts::None => vec![],
        Verdicts::AllOk => vec![Verdict::Ok],
        Verdicts::AllUnfinished => {
            vec![Verdict::Unfinished { number: NUMBER }; page.bytes.len()]
        }
    }
}
