//! Sets of cases, and of lists of jobs.
//!
//! Every single case is run through the judge before it is written. So cases outside
//! document 01's domain are left out, verdicts are only given where the run
//! asks for them, and an error points at a byte that the body has, or, in the
//! set `tabs`, past it.

pub mod boundaries;
pub mod braces;
pub mod exhaustive;
pub mod lists;
pub mod random;
pub mod starts;
pub mod states;

use crate::case::Case;
use crate::chance::Chance;
use crate::list::List;
use judge::{Answer, Judge, Kind, Outcome, Verdict};
use std::io::{self, Write};
use std::panic::{catch_unwind, AssertUnwindSafe};

/// Longest page that the product's program `cases` reads.
pub const LONGEST_PAGE: usize = 60_000;

/// Where cases go.
pub struct Sink<W> {
    output: W,
    judge: Judge,
    pub chance: Chance,
    /// Whether to ask, for each case, for a run in pieces of chance length.
    pub allowances: bool,
    /// One of how many cases to write.
    pub every: u64,
    /// How many cases came so far.
    seen: u64,
    /// How many cases were written.
    pub written: u64,
    /// How many cases were left out, being outside the domain.
    pub outside: u64,
}

impl<W: Write> Sink<W> {
    pub fn new(output: W, seed: u64) -> Sink<W> {
        Sink {
            output,
            judge: Judge::new(),
            chance: Chance::new(seed),
            allowances: false,
            every: 1,
            seen: 0,
            written: 0,
            outside: 0,
        }
    }

    /// Run a case. `None` where the crate panics: then the case should be
    /// written and looked into, so it isn't an error here.
    fn run(&self, case: &Case) -> Option<Outcome> {
        catch_unwind(AssertUnwindSafe(|| case.judge(&self.judge))).ok()
    }

    /// Write a case that has run.
    fn write(&mut self, case: &Case, outcome: Option<&Outcome>) -> io::Result<()> {
        if outcome.is_some_and(|d| matches!(d.answer, Answer::Outside { .. })) {
            self.outside += 1;
            return Ok(());
        }
        if !self.is_next() {
            return Ok(());
        }
        let mut line = case.line();
        if self.allowances {
            line.push_str(&format!(" allowance={}", 1 + self.chance.below(40)));
        }
        self.write_line(line)
    }

    /// Write a list of jobs, which no crate judges as a whole.
    pub fn put_list(&mut self, list: &List) -> io::Result<()> {
        if self.is_next() {
            self.write_line(list.line())?;
        }
        Ok(())
    }

    /// Whether what comes now is one of those that are written.
    fn is_next(&mut self) -> bool {
        self.seen += 1;
        self.seen.is_multiple_of(self.every)
    }

    fn write_line(&mut self, mut line: String) -> io::Result<()> {
        self.written += 1;
        line.push('\n');
        self.output.write_all(line.as_bytes())
    }

    /// Write a case as it is.
    pub fn put(&mut self, case: &Case) -> io::Result<Option<Outcome>> {
        let outcome = self.run(case);
        self.write(case, outcome.as_ref())?;
        Ok(outcome)
    }

    /// Write a case with every list of at most `most` verdicts that its run
    /// can use (of numbers and offsets, a few).
    ///
    /// Tells whether some run came to the end of the page, so that a longer
    /// page could make a difference.
    pub fn put_all(&mut self, case: &mut Case, most: usize) -> io::Result<bool> {
        self.put_lists(case, most, some_offsets)
    }

    /// The same, with errors at every byte of a body and past it.
    pub fn put_everywhere(&mut self, case: &mut Case, most: usize) -> io::Result<bool> {
        self.put_lists(case, most, |len| (0..len + 2).collect())
    }

    /// The same, with errors at the offsets that are given for a length.
    fn put_lists(
        &mut self,
        case: &mut Case,
        most: usize,
        offsets: fn(usize) -> Vec<usize>,
    ) -> io::Result<bool> {
        let outcome = self.put(case)?;
        match outcome.map(|d| d.answer) {
            Some(Answer::Asking { body, .. }) => {
                let mut open = false;
                if case.verdicts.len() < most {
                    for verdict in verdicts(case.verdicts.len(), offsets(body.len())) {
                        case.verdicts.push(verdict);
                        open |= self.put_lists(case, most, offsets)?;
                        case.verdicts.pop();
                    }
                }
                Ok(open)
            }
            Some(Answer::Eof { .. } | Answer::VerdictEof { .. }) => Ok(true),
            Some(Answer::Nok) => {
                // At the end of the page, or before? Byte 1 tells: no state
                // takes it for white space.
                case.page.push(1);
                let longer = self.run(case);
                case.page.pop();
                Ok(longer.is_some_and(|d| d.answer != Answer::Nok))
            }
            _ => Ok(false),
        }
    }

    /// Write a case with verdicts drawn by chance, as its run asks for them.
    pub fn put_drawn(&mut self, case: &mut Case, most: usize) -> io::Result<()> {
        loop {
            let outcome = self.run(case);
            match outcome.as_ref().map(|d| &d.answer) {
                Some(Answer::Asking { body, .. }) if case.verdicts.len() < most => {
                    let number = 1 + self.chance.below(65_535) as u32;
                    let verdict = match self.chance.below(10) {
                        0 if !body.is_empty() => Verdict::Error {
                            number,
                            offset: self.chance.below(body.len()),
                        },
                        1..=5 => Verdict::Ok,
                        _ => Verdict::Unfinished { number },
                    };
                    case.verdicts.push(verdict);
                }
                _ => return self.write(case, outcome.as_ref()),
            }
        }
    }

    pub fn finish(mut self) -> io::Result<()> {
        self.output.flush()
    }
}

/// A few offsets in a body.
fn some_offsets(body_len: usize) -> Vec<usize> {
    if body_len == 0 {
        return vec![];
    }
    let mut offsets = vec![0, body_len / 2, body_len - 1];
    offsets.dedup();
    offsets
}

/// Verdicts to try on a body, after `before` others.
fn verdicts(before: usize, offsets: Vec<usize>) -> Vec<Verdict> {
    let number = before as u32 + 1;
    let mut verdicts = vec![Verdict::Ok, Verdict::Unfinished { number }];
    verdicts.extend(offsets.into_iter().map(|offset| Verdict::Error {
        number: 100 + number,
        offset,
    }));
    verdicts
}

/// A kind for a page: it only names events, so one for each page will do.
fn kind_for(page: &[u8]) -> Kind {
    let sum: usize = page.iter().map(|d| usize::from(*d)).sum();
    if (sum + page.len()).is_multiple_of(2) {
        Kind::Flow
    } else {
        Kind::Text
    }
}
