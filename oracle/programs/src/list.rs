//! Lists of jobs as the product's program `cases` reads them.
//!
//! `batch HEXPAGE room=EVENTS JOB JOB ..`, a job being
//! `CONSTRUCT:KIND:FLAGS:START`.

use crate::case::{self, decimal, from_hex, push_hex, Case};
use crate::sets::LONGEST_PAGE;
use judge::{Construct, Kind};
use std::fmt::Write as _;

/// Events that the program has room for: more than these are not lent.
pub const MOST_EVENTS: usize = 6 * (LONGEST_PAGE + 1);

/// The flag that says that the construct would interrupt another.
pub const INTERRUPT: u32 = 2;

/// A list.
#[derive(Clone, Debug, Eq, PartialEq)]
pub struct List {
    pub page: Vec<u8>,
    /// Events that fit.
    pub room: usize,
    pub jobs: Vec<Job>,
}

/// One scan of a list's page.
#[derive(Clone, Copy, Debug, Eq, PartialEq)]
pub struct Job {
    pub construct: Construct,
    pub kind: Kind,
    pub flags: u32,
    pub start: usize,
}

impl List {
    /// Read a line.
    pub fn parse(line: &str) -> Option<List> {
        let mut fields = line.strip_prefix("batch ")?.split(' ');
        Some(List {
            page: from_hex(fields.next()?)?,
            room: decimal(fields.next()?.strip_prefix("room=")?)?,
            jobs: fields.map(Job::parse).collect::<Option<_>>()?,
        })
    }

    /// Write the line.
    pub fn line(&self) -> String {
        let mut line = String::from("batch ");
        push_hex(&mut line, &self.page);
        write!(line, " room={}", self.room).expect("write to a string");
        for job in &self.jobs {
            line.push(' ');
            job.push(&mut line);
        }
        line
    }

    /// The events that the program lends it words for.
    pub fn lent(&self) -> usize {
        self.room.min(MOST_EVENTS)
    }

    /// The single case of a job, with room for so many events.
    pub fn single(&self, job: &Job, room: usize) -> Case {
        Case {
            kind: job.kind,
            interrupt: job.flags & INTERRUPT != 0,
            start: job.start,
            room: Some(room),
            ..Case::new(job.construct, false, self.page.as_slice())
        }
    }
}

impl Job {
    fn parse(word: &str) -> Option<Job> {
        let mut fields = word.split(':');
        let job = Job {
            construct: case::construct(fields.next()?)?,
            kind: case::kind(fields.next()?)?,
            flags: u32::try_from(decimal(fields.next()?)?).ok()?,
            start: decimal(fields.next()?)?,
        };
        fields.next().is_none().then_some(job)
    }

    fn push(&self, line: &mut String) {
        let construct = case::construct_letter(self.construct);
        let kind = case::kind_letter(self.kind);
        write!(line, "{construct}:{kind}:{}:{}", self.flags, self.start)
            .expect("write to a string");
    }

    /// Whether it has the whole list refused: a list has no verdicts and no
    /// ESM.
    pub fn is_refused(&self) -> bool {
        self.construct == Construct::Esm || ![0, INTERRUPT].contains(&self.flags)
    }
}
