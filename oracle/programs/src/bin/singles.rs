//! Takes answered lists apart into single cases with their answers.
//!
//! Reads what the product's program `cases` wrote for lists,
//!
//! `LIST => ANSWER steps N events N ; .. | events ..`,
//!
//! and writes, for each job that was answered, the single case that must have
//! the same answer: its room is what the jobs before it left, its events are
//! its own of the list's:
//!
//! `CASE => ANSWER | steps N | events ..`.
//!
//! What can be told by counting is checked here, and a list that fails ends the
//! program with status 1: as many parts as jobs, none answered behind the first
//! Full, refused exactly where a job has it refused, as many events as the
//! parts say, and no more than fit.

use programs::case::decimal;
use programs::list::{Job, List};
use std::io::{self, BufRead, BufWriter, Write};
use std::process::ExitCode;

/// A list with its answer.
struct Answered<'a> {
    list: List,
    refused: bool,
    /// A part for each job; `None` where the record is left as lent.
    parts: Vec<Option<Part<'a>>>,
    /// The events of all jobs.
    events: Vec<&'a str>,
}

/// A job's part of a list's answer.
#[derive(Clone, Copy)]
struct Part<'a> {
    answer: &'a str,
    steps: usize,
    events: usize,
}

#[derive(Default)]
struct Counts {
    lists: usize,
    jobs: usize,
    answered: usize,
}

fn main() -> ExitCode {
    match singles() {
        Ok(counts) => {
            eprintln!(
                "{} lists, {} jobs, {} answered",
                counts.lists, counts.jobs, counts.answered
            );
            ExitCode::SUCCESS
        }
        Err(problem) => {
            eprintln!("singles: {problem}");
            ExitCode::FAILURE
        }
    }
}

fn singles() -> io::Result<Counts> {
    let mut output = BufWriter::with_capacity(1 << 20, io::stdout().lock());
    let mut counts = Counts::default();
    for line in io::stdin().lock().lines() {
        let line = line?;
        // The sum that the product's program writes last.
        if line.contains(" cases, ") && line.ends_with(" differ") {
            continue;
        }
        let problem = |why| io::Error::other(format!("{why}: {line}"));
        let answered = Answered::parse(&line).ok_or_else(|| problem("not an answered list"))?;
        answered.check().map_err(problem)?;
        counts.lists += 1;
        counts.jobs += answered.list.jobs.len();
        counts.answered += answered.write_singles(&mut output)?;
    }
    output.flush()?;
    Ok(counts)
}

impl Answered<'_> {
    fn parse(line: &str) -> Option<Answered<'_>> {
        let (list, rest) = line.split_once(" =>")?;
        let (answer, events) = rest.split_once(" | events")?;
        let refused = answer == " BadCall";
        let parts = if refused { "" } else { answer };
        Some(Answered {
            list: List::parse(list)?,
            refused,
            parts: words(parts, " ; ")?.map(part).collect::<Option<_>>()?,
            events: words(events, " ")?.collect(),
        })
    }

    /// Say what is wrong by counting.
    fn check(&self) -> Result<(), &'static str> {
        if self.refused != self.list.jobs.iter().any(Job::is_refused) {
            return Err("refused, and no job has it refused, or the other way round");
        }
        if !self.refused && self.parts.len() != self.list.jobs.len() {
            return Err("not as many parts as jobs");
        }
        let is_full = |part: &Option<Part>| part.is_some_and(|d| d.answer.starts_with("Full "));
        let full = self.parts.iter().position(is_full);
        let filled = full.map_or(self.parts.len(), |at| at + 1);
        let is_right = |(at, part): (usize, &Option<Part>)| part.is_some() == (at < filled);
        if !self.parts.iter().enumerate().all(is_right) {
            return Err("`-` is not what stands behind the first Full, and nowhere else");
        }
        if self.events.len() != self.parts.iter().flatten().map(|d| d.events).sum() {
            return Err("not as many events as the parts say");
        }
        if self.events.len() > self.list.lent() {
            return Err("more events than fit");
        }
        Ok(())
    }

    /// Write the single case of each part with its answer; tells how many.
    fn write_singles(&self, output: &mut impl Write) -> io::Result<usize> {
        let mut written = 0;
        let mut used = 0;
        for (job, part) in self.list.jobs.iter().zip(&self.parts) {
            let Some(part) = part else { break };
            let case = self.list.single(job, self.list.lent() - used);
            write!(output, "{} => {}", case.line(), part.answer)?;
            write!(output, " | steps {} | events", part.steps)?;
            for event in &self.events[used..used + part.events] {
                write!(output, " {event}")?;
            }
            writeln!(output)?;
            used += part.events;
            written += 1;
        }
        Ok(written)
    }
}

/// `ANSWER steps N events N`, or `-`.
fn part(text: &str) -> Option<Option<Part<'_>>> {
    if text == "-" {
        return Some(None);
    }
    let (rest, events) = text.rsplit_once(" events ")?;
    let (answer, steps) = rest.rsplit_once(" steps ")?;
    Some(Some(Part {
        answer,
        steps: decimal(steps)?,
        events: decimal(events)?,
    }))
}

/// The words of a list that a space opens, if it is not empty.
fn words<'a>(text: &'a str, between: &'a str) -> Option<impl Iterator<Item = &'a str>> {
    let rest = match text {
        "" => None,
        text => Some(text.strip_prefix(' ')?.split(between)),
    };
    Some(rest.into_iter().flatten())
}
