//! Checks answers by the rule of where a brace closes.
//!
//! Reads what `oracle` or the product's program `cases` wrote,
//!
//! `CASE => ANSWER | [steps N |] events ..`,
//!
//! and holds each counting expression and each counting tag to the rule: a `{`
//! closes at the first later `}` with equally many `{` and `}` between the two.
//!
//! * An expression that starts at a `{` answers Done with the offset behind
//!   the brace that closes it, or, where there is none, Eof 19 at the page's
//!   end, and nothing else.
//! * Where a tag opens an expression stands a `{`, and its marker; the exit
//!   stands behind the brace that closes it, and where there is none, there is
//!   no exit. The tag answers Eof 19 exactly where one that it opened has none.
//!
//! Comments, lists and lines without an answer are skipped, and of the two lines
//! behind `DIFFERS` the first, which is not the program's own. Of the others
//! those are passed over that the rule does not speak of: with verdicts, ESM,
//! an expression that starts at another byte, a refused call, too little room,
//! a run that the crate does not decide, and a tag that is Nok without events,
//! as the crate takes them back there.
//!
//! The last line has the counts. Leaves with status 1 where something differs,
//! and with 2 where a line can't be read.

use judge::Construct;
use programs::case::{decimal, Case};
use std::io::{self, BufRead};
use std::process::ExitCode;

/// Differences shown in full.
const SHOWN: u64 = 10;

/// Answers of which the rule does not speak.
const PASSED_OVER: [&str; 7] = [
    "Full", "TooLong", "BadStart", "BadText", "BadCall", "Paused", "Outside",
];

/// The expressions that a tag opens.
const OPENED: [&str; 2] = [
    "jsx-tag-attribute-expression",
    "jsx-tag-attribute-value-expression",
];

/// Where the `{` at an offset closes: the first later `}` with equally many `{`
/// and `}` between the two.
fn closing(page: &[u8], open: usize) -> Option<usize> {
    (open + 1..page.len()).find(|at| page[*at] == b'}' && is_even(&page[open + 1..*at]))
}

/// Whether as many `{` as `}` stand there.
fn is_even(between: &[u8]) -> bool {
    let count = |brace| between.iter().filter(|d| **d == brace).count();
    count(b'{') == count(b'}')
}

/// A case with its answer.
struct Answered<'a> {
    case: Case,
    answer: &'a str,
    events: Vec<Event<'a>>,
}

/// An event, as far as the rule speaks of it.
struct Event<'a> {
    is_exit: bool,
    name: &'a str,
    offset: usize,
}

#[derive(Default)]
struct Counts {
    expressions: u64,
    closed: u64,
    never: u64,
    tags: u64,
    opened: u64,
    passed_over: u64,
    differ: u64,
}

fn main() -> ExitCode {
    match check() {
        Ok(counts) => {
            println!(
                "{} expressions, {} closed, {} never, {} tags, {} opened in them, \
                 {} passed over, {} differ",
                counts.expressions,
                counts.closed,
                counts.never,
                counts.tags,
                counts.opened,
                counts.passed_over,
                counts.differ
            );
            ExitCode::from(u8::from(counts.differ > 0))
        }
        Err(problem) => {
            eprintln!("closes: {problem}");
            ExitCode::from(2)
        }
    }
}

fn check() -> io::Result<Counts> {
    let mut counts = Counts::default();
    let mut is_recorded = false;
    for line in io::stdin().lock().lines() {
        let line = line?;
        let skip = is_recorded || !is_answered(&line);
        is_recorded = line == "DIFFERS";
        if skip {
            continue;
        }
        let problem = || io::Error::other(format!("not an answered case: {line}"));
        let answered = Answered::parse(&line).ok_or_else(problem)?;
        if let Err(why) = answered.check(&mut counts) {
            counts.differ += 1;
            if counts.differ <= SHOWN {
                println!("DIFFERS: {why}: {line}");
            }
        }
    }
    Ok(counts)
}

/// Whether it is a single case with an answer.
fn is_answered(line: &str) -> bool {
    line.contains(" => ") && !line.starts_with('#') && !line.starts_with("batch ")
}

impl Answered<'_> {
    fn parse(line: &str) -> Option<Answered<'_>> {
        let (case, rest) = line.split_once(" => ")?;
        let (answer, events) = rest.split_once(" | events")?;
        Some(Answered {
            case: Case::parse(case)?,
            answer: answer.split(" | ").next()?,
            events: events
                .split_ascii_whitespace()
                .map(Event::parse)
                .collect::<Option<_>>()?,
        })
    }

    /// Say what is against the rule.
    fn check(&self, counts: &mut Counts) -> Result<(), &'static str> {
        let first = self.case.page.get(self.case.start);
        let name = self.answer.split(' ').next().unwrap_or_default();
        let is_taken_back = name == "Nok" && self.events.is_empty();
        match self.case.construct {
            _ if self.case.asks || PASSED_OVER.contains(&name) => {}
            Construct::Expression if first == Some(&b'{') => return self.check_expression(counts),
            Construct::Tag if !is_taken_back => return self.check_tag(counts),
            _ => {}
        }
        counts.passed_over += 1;
        Ok(())
    }

    fn check_expression(&self, counts: &mut Counts) -> Result<(), &'static str> {
        let closes = closing(&self.case.page, self.case.start);
        counts.expressions += 1;
        counts.closed += u64::from(closes.is_some());
        counts.never += u64::from(closes.is_none());
        match closes {
            Some(at) if self.answer != format!("Done {}", at + 1) => {
                Err("not Done where it closes")
            }
            None if !(self.is_eof_19() && self.is_eof_at_end()) => {
                Err("never closes, and no Eof 19")
            }
            _ => Ok(()),
        }
    }

    fn check_tag(&self, counts: &mut Counts) -> Result<(), &'static str> {
        let mut is_never = false;
        counts.tags += 1;
        for (index, event) in self.events.iter().enumerate() {
            if !event.is_exit && OPENED.contains(&event.name) {
                counts.opened += 1;
                let closes = self.check_opened(event, &self.events[index + 1..])?;
                is_never |= closes.is_none();
            }
        }
        if self.is_eof_19() == is_never {
            return Ok(());
        }
        Err("Eof 19, and all that it opened close, or the other way round")
    }

    /// Check an expression that a tag opened, by the events behind; tells where
    /// it closes.
    fn check_opened(&self, enter: &Event, behind: &[Event]) -> Result<Option<usize>, &'static str> {
        let closes = closing(&self.case.page, enter.offset);
        if self.case.page.get(enter.offset) != Some(&b'{') {
            return Err("opened where no brace stands");
        }
        if next(behind, false, "expression-marker") != Some(enter.offset) {
            return Err("opened elsewhere than its marker");
        }
        if next(behind, true, enter.name) != closes.map(|at| at + 1) {
            return Err("not left where it closes");
        }
        Ok(closes)
    }

    /// Whether the page ended in an expression.
    fn is_eof_19(&self) -> bool {
        self.answer.starts_with("Eof ") && self.answer.ends_with(" 19")
    }

    /// Whether it ended at its end.
    fn is_eof_at_end(&self) -> bool {
        let end = self.case.page.len();
        self.answer.starts_with(&format!("Eof {end}:"))
    }
}

impl Event<'_> {
    /// Read `+NAME@OFFSET:..` or `-NAME@OFFSET:..`.
    fn parse(word: &str) -> Option<Event<'_>> {
        let (name, place) = word.split_once('@')?;
        Some(Event {
            is_exit: name.starts_with('-'),
            name: name.strip_prefix(['+', '-'])?,
            offset: decimal(place.split(':').next()?)?,
        })
    }
}

/// The offset of the first event that enters or exits a name.
fn next(events: &[Event], is_exit: bool, name: &str) -> Option<usize> {
    let mut events = events.iter();
    let found = events.find(|d| d.is_exit == is_exit && d.name == name);
    found.map(|d| d.offset)
}
