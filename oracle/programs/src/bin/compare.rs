//! Compares the oracle's lines with the product's, case by case.
//!
//! `compare ORACLE OURS`, each a file or `-` for standard input. Both hold the
//! same cases in the same order:
//!
//! * the oracle's: `CASE => ANSWER | events ..`;
//! * ours: `CASE => ANSWER | steps N | events ..`.
//!
//! Steps are not the crate's and aren't compared. At Nok the crate takes its
//! events back, so there only the answer is. What the oracle calls `Outside`
//! is counted and not compared. Leaves with status 1 where something differs.

use std::fs::File;
use std::io::{self, BufRead, BufReader};
use std::process::ExitCode;

/// Differences shown in full, unless `--show N` says otherwise.
const SHOWN: u64 = 20;

const USAGE: &str = "\
usage: compare [--show N] [--digest] ORACLE OURS   (files, or - for standard input)

  --show N  differences shown in full (20)
  --digest  none in full, but the first and the smallest in a line each
";

/// A line taken apart.
#[derive(Debug, PartialEq)]
struct Line<'a> {
    case: &'a str,
    answer: &'a str,
    events: Option<&'a str>,
}

/// How two lines differ, and what each says there.
struct Difference<'a> {
    why: &'static str,
    expected: &'a str,
    actual: &'a str,
}

impl<'a> Difference<'a> {
    /// Tell a difference of two lines by their answers.
    fn in_answers(why: &'static str, expected: &'a str, actual: &'a str) -> Difference<'a> {
        let answer = |line| take_apart(line).map_or("none", |d| d.answer);
        Difference {
            why,
            expected: answer(expected),
            actual: answer(actual),
        }
    }
}

#[derive(Default)]
struct Counts {
    cases: u64,
    compared: u64,
    with_events: u64,
    outside: u64,
    differ: u64,
    /// The first difference, and the one with the shortest case.
    first: Option<String>,
    smallest: Option<(usize, String)>,
}

fn main() -> ExitCode {
    let mut shown = SHOWN;
    let mut digest = false;
    let mut paths = vec![];
    let mut arguments = std::env::args().skip(1);
    while let Some(argument) = arguments.next() {
        match argument.as_str() {
            "--digest" => digest = true,
            "--show" => match arguments.next().and_then(|d| d.parse().ok()) {
                Some(number) => shown = number,
                None => return usage(),
            },
            _ => paths.push(argument),
        }
    }
    let [oracle, ours] = paths.as_slice() else {
        return usage();
    };

    match compare(oracle, ours, if digest { 0 } else { shown }) {
        Err(problem) => {
            eprintln!("compare: {problem}");
            ExitCode::from(2)
        }
        Ok(counts) => {
            say(&counts, digest);
            ExitCode::from(u8::from(counts.differ > 0))
        }
    }
}

fn say(counts: &Counts, digest: bool) {
    if digest {
        println!("first: {}", counts.first.as_deref().unwrap_or("none"));
        let smallest = counts.smallest.as_ref().map(|d| d.1.as_str());
        println!("smallest: {}", smallest.unwrap_or("none"));
    }
    let alone = counts.compared - counts.with_events;
    println!(
        "{} cases: {} compared with their events, {alone} in the answer alone, \
         {} outside the domain, {} differ",
        counts.cases, counts.with_events, counts.outside, counts.differ
    );
}

fn usage() -> ExitCode {
    eprint!("{USAGE}");
    ExitCode::from(2)
}

fn compare(oracle: &str, ours: &str, shown: u64) -> io::Result<Counts> {
    let mut oracle = open(oracle)?;
    let mut ours = open(ours)?;
    let (mut expected, mut actual) = (String::new(), String::new());
    let mut counts = Counts::default();

    loop {
        let more_expected = next(&mut *oracle, &mut expected)?;
        let more_actual = next(&mut *ours, &mut actual)?;
        if !more_expected && !more_actual {
            return Ok(counts);
        }
        counts.cases += 1;
        let difference = if !more_actual {
            Some(Difference::in_answers("our line is missing", &expected, ""))
        } else if !more_expected {
            let why = "the oracle's line is missing";
            Some(Difference::in_answers(why, "", &actual))
        } else {
            judge(&expected, &actual, &mut counts)
        };
        if let Some(difference) = difference {
            counts.differ += 1;
            remember(&mut counts, &difference, &expected);
            if counts.differ <= shown {
                println!("DIFFERS line {}: {}", counts.cases, difference.why);
                println!("  oracle: {expected}");
                println!("  ours:   {actual}");
            }
        }
    }
}

/// Keep a difference, if it is the first or smaller than those before.
fn remember(counts: &mut Counts, difference: &Difference, line: &str) {
    let case = line.split(" => ").next().unwrap_or_default();
    let smaller = counts.smallest.as_ref().is_none_or(|d| case.len() < d.0);
    if smaller {
        let Difference {
            why,
            expected,
            actual,
        } = difference;
        let words = format!("{case} ({why}: oracle {expected}, ours {actual})");
        counts.first.get_or_insert(words.clone());
        counts.smallest = Some((case.len(), words));
    }
}

fn open(path: &str) -> io::Result<Box<dyn BufRead>> {
    Ok(if path == "-" {
        Box::new(io::stdin().lock())
    } else {
        Box::new(BufReader::with_capacity(1 << 20, File::open(path)?))
    })
}

/// Read the next line about a case, passing over the sum that the product's
/// program writes last (`N cases, N compared, N differ`).
fn next(input: &mut dyn BufRead, line: &mut String) -> io::Result<bool> {
    loop {
        line.clear();
        if input.read_line(line)? == 0 {
            return Ok(false);
        }
        if line.ends_with('\n') {
            line.pop();
        }
        if !(line.contains(" cases, ") && line.ends_with(" differ")) {
            return Ok(true);
        }
    }
}

/// Say how two lines differ.
fn judge<'a>(expected: &'a str, actual: &'a str, counts: &mut Counts) -> Option<Difference<'a>> {
    let differ = |why| Some(Difference::in_answers(why, expected, actual));
    let (Some(theirs), Some(ours)) = (take_apart(expected), take_apart(actual)) else {
        return differ("not a line about a case");
    };
    if theirs.case != ours.case {
        return differ("another case");
    }
    if theirs.answer.starts_with("Outside") {
        counts.outside += 1;
        return None;
    }
    counts.compared += 1;
    if theirs.answer == "Panic" {
        return differ("the crate panicked");
    }
    if theirs.answer != ours.answer {
        return differ("answers");
    }
    if theirs.answer == "Nok" {
        return None;
    }
    counts.with_events += 1;
    let (Some(events), Some(our_events)) = (theirs.events, ours.events) else {
        return differ("events");
    };
    if events == our_events {
        return None;
    }
    let (expected, actual) = first_apart(events, our_events);
    Some(Difference {
        why: "events",
        expected,
        actual,
    })
}

/// The first words of two lists of events that differ.
fn first_apart<'a>(expected: &'a str, actual: &'a str) -> (&'a str, &'a str) {
    let (mut theirs, mut ours) = (expected.split(' '), actual.split(' '));
    loop {
        match (theirs.next(), ours.next()) {
            (Some(theirs), Some(ours)) if theirs == ours => {}
            (theirs, ours) => return (theirs.unwrap_or("none"), ours.unwrap_or("none")),
        }
    }
}

/// Take `CASE => ANSWER [| steps N] [| events ..]` apart.
fn take_apart(line: &str) -> Option<Line<'_>> {
    let (case, rest) = line.split_once(" => ")?;
    let mut parts = rest.split(" | ");
    let mut line = Line {
        case,
        answer: parts.next()?,
        events: None,
    };
    for part in parts {
        if let Some(events) = part.strip_prefix("events") {
            line.events = Some(events.trim_start());
        } else if !part.starts_with("steps ") {
            return None;
        }
    }
    Some(line)
}
