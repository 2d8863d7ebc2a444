//! What a case reaches: states with the bytes that they meet, answers,
//! settings. A sample is chosen by this.

use crate::case::Case;
use judge::{Answer, Call, Construct, Judge, Mark, Outcome, Place, Verdict, STATES};
use std::collections::BTreeSet;

/// Everything that a case reaches, in words.
#[derive(Debug, Default)]
pub struct Reach {
    /// Steps of the machine: a state, the byte that it meets, what comes next.
    pub steps: Vec<String>,
    /// Tabs that a prefix ends inside.
    pub tabs: Vec<String>,
    /// Everything else.
    pub others: Vec<String>,
    pub calls: Vec<Call>,
}

/// What a case reaches that has this outcome.
pub fn reach(case: &Case, judge: &Judge, outcome: &Outcome) -> Reach {
    let calls = calls(case, judge);
    Reach {
        steps: step_words(case, outcome, &calls),
        tabs: tab_words(case, judge, outcome),
        others: other_words(case, judge, outcome),
        calls,
    }
}

/// The states that a case calls; none where the module isn't called at all.
fn calls(case: &Case, judge: &Judge) -> Vec<Call> {
    let first = case.page.get(case.start);
    match case.construct {
        Construct::Expression if first != Some(&b'{') => vec![],
        Construct::Tag if first != Some(&b'<') => vec![],
        _ => judge.calls(&case.scan()),
    }
}

fn step_words(case: &Case, outcome: &Outcome, calls: &[Call]) -> Vec<String> {
    let answer = answer_words(&outcome.answer);
    let mut steps = vec![];
    for (index, call) in calls.iter().enumerate() {
        let next = calls.get(index + 1).map_or(&*answer, |d| name(d));
        // Only expressions go other ways with verdicts; ESM has no other mode.
        let mode = match name(call) {
            name if name.starts_with("MdxExpression") => mode_word(case),
            _ => '-',
        };
        let byte = byte_words(call.byte);
        steps.push(format!("{mode} {} {byte} {next}", name(call)));
    }
    steps.sort();
    steps.dedup();
    steps
}

/// The tabs that a prefix ends inside: how many columns of the last two it took
/// in each expression, what follows them, in what pieces they are passed, and
/// what comes of a verdict behind them.
fn tab_words(case: &Case, judge: &Judge, outcome: &Outcome) -> Vec<String> {
    let mut words = vec![];
    let mut expression = "";
    let mut taken = (0, 0);
    for event in &outcome.events {
        let label = judge.label(event);
        if !event.exit && label.ends_with("expression") {
            expression = label;
            taken = (0, 0);
        } else if event.exit && event.passed > 0 {
            taken = (taken.1, event.passed);
            let tab = format!("{} {expression} {taken:?}", mode_word(case));
            let pieces = case.allowance.map(|d| d.min(4));
            words.push(format!("{tab} then {}", after_tab_words(case, event)));
            words.push(format!("{tab} in pieces of {pieces:?}"));
        }
    }
    if let Some(asked) = outcome.events.last().filter(|_| taken.1 > 0) {
        let verdict = tab_verdict_words(case, outcome, asked);
        words.extend(verdict.map(|verdict| format!("{expression} {taken:?} {verdict}")));
    }
    words.sort();
    words.dedup();
    words
}

/// The byte after a tab, as the states of an expression tell bytes apart.
fn after_tab_words(case: &Case, event: &Mark) -> String {
    match case.page.get(event.place.offset + 1) {
        Some(byte) if !b"\t\n {}".contains(byte) => "data".into(),
        byte => byte_words(byte.copied()),
    }
}

/// What a verdict is asked about, or where an error is placed: in the body seen
/// from its end, in the page seen from the byte that asked, where the last
/// event stands.
fn tab_verdict_words(case: &Case, outcome: &Outcome, asked: &Mark) -> Option<String> {
    let body = outcome.bodies.last()?.len();
    match (&outcome.answer, case.verdicts.last()) {
        (Answer::Asking { .. }, _) => Some(format!("asking about {} bytes", body.min(9))),
        (Answer::VerdictError { place, .. }, Some(Verdict::Error { offset, .. })) => {
            let before = (asked.place.offset + 1).saturating_sub(place.offset);
            let rest = body.saturating_sub(*offset);
            Some(format!("error {} and {}", rest.min(7), before.min(7)))
        }
        _ => None,
    }
}

fn other_words(case: &Case, judge: &Judge, outcome: &Outcome) -> Vec<String> {
    let where_from = format!("{:?} {}", case.construct, mode_word(case));
    let what = format!("{where_from} {}", answer_words(&outcome.answer));
    let mut others = vec![
        format!("{what}: {:?}", case.kind),
        format!("{what}: interrupt {}", case.interrupt),
        format!("{what}: start {} {}", case.start.min(9), start_words(case)),
        format!("{what}: verdicts {}", verdict_words(&case.verdicts)),
        format!("{where_from}: size {}", size_words(case.page.len())),
    ];
    if let Some(allowance) = case.allowance {
        others.push(format!("{what}: in pieces of {}", allowance.min(4)));
    }
    if matches!(
        outcome.answer,
        Answer::Asking { .. } | Answer::VerdictError { .. }
    ) {
        let count = |label: &str| {
            let marks = outcome.events.iter().filter(|d| !d.exit);
            marks.filter(|d| judge.label(d) == label).count().min(3)
        };
        let (lines, prefixes) = (count("line-ending"), count("line-prefix"));
        others.push(format!("{what}: {lines} lines, {prefixes} prefixes"));
        // Bodies that are no part of the page in one piece.
        if let Some(body) = outcome.bodies.last().filter(|_| prefixes > 0) {
            let (len, verdicts) = (body.len().min(9), verdict_words(&case.verdicts));
            others.push(format!(
                "{what}: {prefixes} prefixes, {lines} lines, {len} bytes, {verdicts}"
            ));
        }
    }
    others.extend(place_words(case, judge, outcome));
    others.extend(past_words(case, outcome));
    others
}

/// Where the last event stands past the end of what was scanned, as that of ESM
/// does where a look-ahead went before: its line, and what that line begins with.
fn past_words(case: &Case, outcome: &Outcome) -> Option<String> {
    let Answer::Done { end } = outcome.answer else {
        return None;
    };
    let place = outcome.events.last()?.place;
    (place.offset > end).then(|| {
        let (line, start) = (place.line.min(6), start_words(case));
        let byte = byte_words(case.page.get(place.offset).copied());
        let verdicts = verdict_words(&case.verdicts);
        format!("past the end on line {line} at {byte}, start {start}, verdicts {verdicts}")
    })
}

/// Where the answer and each event stand, so that all of them are met on
/// several lines and in every sort of column.
fn place_words(case: &Case, judge: &Judge, outcome: &Outcome) -> BTreeSet<String> {
    let stand = |what: &str, place| format!("{what} on {}", stand_words(&case.page, place));
    let what = answer_words(&outcome.answer);
    let told = outcome.answer.place().map(|place| stand(&what, place));
    let events = outcome.events.iter().map(|event| {
        let sign = if event.exit { '-' } else { '+' };
        let label = judge.label(event);
        stand(&format!("{sign}{label}~{}", event.passed), event.place)
    });
    events.chain(told).collect()
}

/// The line of a place, up to the third, and what its column counts.
fn stand_words(page: &[u8], place: Place) -> String {
    let before = line_before(page, place.offset);
    let column = if before.is_empty() {
        "first"
    } else if before.contains(&b'\t') {
        "behind a tab"
    } else if !before.is_ascii() {
        "behind longer characters"
    } else {
        "later"
    };
    format!("line {}, column {column}", place.line.min(3))
}

/// The bytes between the start of an offset's line and the offset.
fn line_before(page: &[u8], offset: usize) -> &[u8] {
    let before = &page[..offset];
    let line_feed = before.iter().rposition(|byte| *byte == b'\n');
    &before[line_feed.map_or(0, |at| at + 1)..]
}

fn mode_word(case: &Case) -> char {
    if case.asks {
        'v'
    } else {
        'c'
    }
}

fn name(call: &Call) -> &'static str {
    STATES[call.state]
}

/// A byte as itself; those of other characters are alike to every state.
fn byte_words(byte: Option<u8>) -> String {
    match byte {
        None => "end".into(),
        Some(byte) if byte < 128 => byte.to_string(),
        Some(_) => "other".into(),
    }
}

/// An answer without its places and the numbers of verdicts.
pub fn answer_words(answer: &Answer) -> String {
    match answer {
        Answer::Done { .. } => "Done".into(),
        Answer::Nok => "Nok".into(),
        Answer::Eof { at, .. } => format!("Eof {at}"),
        Answer::Unexpected { at, note, .. } => format!("Unexpected {at} {note}"),
        Answer::VerdictError { .. } => "VerdictError".into(),
        Answer::VerdictEof { .. } => "VerdictEof".into(),
        Answer::Asking { .. } => "Asking".into(),
        Answer::Outside { .. } => "Outside".into(),
    }
}

fn start_words(case: &Case) -> &'static str {
    match case.start {
        0 => "at the beginning",
        start if start == case.page.len() => "at the end",
        start if case.page[start - 1] == b'\n' => "at a line",
        _ => "in a line",
    }
}

fn verdict_words(verdicts: &[Verdict]) -> String {
    let letters = verdicts.iter().map(|verdict| match verdict {
        Verdict::Ok => 'o',
        Verdict::Unfinished { .. } => 'u',
        Verdict::Error { .. } => 'e',
    });
    letters.take(4).collect()
}

/// By powers of two, up to as many bytes as a sample has room for.
fn size_words(size: usize) -> String {
    match size.min(8192).checked_ilog2() {
        None => "none".into(),
        Some(power) => format!("from {}", 1 << power),
    }
}
