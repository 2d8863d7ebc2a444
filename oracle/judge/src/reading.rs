//! From the message that stopped a run to document 01's answer.

use crate::door::Answer;
use crate::message::{self, Message};
use crate::place::Place;

/// Source of messages that aren't the crate's.
pub const OURS: &str = "oracle";
/// The construct ended.
pub const DONE: &str = "done";
/// It isn't there.
pub const NOK: &str = "nok";
/// The list of verdicts is used up.
pub const ASKING: &str = "asking";
/// A verdict said error; the reason is its number.
pub const VERDICT_ERROR: &str = "verdict-error";
/// A verdict said unfinished; the reason is its number.
pub const VERDICT_EOF: &str = "verdict-eof";

/// Document 01's where-numbers, by the crate's words.
const WHERE: [(&str, u32); 19] = [
    ("before name", 1),
    ("in name", 2),
    ("after name", 3),
    ("before member name", 4),
    ("in member name", 5),
    ("after member name", 6),
    ("before local name", 7),
    ("in local name", 8),
    ("after local name", 9),
    ("before attribute name", 10),
    ("in attribute name", 11),
    ("after attribute name", 12),
    ("before local attribute name", 13),
    ("in local attribute name", 14),
    ("after local attribute name", 15),
    ("before attribute value", 16),
    ("in attribute value", 17),
    ("after self-closing slash", 18),
    ("in expression", 19),
];

/// Document 01's notes, by how the crate's begin.
const NOTES: [(&str, u32); 4] = [
    (" (note: to create a comment in MDX", 1),
    (" (note: JS comments in JSX tags", 2),
    (" (note: to create a link in MDX", 3),
    (" (note: to use an element or fragment", 4),
];

/// Read a message.
///
/// `stopped` is where the tokenizer did, `body` the last one asked about.
pub fn answer(message: &Message, stopped: Place, body: Option<&String>) -> Answer {
    if *message.source != OURS {
        return crate_answer(message);
    }
    let number = || message.reason.parse().expect("a verdict's number");
    match message.rule_id.as_str() {
        DONE => Answer::Done {
            end: stopped.offset,
        },
        NOK => Answer::Nok,
        ASKING => Answer::Asking {
            place: stopped,
            body: body.expect("a body").clone(),
        },
        VERDICT_ERROR => Answer::VerdictError {
            place: place(message),
            number: number(),
        },
        VERDICT_EOF => Answer::VerdictEof {
            place: place(message),
            number: number(),
        },
        rule => unreachable!("unknown rule `{rule}`"),
    }
}

/// Read a message of the crate.
fn crate_answer(message: &Message) -> Answer {
    let reason = message.reason.as_str();
    let (at_end, words, expected) =
        parts(reason).unwrap_or_else(|| panic!("cannot read the message `{reason}`"));
    let (_, at) = *WHERE
        .iter()
        .find(|(name, _)| *name == words)
        .unwrap_or_else(|| panic!("cannot place the message `{reason}`"));
    let note = match NOTES.iter().find(|(begin, _)| expected.contains(begin)) {
        Some((_, note)) => *note,
        None => {
            assert!(!expected.contains("(note:"), "unknown note in `{reason}`");
            0
        }
    };

    let place = place(message);
    if at_end {
        assert_eq!(note, 0, "no note is about an end: `{reason}`");
        Answer::Eof { place, at }
    } else {
        Answer::Unexpected { place, at, note }
    }
}

/// Take `Unexpected WHAT WHERE, expected SOMETHING` apart: whether it is about
/// the end of the page, where, and what was expected. All messages of the
/// given modules have this form (those about lazy lines can't happen).
fn parts(reason: &str) -> Option<(bool, &str, &str)> {
    let what = reason.strip_prefix("Unexpected ")?;
    let (at_end, rest) = match what.strip_prefix("end of file ") {
        Some(rest) => (true, rest),
        // A character is shown before its number, or by its number alone.
        None => {
            let (_, number) = what.split_once("U+")?;
            let rest = number.trim_start_matches(|d: char| d.is_ascii_hexdigit());
            (
                false,
                rest.strip_prefix(')').unwrap_or(rest).strip_prefix(' ')?,
            )
        }
    };
    let (words, expected) = rest.split_once(", expected ")?;
    Some((at_end, words, expected))
}

/// The place that a message is about.
fn place(message: &Message) -> Place {
    match message.place.as_deref() {
        Some(message::Place::Point(point)) => point.into(),
        other => panic!("expected a point in a message, not {other:?}"),
    }
}
