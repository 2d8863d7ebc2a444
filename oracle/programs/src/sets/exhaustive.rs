//! Every page over a small alphabet, up to a length.
//!
//! A page is made longer only where its run came to its end: a run that was
//! over before would only be repeated.

use super::{kind_for, Sink};
use crate::case::Case;
use judge::Construct;
use std::io::{self, Write};

/// How a page begins, what it goes on with, and how much further than asked.
type Family = (&'static str, &'static [&'static str], usize);

const TAGS: [Family; 10] = [
    (
        "<",
        &["a", "-", " ", "\n", "/", ">", ".", ":", "=", "\"", "{", "}"],
        0,
    ),
    (
        "</",
        &["a", "1", "\u{b}", "\n", "/", ">", ".", ":", "{", "}"],
        0,
    ),
    (
        "<a ",
        &["b", " ", "\t", "/", ">", ":", "=", "'", "{", "}"],
        0,
    ),
    ("<a b=", &["\"", "'", " ", "\n", "c", "é", ">", "/"], 0),
    ("<a b:c", &["\"", " ", "\n", "=", "{", "}", ">", "/"], 0),
    ("<a b=\"", &["\"", "'", " ", "\n", "\t", "é", "{", ">"], 0),
    ("<a {", &["{", "}", " ", "\n", "b", "=", ">", "/"], 0),
    // Several expressions: what one verdict leaves behind for the next.
    ("<a{", &["{", "}"], 3),
    ("<a {}", &["{", "}", " b=", "c"], 0),
    ("<a.b", &[".", ":", "c", " ", "\n", "/", ">"], 0),
];

const EXPRESSIONS: [Family; 2] = [
    ("{", &["{", "}", " ", "\n", "a"], 2),
    ("{", &["}", " ", "\n", "\t", "é", "{"], 1),
];

const ESM: [Family; 3] = [
    ("import ", &["a", " ", "\n", "\t"], 2),
    ("export {a\n", &["}", "é", " ", "\n"], 2),
    ("import", &["s", " ", "\n", "\t", "A", "1", "{"], 0),
];

/// What stands in expressions whose lines begin with tabs.
const LINES: &[&str] = &["{", "}", "\n", "\t", " ", "a"];

/// The same in a tag that can end.
const LINES_IN_A_TAG: &[&str] = &["{", "}", "\n", "\t", " ", "a", "}/>"];

/// What stands before the start, how the construct begins, what it goes on
/// with, and how much less far than asked.
const TABS: [(&str, &str, &[&str], usize); 9] = [
    ("", "{", LINES, 0),
    ("", "<a {", LINES_IN_A_TAG, 1),
    ("", "<a b={", LINES_IN_A_TAG, 1),
    // Starts behind tabs.
    ("\t", "{", LINES, 2),
    (" \t", "{", LINES, 2),
    ("\n\ta\t", "{", LINES, 2),
    ("   \t", "<a {", LINES_IN_A_TAG, 3),
    ("é\t\t", "<a b={", LINES_IN_A_TAG, 3),
    ("\t", "<a b='", &["'", " ", "\n", "\t", "c", "/", ">"], 2),
];

/// Tags in both modes.
pub fn tags<W: Write>(sink: &mut Sink<W>, depth: usize) -> io::Result<()> {
    for (begin, alphabet, further) in TAGS {
        for asks in [false, true] {
            let mut case = Case::new(Construct::Tag, asks, begin);
            grow(sink, &mut case, alphabet, depth + further, |sink, case| {
                sink.put_all(case, 3)
            })?;
        }
    }
    Ok(())
}

/// Expressions in both modes.
pub fn expressions<W: Write>(sink: &mut Sink<W>, depth: usize) -> io::Result<()> {
    for (begin, alphabet, further) in EXPRESSIONS {
        for asks in [false, true] {
            let mut case = Case::new(Construct::Expression, asks, begin);
            grow(sink, &mut case, alphabet, depth + further, |sink, case| {
                sink.put_all(case, 4)
            })?;
        }
    }
    Ok(())
}

/// ESM with a verdict source. Every page is made longer: at its end a run asks
/// where it otherwise would not.
pub fn esm<W: Write>(sink: &mut Sink<W>, depth: usize) -> io::Result<()> {
    for (begin, alphabet, further) in ESM {
        let mut case = Case::new(Construct::Esm, true, begin);
        grow(sink, &mut case, alphabet, depth + further, |sink, case| {
            sink.put_all(case, 4)
        })?;
    }
    Ok(())
}

/// Tabs everywhere, and first of all where they open a line of an expression,
/// with errors at every byte of the bodies and past them.
pub fn tabs<W: Write>(sink: &mut Sink<W>, depth: usize) -> io::Result<()> {
    for (before, begin, alphabet, fewer) in TABS {
        let construct = match begin {
            "{" => Construct::Expression,
            _ => Construct::Tag,
        };
        for asks in [false, true] {
            let mut case = Case::new(construct, asks, [before, begin].concat());
            case.start = before.len();
            let depth = depth.saturating_sub(fewer);
            grow(sink, &mut case, alphabet, depth, |sink, case| {
                sink.put_everywhere(case, 3)
            })?;
        }
    }
    Ok(())
}

/// Write a case with lists of verdicts, as `put` does, and all longer ones.
fn grow<W: Write>(
    sink: &mut Sink<W>,
    case: &mut Case,
    alphabet: &[&str],
    depth: usize,
    put: fn(&mut Sink<W>, &mut Case) -> io::Result<bool>,
) -> io::Result<()> {
    case.kind = kind_for(&case.page);
    let open = put(sink, case)? || case.construct == Construct::Esm;
    if open && depth > 0 {
        let len = case.page.len();
        for letter in alphabet {
            case.page.extend_from_slice(letter.as_bytes());
            grow(sink, case, alphabet, depth - 1, put)?;
            case.page.truncate(len);
        }
    }
    Ok(())
}
