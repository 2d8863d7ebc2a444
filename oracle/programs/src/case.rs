//! Cases as the product's program `cases` reads them.
//!
//! `CONSTRUCT KIND MODE INTERRUPT START HEXPAGE VERDICTS [room=N] [allowance=N]`

use judge::{Answer, Construct, Judge, Kind, Outcome, Scan, Verdict};
use std::fmt::Write as _;

/// A case.
#[derive(Clone, Debug, Eq, PartialEq)]
pub struct Case {
    pub construct: Construct,
    pub kind: Kind,
    pub asks: bool,
    pub interrupt: bool,
    pub start: usize,
    pub page: Vec<u8>,
    pub verdicts: Vec<Verdict>,
    /// Events that fit.
    pub room: Option<usize>,
    /// Steps for each call; answers don't depend on it.
    pub allowance: Option<usize>,
}

impl Case {
    /// A case at the start of a page, flow, without interrupt.
    pub fn new(construct: Construct, asks: bool, page: impl Into<Vec<u8>>) -> Case {
        Case {
            construct,
            kind: Kind::Flow,
            asks,
            interrupt: false,
            start: 0,
            page: page.into(),
            verdicts: vec![],
            room: None,
            allowance: None,
        }
    }

    /// Read a line.
    pub fn parse(line: &str) -> Option<Case> {
        let mut fields = line.split(' ');
        let mut case = Case {
            construct: construct(fields.next()?)?,
            kind: kind(fields.next()?)?,
            asks: *one_of(fields.next()?, ["c", "v"], &[false, true])?,
            interrupt: *one_of(fields.next()?, ["0", "1"], &[false, true])?,
            start: decimal(fields.next()?)?,
            page: from_hex(fields.next()?)?,
            verdicts: match fields.next()? {
                "-" => vec![],
                list => list.split(',').map(verdict).collect::<Option<_>>()?,
            },
            room: None,
            allowance: None,
        };
        let mut field = fields.next();
        if let Some(value) = field.and_then(|d| d.strip_prefix("room=")) {
            case.room = Some(decimal(value)?);
            field = fields.next();
        }
        if let Some(value) = field.and_then(|d| d.strip_prefix("allowance=")) {
            case.allowance = Some(decimal(value)?);
            field = fields.next();
        }
        field.is_none().then_some(case)
    }

    /// Write the line.
    pub fn line(&self) -> String {
        let mut line = String::with_capacity(2 * self.page.len() + 32);
        let construct = construct_letter(self.construct);
        let kind = kind_letter(self.kind);
        write!(line, "{construct} {kind} ").expect("write to a string");
        line.push_str(if self.asks { "v " } else { "c " });
        line.push_str(if self.interrupt { "1 " } else { "0 " });
        write!(line, "{} ", self.start).expect("write to a string");
        push_hex(&mut line, &self.page);
        line.push(' ');
        for (index, verdict) in self.verdicts.iter().enumerate() {
            if index > 0 {
                line.push(',');
            }
            push_verdict(&mut line, verdict);
        }
        if self.verdicts.is_empty() {
            line.push('-');
        }
        if let Some(room) = self.room {
            write!(line, " room={room}").expect("write to a string");
        }
        if let Some(allowance) = self.allowance {
            write!(line, " allowance={allowance}").expect("write to a string");
        }
        line
    }

    /// What the crate makes of it.
    pub fn judge(&self, judge: &Judge) -> Outcome {
        let outcome = judge.judge(&self.scan());
        if self.room.is_none_or(|room| self.fits(&outcome, room)) {
            return outcome;
        }
        Outcome {
            answer: Answer::Outside { why: "little room" },
            events: vec![],
            bodies: vec![],
        }
    }

    /// Whether room for so many events makes no difference to an outcome.
    /// Answers about room (10) are not the crate's: it has room for all. At
    /// Nok it takes its events back, so there only room for any run will do.
    fn fits(&self, outcome: &Outcome, room: usize) -> bool {
        let events_at_most = 6 * (self.page.len() + 1);
        room >= events_at_most || outcome.answer != Answer::Nok && outcome.events.len() <= room
    }

    /// The scan that it asks for.
    pub fn scan(&self) -> Scan<'_> {
        Scan {
            construct: self.construct,
            kind: self.kind,
            asks: self.asks,
            interrupt: self.interrupt,
            start: self.start,
            page: &self.page,
            verdicts: &self.verdicts,
        }
    }
}

/// Write `ANSWER | events +NAME@PLACE -NAME@PLACE ..`, where a place is
/// `OFFSET:LINE:COLUMN`, in the answer too. `~V` follows the place of an event
/// at which V columns of an unfinished tab are passed.
pub fn push_outcome(line: &mut String, judge: &Judge, outcome: &Outcome) {
    match &outcome.answer {
        Answer::Done { end } => write!(line, "Done {end}"),
        Answer::Nok => write!(line, "Nok"),
        Answer::Eof { place, at } => write!(line, "Eof {place} {at}"),
        Answer::Unexpected { place, at, note } => write!(line, "Unexpected {place} {at} {note}"),
        Answer::VerdictError { place, number } => write!(line, "VerdictError {place} {number}"),
        Answer::VerdictEof { place, number } => write!(line, "VerdictEof {place} {number}"),
        Answer::Asking { place, body } => {
            let result = write!(line, "Asking {place} ");
            push_hex(line, body.as_bytes());
            result
        }
        Answer::Outside { why } => write!(line, "Outside ({why})"),
    }
    .expect("write to a string");
    line.push_str(" | events");
    for event in &outcome.events {
        line.push_str(if event.exit { " -" } else { " +" });
        line.push_str(judge.label(event));
        write!(line, "@{}", event.place).expect("write to a string");
        if event.passed > 0 {
            write!(line, "~{}", event.passed).expect("write to a string");
        }
    }
}

fn push_verdict(line: &mut String, verdict: &Verdict) {
    match verdict {
        Verdict::Ok => write!(line, "o"),
        Verdict::Unfinished { number } => write!(line, "u{number}"),
        Verdict::Error { number, offset } => write!(line, "e{number}@{offset}"),
    }
    .expect("write to a string");
}

/// The construct that a letter stands for.
pub fn construct(letter: &str) -> Option<Construct> {
    match letter {
        "e" => Some(Construct::Expression),
        "t" => Some(Construct::Tag),
        "s" => Some(Construct::Esm),
        _ => None,
    }
}

/// Its letter.
pub fn construct_letter(construct: Construct) -> char {
    match construct {
        Construct::Expression => 'e',
        Construct::Tag => 't',
        Construct::Esm => 's',
    }
}

/// The kind that a letter stands for.
pub fn kind(letter: &str) -> Option<Kind> {
    one_of(letter, ["f", "t"], &[Kind::Flow, Kind::Text]).copied()
}

/// Its letter.
pub fn kind_letter(kind: Kind) -> char {
    match kind {
        Kind::Flow => 'f',
        Kind::Text => 't',
    }
}

/// What the word stands for, if it is one of two.
fn one_of<'a, T>(word: &str, words: [&str; 2], things: &'a [T; 2]) -> Option<&'a T> {
    things.get(words.iter().position(|d| *d == word)?)
}

/// A decimal number: digits only.
pub fn decimal(text: &str) -> Option<usize> {
    if text.is_empty() || !text.bytes().all(|d| d.is_ascii_digit()) {
        return None;
    }
    text.parse().ok()
}

fn verdict(text: &str) -> Option<Verdict> {
    let number = |text| u32::try_from(decimal(text)?).ok();
    match (text.get(..1)?, text.get(1..)?) {
        ("o", "") => Some(Verdict::Ok),
        ("u", rest) => Some(Verdict::Unfinished {
            number: number(rest)?,
        }),
        ("e", rest) => {
            let (before, after) = rest.split_once('@')?;
            Some(Verdict::Error {
                number: number(before)?,
                offset: decimal(after)?,
            })
        }
        _ => None,
    }
}

/// Bytes from hexadecimal digits; `-` is no bytes.
pub fn from_hex(text: &str) -> Option<Vec<u8>> {
    if text == "-" {
        return Some(vec![]);
    }
    let digit = |d: u8| (d as char).to_digit(16).map(|d| d as u8);
    if text.is_empty() || !text.len().is_multiple_of(2) {
        return None;
    }
    text.as_bytes()
        .chunks_exact(2)
        .map(|pair| Some(digit(pair[0])? * 16 + digit(pair[1])?))
        .collect()
}

/// Bytes as hexadecimal digits; no bytes are `-`.
pub fn push_hex(text: &mut String, bytes: &[u8]) {
    const DIGITS: &[u8; 16] = b"0123456789abcdef";
    if bytes.is_empty() {
        text.push('-');
    }
    for byte in bytes {
        text.push(DIGITS[usize::from(byte >> 4)] as char);
        text.push(DIGITS[usize::from(byte & 15)] as char);
    }
}
