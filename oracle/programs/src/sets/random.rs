//! Constructs made by chance: valid ones, and valid ones with errors worked in.

use super::Sink;
use crate::case::Case;
use crate::chance::Chance;
use judge::{Construct, Kind};
use std::io::{self, Write};

/// Most verdicts given to one run. The crate collects the body anew for each,
/// so long lists on long pages would cost much and show nothing new.
const MOST_VERDICTS: usize = 24;

/// Text that may stand in expressions, quoted values and ESM.
const TEXT: [&str; 20] = [
    "a", "b", "c1", "x", " ", "  ", ".", ",", "(", ")", "=>", "+", "/", "<", ">", "`", "é", "日本",
    "😀", "\u{a0}",
];

/// Bytes that states look for.
const SHARP: &[u8] = b"<>/.:={}\"'\n\t !@+*$_-a1\x0B\x0C";

/// Constructs of up to `longest` bytes; `errors` says whether to work errors
/// into most of them.
pub fn all<W: Write>(
    sink: &mut Sink<W>,
    count: usize,
    longest: usize,
    errors: bool,
) -> io::Result<()> {
    for _ in 0..count {
        let mut case = draw(&mut sink.chance, longest);
        if errors {
            for _ in 0..1 + sink.chance.below(4) {
                change(&mut sink.chance, &mut case);
            }
        }
        if sink.chance.once_in(3) {
            embed(&mut sink.chance, &mut case);
        }
        // Changes may cut a character in two, and the whole may be too long.
        if std::str::from_utf8(&case.page).is_ok() && case.page.len() <= super::LONGEST_PAGE {
            // Some lists are too short: those runs end by asking.
            let most = if sink.chance.once_in(4) {
                sink.chance.below(4)
            } else {
                MOST_VERDICTS
            };
            sink.put_drawn(&mut case, most)?;
        }
    }
    Ok(())
}

/// A case with a valid construct.
pub(super) fn draw(chance: &mut Chance, longest: usize) -> Case {
    // Sizes by powers of two: as many short pages as long ones.
    let size = 1 + chance.below_power(1 + longest.max(2).ilog2());
    let asks = chance.once_in(2);
    let mut page = Page {
        chance,
        text: vec![],
        asks,
    };
    let construct = match page.chance.below(4) {
        0 | 1 => {
            page.tag(size);
            Construct::Tag
        }
        2 => {
            page.expression(size);
            Construct::Expression
        }
        _ => {
            page.esm(size);
            Construct::Esm
        }
    };
    let mut case = Case::new(construct, asks || construct == Construct::Esm, page.text);
    if chance.once_in(2) {
        case.kind = Kind::Text;
    }
    // For ESM the flag ends the run at once, so it is rare there.
    case.interrupt = chance.once_in(if construct == Construct::Esm { 16 } else { 2 });
    case
}

/// A page being written.
struct Page<'a> {
    chance: &'a mut Chance,
    text: Vec<u8>,
    /// Whether braces need not balance, a verdict source being asked.
    asks: bool,
}

impl Page<'_> {
    fn push(&mut self, text: &str) {
        self.text.extend_from_slice(text.as_bytes());
    }

    fn push_one(&mut self, texts: &[&str]) {
        let text = self.chance.pick(texts);
        self.text.extend_from_slice(text.as_bytes());
    }

    fn tag(&mut self, size: usize) {
        self.push("<");
        if self.chance.once_in(8) {
            self.push_one(&["\u{b}", "\u{c}"]);
            self.space();
        }
        if self.chance.once_in(4) {
            self.push("/");
            self.space();
        }
        if !self.chance.once_in(12) {
            self.tag_name();
            while self.text.len() < size || self.chance.once_in(3) {
                self.attribute(size);
            }
            self.space();
            if self.chance.once_in(2) {
                self.push("/");
                self.space();
            }
        }
        self.push(">");
    }

    fn tag_name(&mut self) {
        self.name();
        match self.chance.below(4) {
            0 => {
                self.space();
                self.push(":");
                self.space();
                self.name();
            }
            1 => {
                for _ in 0..1 + self.chance.below(4) {
                    self.space();
                    self.push(".");
                    self.space();
                    self.name();
                }
            }
            _ => {}
        }
    }

    fn attribute(&mut self, size: usize) {
        let part = 1 + self.chance.below(size.max(8) / 4);
        if self.chance.once_in(4) {
            self.space();
            return self.expression(part);
        }
        self.some_space();
        self.name();
        let local = self.chance.once_in(3);
        if local {
            self.space();
            self.push(":");
            self.space();
            self.name();
        }
        if self.chance.once_in(4) {
            return;
        }
        self.space();
        self.push("=");
        // After `=` of a plain attribute the crate takes no white space.
        if local {
            self.space();
        }
        match self.chance.below(3) {
            0 => self.expression(part),
            1 => self.quoted("\"", part),
            _ => self.quoted("'", part),
        }
    }

    fn quoted(&mut self, quote: &str, size: usize) {
        self.push(quote);
        let other = if quote == "'" { "\"" } else { "'" };
        let end = self.text.len() + size;
        while self.text.len() < end && !self.chance.once_in(size) {
            match self.chance.below(12) {
                0 => {
                    self.push("\n");
                    self.space();
                }
                1 => self.push("{"),
                2 => self.push("}"),
                3 => self.push(other),
                4 => self.push("\t"),
                _ => self.word(),
            }
        }
        self.push(quote);
    }

    fn expression(&mut self, size: usize) {
        self.push("{");
        let end = self.text.len() + size;
        let mut depth = 0;
        while self.text.len() < end && !self.chance.once_in(2 * size) {
            match self.chance.below(14) {
                0 | 1 => {
                    self.push("\n");
                    self.indent();
                }
                2 | 3 => {
                    self.push("{");
                    depth += 1;
                }
                4 | 5 if depth > 0 => {
                    self.push("}");
                    depth -= 1;
                }
                5 if self.asks => self.push("}"),
                6 => self.push("\t"),
                7 => self.push("\""),
                _ => self.word(),
            }
        }
        let close = "}".repeat(depth + 1);
        self.push(&close);
    }

    fn esm(&mut self, size: usize) {
        self.push_one(&["import ", "export "]);
        while self.text.len() < size || self.chance.once_in(3) {
            match self.chance.below(10) {
                0 | 1 => self.push("\n"),
                2 => {
                    self.push("\n");
                    self.blank();
                    self.push("\n");
                }
                3 => self.blank(),
                _ => self.word(),
            }
        }
    }

    /// Spaces and tabs, perhaps none.
    fn blank(&mut self) {
        for _ in 0..self.chance.below(4) {
            self.push_one(&[" ", "\t"]);
        }
    }

    /// What a line of an expression opens with: a prefix ends before a tab,
    /// inside it or behind it.
    fn indent(&mut self) {
        for _ in 0..self.chance.below(5) {
            self.push_one(&[" ", " ", "\t"]);
        }
    }

    fn word(&mut self) {
        self.push_one(&TEXT);
    }

    fn name(&mut self) {
        self.push_one(&["a", "B", "$", "_", "z", "Q"]);
        for _ in 0..self.chance.below_power(6) {
            self.push_one(&["a", "Z", "0", "9", "-", "_", "$", "m"]);
        }
    }

    /// White space, perhaps none.
    fn space(&mut self) {
        if self.chance.once_in(3) {
            self.some_space();
        }
    }

    fn some_space(&mut self) {
        for _ in 0..1 + self.chance.below(3) {
            self.push_one(&[" ", " ", "\n", "\t", "\u{b}", "\u{c}"]);
        }
    }
}

/// Work an error in, or what may be one.
pub(super) fn change(chance: &mut Chance, case: &mut Case) {
    let page = &mut case.page;
    if page.is_empty() {
        return;
    }
    let at = chance.below(page.len());
    let byte = if chance.once_in(4) {
        chance.below(128) as u8
    } else {
        SHARP[chance.below(SHARP.len())]
    };
    let byte = if byte == b'\r' { b'\n' } else { byte };
    match chance.below(6) {
        0 => page[at] = byte,
        1 => page.insert(at, byte),
        2 => {
            page.remove(at);
        }
        3 => page.truncate(at),
        // Say a piece twice.
        4 => {
            let end = (at + 1 + chance.below(8)).min(page.len());
            let piece = page[at..end].to_vec();
            page.splice(at..at, piece);
        }
        // Swap neighbours.
        _ => {
            if at > 0 {
                page.swap(at - 1, at);
            }
        }
    }
}

/// Put other text before and after.
fn embed(chance: &mut Chance, case: &mut Case) {
    let mut before = other_text(chance, 24);
    let after = other_text(chance, 12);
    // ESM wants the start of a line.
    if case.construct == Construct::Esm && !chance.once_in(8) {
        before.push('\n');
    }
    case.start = before.len();
    case.page = [before.as_bytes(), &case.page, after.as_bytes()].concat();
}

/// Text that may stand beside a construct, of less than so many pieces.
pub(super) fn other_text(chance: &mut Chance, pieces: usize) -> String {
    let mut text = String::new();
    for _ in 0..chance.below(pieces) {
        match chance.below(8) {
            0 => text.push('\n'),
            1 => text.push('\t'),
            2 => text.push(SHARP[chance.below(SHARP.len())] as char),
            _ => text.push_str(chance.pick(&TEXT)),
        }
    }
    text
}
