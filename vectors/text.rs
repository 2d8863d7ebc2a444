//! Writes the standard input of the program `page_cases`: texts with the verdict of the standard
//! library's own UTF-8 reader, and the classes of all bytes by its own methods. Run from the
//! repository's root:
//!
//!     mkdir -p target && rustc -O vectors/text.rs -o target/text-vectors && target/text-vectors > crates/page_cases/stdin
//!
//! The output is the same in every run. Its lines:
//!
//!     text HEX valid              HEX is - for the empty text
//!     text HEX invalid OFFSET     the earlier of the first byte 13 and the first ill-formed sequence
//!     class BYTE FLAGS            white space, name start, name continuation, space or tab: 0 or 1

use std::collections::HashSet;
use std::io::Write;

/// The rows of Unicode's Table 3-7: the range of each byte of a sequence.
const ROWS: [&[(u8, u8)]; 9] = [
    &[(0x00, 0x7F)],
    &[(0xC2, 0xDF), (0x80, 0xBF)],
    &[(0xE0, 0xE0), (0xA0, 0xBF), (0x80, 0xBF)],
    &[(0xE1, 0xEC), (0x80, 0xBF), (0x80, 0xBF)],
    &[(0xED, 0xED), (0x80, 0x9F), (0x80, 0xBF)],
    &[(0xEE, 0xEF), (0x80, 0xBF), (0x80, 0xBF)],
    &[(0xF0, 0xF0), (0x90, 0xBF), (0x80, 0xBF), (0x80, 0xBF)],
    &[(0xF1, 0xF3), (0x80, 0xBF), (0x80, 0xBF), (0x80, 0xBF)],
    &[(0xF4, 0xF4), (0x80, 0x8F), (0x80, 0xBF), (0x80, 0xBF)],
];

/// Lines in several scripts, of one to four bytes a character.
const SCRIPTS: [&str; 8] = [
    "import {Chart} from './chart.js'\n",
    "Größe, façade, naïve, žluťoučký kůň\n",
    "Ελληνικά και кириллица и עברית و العربية\n",
    "हिन्दी ไทย ქართული አማርኛ\n",
    "漢字かな交じり文 한국어 文章\n",
    "<Tag a={b} c=\"d\">😀🎉🧪</Tag>\n",
    "\u{0}\u{7f}\u{80}\u{7ff}\u{800}\u{d7ff}\u{e000}\u{ffff}\u{10000}\u{10ffff}\n",
    "𝔘𝔫𝔦𝔠𝔬𝔡𝔢 𐍈 𠀀 tab\there\n",
];

/// What is written, each text once.
struct Vectors {
    seen: HashSet<Vec<u8>>,
    lines: Vec<String>,
}

impl Vectors {
    fn text(&mut self, bytes: &[u8]) {
        if !self.seen.insert(bytes.to_vec()) {
            return;
        }
        let hex = if bytes.is_empty() {
            "-".to_string()
        } else {
            bytes.iter().map(|b| format!("{b:02x}")).collect()
        };
        self.lines.push(match first_fault(bytes) {
            None => format!("text {hex} valid"),
            Some(offset) => format!("text {hex} invalid {offset}"),
        });
    }

    /// The bytes alone, before an ASCII letter, between two, and after a whole character.
    fn in_places(&mut self, bytes: &[u8]) {
        self.text(bytes);
        self.text(&[bytes, b"a"].concat());
        self.text(&[b"a", bytes, b"\n"].concat());
        self.text(&["é".as_bytes(), bytes].concat());
    }
}

fn first_fault(bytes: &[u8]) -> Option<usize> {
    let ill = std::str::from_utf8(bytes).err().map(|e| e.valid_up_to());
    let ret = bytes.iter().position(|&b| b == 13);
    match (ill, ret) {
        (Some(a), Some(b)) => Some(a.min(b)),
        (a, b) => a.or(b),
    }
}

/// A small generator of numbers, so that the output does not depend on a library's.
struct Random(u64);

impl Random {
    fn below(&mut self, n: usize) -> usize {
        self.0 ^= self.0 << 13;
        self.0 ^= self.0 >> 7;
        self.0 ^= self.0 << 17;
        (self.0 % n as u64) as usize
    }
}

/// Every sequence made of the ends of its row's ranges.
fn corners(row: &[(u8, u8)]) -> Vec<Vec<u8>> {
    row.iter().fold(vec![vec![]], |made, &(low, high)| {
        made.iter()
            .flat_map(|s| [low, high].map(|b| [&s[..], &[b]].concat()))
            .collect()
    })
}

/// Each corner whole, cut short, and with each byte just outside its range or far outside it.
fn boundaries(out: &mut Vectors) {
    for row in ROWS {
        for sequence in corners(row) {
            out.in_places(&sequence);
            for cut in 1..sequence.len() {
                out.in_places(&sequence[..cut]);
            }
            for (place, &(low, high)) in row.iter().enumerate() {
                for other in [
                    low.wrapping_sub(1),
                    high.wrapping_add(1),
                    0x00,
                    0x0A,
                    0x41,
                    0x7F,
                    0x80,
                    0xBF,
                    0xC0,
                    0xFF,
                ] {
                    let mut damaged = sequence.clone();
                    damaged[place] = other;
                    out.in_places(&damaged);
                }
            }
        }
    }
}

/// Every first byte, alone and with continuation bytes at the ends of every range of the table.
fn first_bytes(out: &mut Vectors) {
    for first in 0..=255u8 {
        out.text(&[first]);
        for second in [0x00, 0x7F, 0x80, 0x8F, 0x90, 0x9F, 0xA0, 0xBF, 0xC0, 0xFF] {
            out.text(&[first, second]);
            out.text(&[first, second, 0x80]);
            out.text(&[first, second, 0xBF, 0x80]);
        }
    }
}

/// Overlong forms, surrogates, and what lies past the last character.
fn forbidden(out: &mut Vectors) {
    for scalar in [0x00u32, 0x2F, 0x7F] {
        out.in_places(&[0xC0 | (scalar >> 6) as u8, 0x80 | (scalar & 0x3F) as u8]);
    }
    for scalar in [0x00u32, 0x7F, 0x80, 0x7FF, 0xD800, 0xDBFF, 0xDC00, 0xDFFF] {
        out.in_places(&three(scalar));
        out.in_places(&[three(scalar), three(0xDC00)].concat());
    }
    for scalar in [0x00u32, 0x7FF, 0x800, 0xFFFF, 0x110000, 0x13FFFF, 0x1FFFFF] {
        out.in_places(&four(scalar));
    }
    out.in_places(&[0xF8, 0x88, 0x80, 0x80, 0x80]);
    out.in_places(&[0xFC, 0x84, 0x80, 0x80, 0x80, 0x80]);
    out.in_places(&[0xEF, 0xBB, 0xBF]);
}

fn three(scalar: u32) -> Vec<u8> {
    let tail = |shift: u32| 0x80 | (scalar >> shift & 0x3F) as u8;
    vec![0xE0 | (scalar >> 12) as u8, tail(6), tail(0)]
}

fn four(scalar: u32) -> Vec<u8> {
    let tail = |shift: u32| 0x80 | (scalar >> shift & 0x3F) as u8;
    vec![0xF0 | (scalar >> 18) as u8, tail(12), tail(6), tail(0)]
}

/// Texts of several scripts, whole, cut at each byte of one line, and with one byte changed.
fn long_texts(out: &mut Vectors, random: &mut Random) {
    for line in SCRIPTS {
        for cut in 0..=line.len() {
            out.text(&line.as_bytes()[..cut]);
        }
    }
    for round in 0..600 {
        let mut text = String::new();
        for _ in 0..1 + round % 4 {
            text.push_str(SCRIPTS[random.below(SCRIPTS.len())]);
        }
        let mut bytes = text.into_bytes();
        out.text(&bytes);
        let place = random.below(bytes.len());
        bytes[place] = random.below(256) as u8;
        out.text(&bytes);
    }
    let whole = SCRIPTS.concat().repeat(8).into_bytes();
    out.text(&whole);
    for place in [0, 1, whole.len() / 2, whole.len() - 2, whole.len() - 1] {
        let mut damaged = whole.clone();
        damaged[place] = 0xFF;
        out.text(&damaged);
    }
}

/// Carriage returns: alone, before and after a fault, in and after a sequence.
fn returns(out: &mut Vectors, random: &mut Random) {
    for text in [
        &b"\r"[..],
        b"\r\n",
        b"a\rb",
        b"\r\xFF",
        b"\xFF\r",
        b"\xC3\r",
        b"\xE2\x82\r",
        b"\xF0\x9F\x98\r",
        b"\x0C\x0E\x8D",
    ] {
        out.in_places(text);
    }
    for _ in 0..400 {
        let mut bytes = SCRIPTS[random.below(SCRIPTS.len())].as_bytes().to_vec();
        let place = random.below(bytes.len());
        bytes[place] = 13;
        out.text(&bytes);
        let other = random.below(bytes.len());
        bytes[other] = random.below(256) as u8;
        out.text(&bytes);
    }
}

/// Short texts of bytes near the table's ends, in any order.
fn mixtures(out: &mut Vectors, random: &mut Random) {
    let bytes = [
        0x00, 0x0A, 0x0C, 0x0D, 0x0E, 0x41, 0x7F, 0x80, 0x8F, 0x90, 0x9F, 0xA0, 0xBF, 0xC0, 0xC1,
        0xC2, 0xDF, 0xE0, 0xE1, 0xEC, 0xED, 0xEE, 0xEF, 0xF0, 0xF1, 0xF3, 0xF4, 0xF5, 0xFF,
    ];
    for round in 0..3000 {
        let text: Vec<u8> = (0..2 + round % 9)
            .map(|_| bytes[random.below(bytes.len())])
            .collect();
        out.text(&text);
    }
}

/// The classes as the standard library has them; a byte of 128 or more is in none.
fn classes(out: &mut Vectors) {
    for byte in 0..=255u8 {
        let start = byte.is_ascii_alphabetic() || byte == b'$' || byte == b'_';
        let flags = [
            byte.is_ascii() && char::from(byte).is_whitespace(),
            start,
            start || byte.is_ascii_digit() || byte == b'-',
            byte == b'\t' || byte == b' ',
        ];
        let flags: String = flags.iter().map(|&f| if f { '1' } else { '0' }).collect();
        out.lines.push(format!("class {byte} {flags}"));
    }
}

fn main() {
    let mut out = Vectors {
        seen: HashSet::new(),
        lines: vec![],
    };
    let mut random = Random(0x9E37_79B9_7F4A_7C15);
    out.text(b"");
    boundaries(&mut out);
    first_bytes(&mut out);
    forbidden(&mut out);
    long_texts(&mut out, &mut random);
    returns(&mut out, &mut random);
    mixtures(&mut out, &mut random);
    classes(&mut out);
    let text = out.lines.join("\n") + "\n";
    std::io::stdout()
        .write_all(text.as_bytes())
        .expect("standard output takes the vectors");
}
