//! Pages of some kinds, of any length.

use crate::case::{Page, Verdicts};
use judge::Construct;

fn page(construct: Construct, verdicts: Verdicts, bytes: String) -> Page {
    Page {
        bytes: bytes.into(),
        construct,
        verdicts,
    }
}

fn expression(bytes: String) -> Page {
    page(Construct::Expression, Verdicts::None, bytes)
}

fn tag(bytes: String) -> Page {
    page(Construct::Tag, Verdicts::None, bytes)
}

pub fn data(letters: usize) -> Page {
    expression(format!("{{{}}}", "a".repeat(letters)))
}

pub fn code(lines: usize) -> Page {
    let lines = "    const a = b + c;\n".repeat(lines);
    expression(format!("{{\n{lines}}}"))
}

pub fn nested(pairs: usize) -> Page {
    expression(format!("{{{}}}", "{}".repeat(pairs)))
}

pub fn attributes(count: usize) -> Page {
    tag(format!("<a{}>", " name=\"value\"".repeat(count)))
}

pub fn quoted(letters: usize) -> Page {
    tag(format!("<a b=\"{}\">", "c".repeat(letters)))
}

pub fn small() -> Page {
    tag("<Price item=\"4711\" net=\"12\" />".into())
}

/// Lines with no blank one between them: one block, which asks at its end.
pub fn esm(lines: usize) -> Page {
    let lines = "import {Notice} from \"./notice.js\"\n".repeat(lines);
    page(Construct::Esm, Verdicts::AllOk, lines)
}

/// Each `}` asks, with a body that is longer by one byte.
pub fn hostile(braces: usize) -> Page {
    let bytes = format!("{{{}", "}".repeat(braces));
    page(Construct::Expression, Verdicts::AllUnfinished, bytes)
}

/// One of sixteen pages of one to five thousand bytes: four kinds, in four
/// lengths each, so that they don't end at the same time.
pub fn of_sixteen(number: usize) -> Page {
    let size = 1 + number / 4;
    match number % 4 {
        0 => code(size * 60),
        1 => attributes(size * 100),
        2 => nested(size * 600),
        _ => esm(size * 35),
    }
}
