//! Document 01's bench cases, points that had to be settled by a run, and
//! pages that are long or deep.

use super::{Sink, LONGEST_PAGE};
use crate::case::Case;
use judge::Construct::{Esm, Expression, Tag};
use judge::{Construct, Kind, Verdict};
use std::io::{self, Write};

/// Small pages whose answers settle the definition.
const SETTLED: [(Construct, &str); 67] = [
    // Bench cases.
    (Expression, "{}"),
    (Expression, "{a}"),
    (Expression, "{a{b}c}"),
    (Expression, "{a"),
    (Expression, "{a}b}"),
    (Tag, "<a>"),
    (Tag, "<>"),
    (Tag, "< a>"),
    (Tag, "<a.b:c>"),
    (Tag, "<a:b.c>"),
    (Tag, "<a b=\"c\">"),
    (Tag, "<a b=<"),
    (Tag, "<!--"),
    (Tag, "<a b=\"c"),
    (Esm, "import a"),
    (Esm, "imports a"),
    // White space after `=`.
    (Tag, "<a b= \"c\"/>"),
    (Tag, "<a b:d= \"c\"/>"),
    (Tag, "<a b=\n\"c\"/>"),
    (Tag, "<a b:d=\n\"c\"/>"),
    (Tag, "<a b="),
    (Tag, "<a b:d="),
    // Lines of a quoted value.
    (Tag, "<a b=\"c\n"),
    (Tag, "<a b=\"c\n  d\"/>"),
    // An unfinished verdict outlives its expression.
    (Tag, "<a {}} b={"),
    // The exit of ESM after a look-ahead.
    (Esm, "import a\n\n"),
    (Esm, "import a\n"),
    (Esm, "import a\n \nb"),
    (Esm, "import a\n\n\n"),
    // Its line and column there, one past the block's end.
    (Esm, "import a\n\n \n"),
    (Esm, "import a\n\n\t\nb"),
    (Esm, "import a\n \n\n"),
    (Esm, "import a\n\t\n\n"),
    (Esm, "import é\n\n"),
    (Esm, "import a\n\n\n\n"),
    // Lines of an expression.
    (Expression, "{a\n  b}"),
    (Expression, "{a\n   \n}"),
    // Tabs at their heads: a prefix that ends inside one, and one that doesn't.
    (Expression, "{\n\t}"),
    (Expression, "{\n \t}"),
    (Expression, "{\n  \t}"),
    (Expression, "{\n\t\t}"),
    (Expression, "{\n\ta}b}"),
    (Expression, "{\n \t\n\ta}\n \tb}"),
    (Expression, "{\n\t"),
    (Expression, "{\t}"),
    (Tag, "<a {\n\tb}\t/>"),
    (Tag, "<a b={\n \tc}\t/>"),
    // Tabs in a quoted value.
    (Tag, "<a\tb=\"\tc\n\td\te\"\t/>"),
    // Slashes, notes, names.
    (Tag, "</a/>"),
    (Tag, "</ a>"),
    // No run of the crate: its identifier helper is not given (DECISIONS.md, 3).
    (Tag, "<a$b>"),
    (Tag, "<a-b>"),
    (Tag, "<\u{b}a>"),
    (Tag, "<a b c=\"d\" {...e} f={g}/>"),
    (Tag, "<!"),
    (Tag, "</!"),
    (Tag, "<*"),
    (Tag, "</*"),
    (Tag, "<//"),
    (Tag, "<a/*"),
    (Tag, "<a//"),
    (Tag, "<a@b>"),
    (Tag, "<a.b@c>"),
    (Tag, "<a:b@c>"),
    (Tag, "<a:9"),
    (Tag, "<a:+"),
    (Tag, "<a:/"),
];

/// The settled points, in both modes and kinds, with all verdicts.
pub fn settled<W: Write>(sink: &mut Sink<W>) -> io::Result<()> {
    for (construct, page) in SETTLED {
        for asks in [false, true] {
            for kind in [Kind::Flow, Kind::Text] {
                let mut case = Case::new(construct, asks, page);
                case.kind = kind;
                sink.put_all(&mut case, 3)?;
            }
        }
    }
    Ok(())
}

/// No bytes, one byte, many bytes.
pub fn large<W: Write>(sink: &mut Sink<W>) -> io::Result<()> {
    for construct in [Expression, Tag, Esm] {
        for asks in [false, true] {
            sink.put_all(&mut Case::new(construct, asks, ""), 1)?;
            for byte in (0..128).filter(|d| *d != b'\r') {
                sink.put_all(&mut Case::new(construct, asks, [byte]), 1)?;
            }
        }
    }

    for size in [1, 2, 3, 7, 100, 999, 1000, 4096, 12_345, 29_900, 59_900] {
        for page in tags_of(size) {
            put_large(sink, Tag, &page)?;
        }
        for page in expressions_of(size) {
            put_large(sink, Expression, &page)?;
        }
        for page in esm_of(size) {
            put_large(sink, Esm, &page)?;
        }
    }
    Ok(())
}

/// Lines and attributes at most: more take long, and show nothing new.
const PARTS: usize = 3000;

fn tags_of(size: usize) -> Vec<String> {
    let many = |text: &str| text.repeat(size);
    let parts = |text: &str| text.repeat(size.min(PARTS));
    vec![
        format!("<{}>", many("a")),
        format!("<{}", many("a")),
        format!("<a.{} />", many("b")),
        format!("<a{}>", many(".b")),
        format!("<a:{}>", many("b")),
        format!("<a {}>", many("b")),
        format!("<a{}/>", parts(" b=\"c\"")),
        format!("<a{}/>", parts(" b")),
        format!("<a b:{}='c'>", many("d")),
        format!("<a b=\"{}\">", many("c")),
        format!("<a b=\"{}", many("c")),
        format!("<a b=\"{}\">", many("é")),
        format!("<a b='{}'>", parts("c\n  ")),
        format!("<a{}>", many(" ")),
        format!("<a{}>", many("\n")),
        format!("<a{}", many("\t")),
        format!("<a {}{}>", many("{"), many("}")),
        format!("<a {{{}}}>", many("b")),
        format!("</{}a{}>", many(" "), many("\n ")),
        format!("<a {{{}}}/>", parts("\n\tb")),
        format!("<a b={{{}}}\t/>", parts("\n \t")),
    ]
}

fn expressions_of(size: usize) -> Vec<String> {
    let many = |text: &str| text.repeat(size);
    let parts = |text: &str| text.repeat(size.min(PARTS));
    vec![
        format!("{{{}}}", many("a")),
        format!("{{{}", many("a")),
        format!("{}{}", many("{"), many("}")),
        format!("{}{}", many("{"), "}".repeat(size - 1)),
        format!("{{{}}}", many("é")),
        format!("{{{}}}", many("\n")),
        format!("{{{}}}", parts("a\n  ")),
        format!("{{{}}}", parts("\n   b")),
        format!("{{{}}}", many(" ")),
        format!("{{{}}}", many("\t")),
        format!("{{{}}}", parts("\n\t")),
        format!("{{{}}}", parts("\n \ta\tb")),
        format!("{{{}}}", parts("\n\t}")),
    ]
}

fn esm_of(size: usize) -> Vec<String> {
    let many = |text: &str| text.repeat(size);
    let parts = |text: &str| text.repeat(size.min(PARTS));
    vec![
        format!("import {}", many("a")),
        format!("import {}", many("é")),
        format!("{} a", many("import")),
        format!("export {}", many(" ")),
        format!("export {}\n{}\nb", parts("a\n"), many(" ")),
        format!("export a{}", parts("\n\t b")),
        format!("import a{}b", "\n".repeat(size.min(60))),
        format!("import a{}b", "\n\n c".repeat(size.min(30))),
    ]
}

/// Counting; with a source that is always Ok; and with one that is unfinished
/// so often (the crate collects the whole body anew for each verdict).
fn put_large<W: Write>(sink: &mut Sink<W>, construct: Construct, page: &str) -> io::Result<()> {
    if page.len() > LONGEST_PAGE {
        return Ok(());
    }
    let unfinished = |number| Verdict::Unfinished { number };
    sink.put(&Case::new(construct, false, page))?;
    for verdicts in [
        vec![],
        vec![Verdict::Ok; 3],
        vec![unfinished(65_535), Verdict::Ok],
        (1..=64).map(unfinished).collect(),
        (1..=20).map(unfinished).chain([Verdict::Ok]).collect(),
    ] {
        let mut case = Case::new(construct, true, page);
        case.verdicts = verdicts;
        sink.put(&case)?;
    }
    Ok(())
}
