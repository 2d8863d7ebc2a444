//! Scans that start anywhere in a page: in the middle, after line endings and
//! tabs, at its end.

use super::Sink;
use crate::case::Case;
use judge::{Construct, Kind};
use std::io::{self, Write};

const PAGES: [&str; 19] = [
    "",
    "\n",
    "a",
    "é",
    "{a}",
    "<a>",
    "import a",
    "a{b}c{d\n  e}f",
    "a\n{b\n  c}\nd {e",
    "a\t{b\n  c}\n\t<d\n\te/>",
    "é<a b=\"é\nc\">{é}</a>\n<>é</>",
    "<a {b} c={d{e}f}/>\n</a.b.c>\n<a:b c:d='e'/>",
    "import a\nimport b\n\nexport c\n \nimport d",
    "\nexport a\n\n  import b\n\timport c\n\n\nimport d\n",
    "{import a}\nimport {b}\n\n<import export='c'/>\n\n",
    "a < b > c { d } <e> / <f g=h> <i@j> {k",
    // Lines that begin behind tabs, blank lines and longer characters.
    "é{a\tb}\t<c\n\td=\"é\n\"/>\n\nimport e\n\n \t\n\nexport é\n\n\n",
    // Lines of expressions that open with tabs, behind tabs.
    "\t{a\n\tb}\t{c\n \td}\n \t{\n  \te\t}",
    "\t<a {\n\tb}\tc={\n \td}/>\n  \t<e\n\t{\n\t\tf}\t/>",
];

/// Every start of each page, for every construct, mode, kind and flag.
pub fn all<W: Write>(sink: &mut Sink<W>) -> io::Result<()> {
    for page in PAGES {
        for start in 0..=page.len() {
            for construct in [Construct::Expression, Construct::Tag, Construct::Esm] {
                for (asks, kind, interrupt) in [
                    (false, Kind::Flow, false),
                    (false, Kind::Text, true),
                    (true, Kind::Flow, false),
                    (true, Kind::Text, false),
                    (true, Kind::Flow, true),
                ] {
                    let mut case = Case::new(construct, asks, page);
                    case.start = start;
                    case.kind = kind;
                    case.interrupt = interrupt;
                    sink.put_all(&mut case, 4)?;
                }
            }
        }
    }
    Ok(())
}
