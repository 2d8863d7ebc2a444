//! Every state met with every ASCII byte but 13, and some other characters, and
//! several ways on.

use super::{kind_for, Sink};
use crate::case::Case;
use judge::Construct;
use std::io::{self, Write};

/// Pages after which each state of a tag meets the next byte, in the order of
/// the Rust module.
#[rustfmt::skip]
const TAGS: [&str; 88] = [
    // Start, and after `<`, with the white space that may stand there.
    "", "<", "<\u{b}", "<\u{c} ", "<\u{b}\n", "<\u{b}\n ",
    // Closing tag.
    "</", "</ ", "</\n", "</\t\n ",
    // Primary name and after.
    "<a", "<$", "<_1", "<a-", "</a", "<a ", "<a\n", "<a \n ", "</a ",
    // Member names.
    "<a.", "<a. ", "<a.\n", "<a .", "<a.b", "<a.b-", "<a.b ", "<a.b\n", "<a.b.", "<a.b . ", "<a.b.c",
    // Local names.
    "<a:", "<a: ", "<a:\n", "<a :", "<a:b", "<a:b1", "<a:b ", "<a:b\n",
    // Self-closing.
    "<a/", "<a /", "<a/ ", "<a/\n", "<a b/", "<a b=\"c\"/", "<a {b}/", "</a/",
    // Attribute names.
    "<a b", "<a b-", "<a b ", "<a b\n", "<a b c", "<a b\nc",
    // Local attribute names.
    "<a b:", "<a b: ", "<a b :", "<a b:c", "<a b:c_", "<a b:c ", "<a b:c\n",
    // Attribute values.
    "<a b=", "<a b =", "<a b:c=", "<a b:c= ", "<a b:c =\n",
    "<a b=\"", "<a b='", "<a b=\"c", "<a b='c", "<a b=\"\n", "<a b=\"c\n", "<a b=\"c\n \t", "<a b=\"c\n\n",
    "<a b=\"\"", "<a b=\"c\" ", "<a b='c'\n",
    // Expressions.
    "<a {", "<a{b", "<a {b\n ", "<a {}", "<a{b}", "<a {b} ", "<a b={", "<a b={c\n  ", "<a b={c}",
    "<a {b\n\t", "<a {b\n \t", "<a b={c\n\t", "<a b={c\n \t",
];

#[rustfmt::skip]
const AFTER_TAGS: [&str; 12] = [
    "", ">", " >", "/>", "b>", " b>", ".b>", ":b=\"c\">", "=\"c\"/>", "}>", "\"'>", "\n c='d' {e}/>",
];

#[rustfmt::skip]
const EXPRESSIONS: [&str; 25] = [
    "", "{", "{a", "{ ", "{\n", "{a\n", "{a\n ", "{a\n  ", "{a\n   ", "{\n\n", "{\n \n", "{{", "{{a",
    "{{}", "{{a\n  ", "{a{b}", "{é", "{é\n ",
    "{\t", "{\n\t", "{a\n\t", "{a\n \t", "{a\n  \t", "{a\n\t\t", "{{a\n\t",
];

#[rustfmt::skip]
const AFTER_EXPRESSIONS: [&str; 11] = [
    "", "}", "a}", "}}", "{}}", "\n}", "\n  b}", " \n   \n }", "}\n}", "\n\tb}", "\t\n \t}",
];

#[rustfmt::skip]
const ESM: [&str; 28] = [
    "", "e", "i", "ex", "im", "expo", "impo", "expor", "impor", "export", "import", "exports", "imports",
    "export ", "import ", "import a", "import a ", "import a\n", "import a\n ", "import a\n\t", "import a\nb",
    "import a\n\n", "import a\n\n ", "import a\n \n", "import a\n\nb", "import é", "export {\n", "import a\n \t",
];

#[rustfmt::skip]
const AFTER_ESM: [&str; 9] = [
    "", " ", " a", "\n", "\n\n", "\nb", "\n \n", " a\n\nb\n", "port a\n\t\nb",
];

/// Characters of two, three and four bytes; white space is among them.
const OTHERS: [&str; 4] = ["é", "\u{a0}", "日", "😀"];

/// The three constructs in both modes.
pub fn all<W: Write>(sink: &mut Sink<W>) -> io::Result<()> {
    each(sink, Construct::Tag, &TAGS, &AFTER_TAGS)?;
    each(
        sink,
        Construct::Expression,
        &EXPRESSIONS,
        &AFTER_EXPRESSIONS,
    )?;
    each(sink, Construct::Esm, &ESM, &AFTER_ESM)
}

fn each<W: Write>(
    sink: &mut Sink<W>,
    construct: Construct,
    before: &[&str],
    after: &[&str],
) -> io::Result<()> {
    let ascii = (0..128).filter(|d| *d != b'\r').map(char::from);
    let mut letters: Vec<String> = ascii.map(String::from).collect();
    letters.extend(OTHERS.map(String::from));
    for begin in before {
        for letter in &letters {
            for end in after {
                for asks in [false, true] {
                    let page = [begin, letter.as_str(), end].concat();
                    let mut case = Case::new(construct, asks, page);
                    case.kind = kind_for(&case.page);
                    sink.put_all(&mut case, 2)?;
                }
            }
        }
    }
    Ok(())
}
