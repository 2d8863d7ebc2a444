//! Every page over `{`, `}` and one letter, up to a length: where a `{` closes.
//!
//! A page is made longer in any case, unlike in `exhaustive`: what stands
//! behind the brace that closes must make no difference.

use super::Sink;
use crate::case::Case;
use judge::{Construct, Kind};
use std::io::{self, Write};

/// What a page goes on with.
const LETTERS: &[u8; 3] = b"{}a";

/// How many letters fewer tags have.
const FEWER_IN_TAGS: usize = 2;

/// What stands before a page and behind it in a tag. Without the `>` most tags
/// whose expressions close are Nok, where the crate takes its events back.
const TAGS: [(&[u8], &[u8]); 4] = [
    (b"<a ", b""),
    (b"<a b=", b""),
    (b"<a ", b">"),
    (b"<a b=", b">"),
];

/// Counting expressions of both kinds, and counting tags around them.
pub fn all<W: Write>(sink: &mut Sink<W>, depth: usize) -> io::Result<()> {
    for page in pages(depth) {
        let mut case = Case::new(Construct::Expression, false, page);
        for kind in [Kind::Flow, Kind::Text] {
            case.kind = kind;
            sink.put(&case)?;
        }
    }
    for (before, behind) in TAGS {
        for page in pages(depth.saturating_sub(FEWER_IN_TAGS)) {
            let page = [before, &page, behind].concat();
            sink.put(&Case::new(Construct::Tag, false, page))?;
        }
    }
    Ok(())
}

/// Every page of a `{` and at most so many letters, the shortest first.
fn pages(most: usize) -> impl Iterator<Item = Vec<u8>> {
    (0..=most).flat_map(|letters| {
        let count = LETTERS.len().pow(letters as u32);
        (0..count).map(move |number| page(letters, number))
    })
}

/// The page of a `{` and so many letters that has a number among them.
fn page(letters: usize, number: usize) -> Vec<u8> {
    let mut page = vec![b'{'];
    let mut rest = number;
    for _ in 0..letters {
        page.push(LETTERS[rest % LETTERS.len()]);
        rest /= LETTERS.len();
    }
    page
}
