//! Document 01's domain: where the crate decides.

use crate::door::{Answer, Construct, Judge, Scan, Verdict};
use crate::event::Name;

/// Longest page (document 01, answer 2).
const PAGE_MAX: usize = 1_048_576;

/// Largest number of a verdict (document 01, answer 12).
const NUMBER_MAX: u32 = 65_535;

/// Why a case is outside before any state runs.
pub fn forbids_case(scan: &Scan) -> Option<&'static str> {
    let number_out_of_range = |verdict: &Verdict| match *verdict {
        Verdict::Ok => false,
        Verdict::Unfinished { number } | Verdict::Error { number, .. } => {
            number == 0 || number > NUMBER_MAX
        }
    };
    if scan.page.len() > PAGE_MAX {
        Some("page too long")
    } else if scan.start > scan.page.len() {
        Some("start above the page length")
    } else if scan.page.contains(&b'\r') || std::str::from_utf8(scan.page).is_err() {
        Some("byte 13 or not UTF-8")
    } else if scan.verdicts.iter().any(number_out_of_range) {
        Some("number of a verdict out of range")
    } else {
        None
    }
}

/// Why a run would turn out to be outside.
pub fn forbids_run(judge: &Judge, scan: &Scan) -> Option<&'static str> {
    if scan.construct == Construct::Tag
        && !scan.page[scan.start..].is_ascii()
        && meets_non_ascii(judge, scan)
    {
        Some("a tag state meets a byte of 128 or more")
    } else {
        None
    }
}

/// Whether a tag state other than the first and the two of quoted values runs
/// with a byte of 128 or more at its place (document 01, answer 5).
///
/// Found by another run over a page where each such byte is byte 1. States of
/// expressions and quoted values pass both alike. Every other tag state comes
/// to an error at byte 1, at once or when the white space state before it has
/// passed it on; so does no byte that was ASCII before.
///
/// The exception is the white space that opens a later line of a quoted value:
/// the state after it takes byte 1. It shows in the events, as a piece of a
/// value that begins right after a line ending or white space. At Nok there
/// are no events to look at, and any such byte that opens a line counts.
fn meets_non_ascii(judge: &Judge, scan: &Scan) -> bool {
    let is_other = |offset: usize| scan.page.get(offset).is_some_and(|byte| *byte >= 128);
    let page: Vec<u8> = scan
        .page
        .iter()
        .map(|d| if *d < 128 { *d } else { 1 })
        .collect();
    let outcome = judge.scan(&Scan {
        page: &page,
        ..*scan
    });

    match outcome.answer {
        Answer::Unexpected { place, .. } if is_other(place.offset) => true,
        Answer::Nok => (scan.start..scan.page.len()).any(|offset| {
            is_other(offset)
                && scan.page[scan.start..offset]
                    .iter()
                    .rev()
                    .find(|byte| !matches!(byte, b'\t' | 0x0B | 0x0C | b' '))
                    == Some(&b'\n')
        }),
        _ => outcome.events.windows(2).any(|pair| {
            (pair[0].is(&Name::LineEnding) || pair[0].is(&Name::MdxJsxEsWhitespace))
                && pair[1].is(&Name::MdxJsxTagAttributeValueLiteralValue)
                && is_other(pair[1].place.offset)
        }),
    }
}
