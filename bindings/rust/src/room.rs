//! How much memory to lend.

use crate::raw::{self, number};

/// The longest page that is taken, in bytes.
pub const PAGE_LIMIT: usize = 1_048_576;

/// The words of an event buffer that no scan of a page of `length` bytes fills, or `None` where no
/// page is so long. A worker needs sixteen times as many.
///
/// ```
/// assert_eq!(tarredlath::words_enough(2), Some(72));
/// assert_eq!(tarredlath::words_enough(tarredlath::PAGE_LIMIT + 1), None);
/// ```
pub fn words_enough(length: usize) -> Option<usize> {
    let enough = raw::words_enough(length);
    (enough.number == number::WORDS).then_some(enough.words)
}

/// The bytes of a scratch that are enough for every body of a page of `length` bytes: half as many
/// again, since a tab that a line prefix ends inside becomes spaces.
pub fn scratch_enough(length: usize) -> usize {
    length.saturating_add(length / 2)
}

/// The steps that no scan of a page of `length` bytes goes beyond: eight a byte, and eight for its
/// end.
pub fn steps_enough(length: usize) -> usize {
    length.saturating_add(1).saturating_mul(8)
}
