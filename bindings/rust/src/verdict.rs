//! What a caller says of a body.

use crate::raw;
use std::num::NonZeroU16;

/// A verdict on a body, as a JavaScript parser gives it.
///
/// The numbers are the caller's own, 1 to 65535. A scan that ends by a verdict answers with the
/// number that was given, so that the caller finds the message that belongs to it.
#[derive(Clone, Copy, Debug, Eq, PartialEq)]
pub enum Verdict {
    /// The body is whole.
    Ok,
    /// The body could go on.
    Unfinished(NonZeroU16),
    /// The body is wrong.
    Error {
        /// The caller's number.
        number: NonZeroU16,
        /// The offset in the body of what is wrong; one past its end stands for its end.
        offset: usize,
    },
}

impl From<Verdict> for raw::Verdict {
    fn from(verdict: Verdict) -> raw::Verdict {
        let (verdict, number, offset) = match verdict {
            Verdict::Ok => (raw::verdict::OK, 0, 0),
            Verdict::Unfinished(number) => (raw::verdict::UNFINISHED, number.get(), 0),
            Verdict::Error { number, offset } => (raw::verdict::ERROR, number.get(), offset),
        };
        raw::Verdict {
            verdict,
            number: number.into(),
            offset,
        }
    }
}
