//! The body that a scan asks about.

use crate::raw::{self, number};
use crate::Refusal;
use std::str::Utf8Error;

/// What kind of program text a body is.
#[derive(Clone, Copy, Debug, Eq, Hash, PartialEq)]
#[repr(u8)]
pub enum BodyKind {
    /// An expression that stands alone: `{a}`.
    Expression = 1,
    /// An attribute that is an expression: `<a {...b}>`.
    AttributeExpression = 2,
    /// An attribute's value: `<a b={c}>`.
    AttributeValue = 3,
    /// A block of `import` or `export`.
    Esm = 4,
}

impl BodyKind {
    /// The kind with a number, 1 to 4.
    pub(crate) fn from_number(number: u8) -> Option<BodyKind> {
        [
            BodyKind::Expression,
            BodyKind::AttributeExpression,
            BodyKind::AttributeValue,
            BodyKind::Esm,
        ]
        .into_iter()
        .find(|kind| *kind as u8 == number)
    }
}

/// The body that a scan asks about: a part of the page wherever that can be, else a copy in the
/// scratch, without the line prefixes.
#[derive(Clone, Copy, Debug, Eq, PartialEq)]
pub struct Body<'a> {
    /// Its bytes.
    pub bytes: &'a [u8],
    /// What kind of program text it is.
    pub kind: BodyKind,
}

impl<'a> Body<'a> {
    /// Its text. A page that a scan takes is UTF-8, and so are its bodies.
    pub fn text(&self) -> Result<&'a str, Utf8Error> {
        std::str::from_utf8(self.bytes)
    }

    /// The body that the library found, whose bytes stand in the page or in the scratch.
    pub(crate) fn found(
        raw: raw::Body,
        page: &'a [u8],
        scratch: &'a [u8],
    ) -> Result<Body<'a>, Refusal> {
        let bytes = match raw.number {
            number::IN_PAGE => page.get(raw.at..).and_then(|from| from.get(..raw.length)),
            number::IN_SCRATCH => scratch.get(..raw.length),
            other => return Err(Refusal::from_number(other)),
        };
        let kind = BodyKind::from_number(raw.kind);
        let (Some(bytes), Some(kind)) = (bytes, kind) else {
            return Err(Refusal::Unknown(raw.number));
        };
        Ok(Body { bytes, kind })
    }
}
