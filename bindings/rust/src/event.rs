//! The events that a scan writes.

use crate::Place;
use std::fmt;
use std::iter::FusedIterator;
use std::slice::ChunksExact;

/// How many words of an event buffer an event takes.
pub const EVENT_WORDS: usize = 4;

/// The kinds, each with its number, its name and how the programs write it.
macro_rules! kinds {
    ($($number:literal $name:ident $written:literal)*) => {
        /// What an event is about, by the names of the crate `markdown`, less a leading `Mdx`.
        #[derive(Clone, Copy, Debug, Eq, Hash, PartialEq)]
        pub enum Kind {
            $(#[doc = concat!("`", $written, "`")] $name,)*
            /// A kind that this crate does not know, with its number. No scan writes one: it is
            /// what stands in words that are no events, as those of a buffer that nothing was
            /// written to.
            Other(u32),
        }

        impl Kind {
            /// The kinds that scans write, in the order of their numbers.
            pub const ALL: &'static [Kind] = &[$(Kind::$name),*];

            /// The kind with a number.
            pub fn from_number(number: u32) -> Kind {
                match number {
                    $($number => Kind::$name,)*
                    other => Kind::Other(other),
                }
            }

            /// Its number.
            pub fn number(self) -> u32 {
                match self {
                    $(Kind::$name => $number,)*
                    Kind::Other(number) => number,
                }
            }

            /// How programs write it: `jsx-flow-tag`.
            pub fn name(self) -> &'static str {
                match self {
                    $(Kind::$name => $written,)*
                    Kind::Other(_) => "other",
                }
            }
        }
    };
}

kinds! {
    1 FlowExpression "flow-expression"
    2 TextExpression "text-expression"
    3 ExpressionMarker "expression-marker"
    4 LineEnding "line-ending"
    5 ExpressionData "expression-data"
    6 LinePrefix "line-prefix"
    7 JsxFlowTag "jsx-flow-tag"
    8 JsxTextTag "jsx-text-tag"
    9 JsxTagMarker "jsx-tag-marker"
    10 JsxTagClosingMarker "jsx-tag-closing-marker"
    11 JsxTagName "jsx-tag-name"
    12 JsxTagNamePrimary "jsx-tag-name-primary"
    13 JsxTagNameMemberMarker "jsx-tag-name-member-marker"
    14 JsxTagNamePrefixMarker "jsx-tag-name-prefix-marker"
    15 JsxTagNameMember "jsx-tag-name-member"
    16 JsxTagNameLocal "jsx-tag-name-local"
    17 JsxTagSelfClosingMarker "jsx-tag-self-closing-marker"
    18 JsxTagAttributeExpression "jsx-tag-attribute-expression"
    19 JsxTagAttribute "jsx-tag-attribute"
    20 JsxTagAttributeName "jsx-tag-attribute-name"
    21 JsxTagAttributePrimaryName "jsx-tag-attribute-primary-name"
    22 JsxTagAttributeNamePrefixMarker "jsx-tag-attribute-name-prefix-marker"
    23 JsxTagAttributeInitializerMarker "jsx-tag-attribute-initializer-marker"
    24 JsxTagAttributeNameLocal "jsx-tag-attribute-name-local"
    25 JsxTagAttributeValueLiteral "jsx-tag-attribute-value-literal"
    26 JsxTagAttributeValueLiteralMarker "jsx-tag-attribute-value-literal-marker"
    27 JsxTagAttributeValueExpression "jsx-tag-attribute-value-expression"
    28 JsxTagAttributeValueLiteralValue "jsx-tag-attribute-value-literal-value"
    29 JsxEsWhitespace "jsx-es-whitespace"
    30 Esm "esm"
    31 EsmData "esm-data"
}

impl fmt::Display for Kind {
    fn fmt(&self, f: &mut fmt::Formatter<'_>) -> fmt::Result {
        f.write_str(self.name())
    }
}

/// Which end of a part an event is.
#[derive(Clone, Copy, Debug, Eq, Hash, PartialEq)]
pub enum Edge {
    /// The part begins here.
    Enter,
    /// The part ended before here.
    Exit,
}

/// An event: a part of a construct begins or ends. As text it is a line of a listing, `enter
/// jsx-flow-tag 0 1 1`.
#[derive(Clone, Copy, Debug, Eq, PartialEq)]
pub struct Event {
    /// What begins or ends.
    pub kind: Kind,
    /// Whether it begins or ends.
    pub edge: Edge,
    /// Where.
    pub place: Place,
    /// The columns that are passed of a tab which the event stands inside; 0 nearly everywhere.
    /// They are counted in the place's column, and its offset is the tab's own.
    pub tab_columns: u8,
}

impl Event {
    /// The event that four words are.
    pub fn from_words([head, offset, line, column]: [u32; EVENT_WORDS]) -> Event {
        Event {
            kind: Kind::from_number(head >> 3),
            edge: if head & 1 == 0 {
                Edge::Enter
            } else {
                Edge::Exit
            },
            place: Place {
                offset: offset as usize,
                line: line as usize,
                column: column as usize,
            },
            tab_columns: ((head >> 1) & 3) as u8,
        }
    }
}

impl fmt::Display for Event {
    fn fmt(&self, f: &mut fmt::Formatter<'_>) -> fmt::Result {
        let edge = match self.edge {
            Edge::Enter => "enter",
            Edge::Exit => "exit",
        };
        let Place {
            offset,
            line,
            column,
        } = self.place;
        write!(f, "{edge} {} {offset} {line} {column}", self.kind)?;
        if self.tab_columns > 0 {
            write!(f, " ~{}", self.tab_columns)?;
        }
        Ok(())
    }
}

/// The events in words of an event buffer, in the order in which they were written. It never fails:
/// four words are always an event, of kind [`Kind::Other`] where the number is no kind's, and words
/// behind the last four are left out.
#[derive(Clone, Debug)]
pub struct Events<'a> {
    quads: ChunksExact<'a, u32>,
}

impl<'a> Events<'a> {
    /// The events in these words.
    pub fn new(words: &'a [u32]) -> Events<'a> {
        Events {
            quads: words.chunks_exact(EVENT_WORDS),
        }
    }

    /// So many events from a word of a buffer on; no more than the buffer has.
    pub fn in_buffer(buffer: &'a [u32], first_word: usize, events: usize) -> Events<'a> {
        let behind = buffer.get(first_word..).unwrap_or_default();
        let length = events.saturating_mul(EVENT_WORDS).min(behind.len());
        Events::new(behind.get(..length).unwrap_or_default())
    }
}

/// The event of one of the chunks, which all have four words.
fn event_of(words: &[u32]) -> Option<Event> {
    words.try_into().ok().map(Event::from_words)
}

impl Iterator for Events<'_> {
    type Item = Event;

    fn next(&mut self) -> Option<Event> {
        event_of(self.quads.next()?)
    }

    fn size_hint(&self) -> (usize, Option<usize>) {
        self.quads.size_hint()
    }

    fn nth(&mut self, n: usize) -> Option<Event> {
        event_of(self.quads.nth(n)?)
    }
}

impl DoubleEndedIterator for Events<'_> {
    fn next_back(&mut self) -> Option<Event> {
        event_of(self.quads.next_back()?)
    }
}

impl ExactSizeIterator for Events<'_> {}
impl FusedIterator for Events<'_> {}
