//! Stands in for `event.rs`: the types of events.
//!
//! Names and fields are those that the given modules use. Names of kinds that
//! only other constructs use are left out. The order of names has no meaning.

use crate::unist;

/// A place in the page.
#[derive(Clone, Debug, Eq, PartialEq)]
pub struct Point {
    /// Line, from 1.
    pub line: usize,
    /// Column, from 1; a tab goes on to the next stop of four.
    pub column: usize,
    /// Byte offset in the page.
    pub index: usize,
    /// How many columns of a tab at `index` are passed already.
    pub vs: usize,
}

impl Point {
    /// The place as messages carry it, without the part of a tab.
    pub fn to_unist(&self) -> unist::Point {
        unist::Point::new(self.line, self.column, self.index)
    }
}

/// Whether an event begins or ends something.
#[derive(Clone, Debug, Eq, PartialEq)]
pub enum Kind {
    Enter,
    Exit,
}

/// Content that another tokenizer reads; no construct of the judge has any.
#[derive(Clone, Debug, Eq, PartialEq)]
pub enum Content {
    Flow,
    Content,
    String,
    Text,
}

/// Connection of events that hold one piece of such content.
#[derive(Clone, Debug)]
pub struct Link {
    pub previous: Option<usize>,
    pub next: Option<usize>,
    pub content: Content,
}

/// Something happened at a place.
#[derive(Clone, Debug)]
pub struct Event {
    pub kind: Kind,
    pub name: Name,
    pub point: Point,
    pub link: Option<Link>,
}

/// Makes the type of names and the list of all of them.
macro_rules! names {
    ($($name:ident)*) => {
        /// What begins or ends.
        #[derive(Clone, Debug, Eq, PartialEq)]
        pub enum Name {
            $($name),*
        }

        impl Name {
            /// Every name, in the order of their numbers.
            pub const ALL: &'static [Name] = &[$(Name::$name),*];
        }
    };
}

names! {
    // Used by `tokenizer` and `subtokenize`.
    BlankLineEnding
    Data
    Definition
    ListItemPrefix
    Paragraph
    // Used by several constructs.
    LineEnding
    LinePrefix
    SpaceOrTab
    // ESM.
    MdxEsm
    MdxEsmData
    // Expressions.
    MdxFlowExpression
    MdxTextExpression
    MdxExpressionMarker
    MdxExpressionData
    // Tags.
    MdxJsxFlowTag
    MdxJsxTextTag
    MdxJsxEsWhitespace
    MdxJsxTagMarker
    MdxJsxTagClosingMarker
    MdxJsxTagName
    MdxJsxTagNamePrimary
    MdxJsxTagNameMemberMarker
    MdxJsxTagNamePrefixMarker
    MdxJsxTagNameMember
    MdxJsxTagNameLocal
    MdxJsxTagAttribute
    MdxJsxTagAttributeName
    MdxJsxTagAttributePrimaryName
    MdxJsxTagAttributeNamePrefixMarker
    MdxJsxTagAttributeNameLocal
    MdxJsxTagAttributeInitializerMarker
    MdxJsxTagAttributeValueLiteral
    MdxJsxTagAttributeValueLiteralMarker
    MdxJsxTagAttributeValueLiteralValue
    MdxJsxTagAttributeExpression
    MdxJsxTagAttributeValueExpression
    MdxJsxTagSelfClosingMarker
}

/// Events with no other event inside. Only assertions read this list: those of
/// `Tokenizer::exit` then watch, in the profile with assertions, that nothing
/// is ever entered inside one of these.
pub const VOID_EVENTS: [Name; 22] = [
    Name::LineEnding,
    Name::LinePrefix,
    Name::SpaceOrTab,
    Name::MdxEsmData,
    Name::MdxExpressionMarker,
    Name::MdxExpressionData,
    Name::MdxJsxEsWhitespace,
    Name::MdxJsxTagMarker,
    Name::MdxJsxTagClosingMarker,
    Name::MdxJsxTagNamePrimary,
    Name::MdxJsxTagNameMemberMarker,
    Name::MdxJsxTagNamePrefixMarker,
    Name::MdxJsxTagNameMember,
    Name::MdxJsxTagNameLocal,
    Name::MdxJsxTagAttributePrimaryName,
    Name::MdxJsxTagAttributeNamePrefixMarker,
    Name::MdxJsxTagAttributeNameLocal,
    Name::MdxJsxTagAttributeInitializerMarker,
    Name::MdxJsxTagAttributeValueLiteralMarker,
    Name::MdxJsxTagAttributeValueLiteralValue,
    Name::MdxJsxTagSelfClosingMarker,
    Name::Data,
];
