//! What a scan was reading when it failed, and the hints for an author.

use std::fmt;

/// The where-numbers, each with its name and how it is said.
macro_rules! wheres {
    ($($number:literal $name:ident $text:literal)*) => {
        /// What was being read where a scan failed. As text it is said as in "unexpected byte *in
        /// the name*".
        #[derive(Clone, Copy, Debug, Eq, PartialEq)]
        pub enum Where {
            $(#[doc = $text] $name,)*
            /// No where-number: only the answer of a scan that was made up has none.
            Unsaid,
        }

        impl From<u8> for Where {
            fn from(number: u8) -> Where {
                match number {
                    $($number => Where::$name,)*
                    _ => Where::Unsaid,
                }
            }
        }

        impl Where {
            /// The where-number, 1 to 19, or 0.
            pub fn number(self) -> u8 {
                match self {
                    $(Where::$name => $number,)*
                    Where::Unsaid => 0,
                }
            }

            /// How it is said.
            pub fn text(self) -> &'static str {
                match self {
                    $(Where::$name => $text,)*
                    Where::Unsaid => "here",
                }
            }
        }
    };
}

wheres! {
    1 BeforeName "before the name"
    2 InName "in the name"
    3 AfterName "after the name"
    4 BeforeMemberName "before a member's name"
    5 InMemberName "in a member's name"
    6 AfterMemberName "after a member's name"
    7 BeforeLocalName "before a local name"
    8 InLocalName "in a local name"
    9 AfterLocalName "after a local name"
    10 BeforeAttributeName "before an attribute's name"
    11 InAttributeName "in an attribute's name"
    12 AfterAttributeName "after an attribute's name"
    13 BeforeLocalAttributeName "before a local attribute name"
    14 InLocalAttributeName "in a local attribute name"
    15 AfterLocalAttributeName "after a local attribute name"
    16 BeforeAttributeValue "before an attribute's value"
    17 InAttributeValue "in an attribute's value"
    18 AfterSlash "after a slash"
    19 InExpression "in an expression"
}

impl Where {
    /// What to tell the author of an unexpected byte.
    pub fn advice(self) -> &'static str {
        use Where::*;
        match self {
            BeforeName => {
                "a name begins with a letter, $ or _; \
                 a < that is meant as text is written &lt; or \\<"
            }
            InName | InMemberName | InLocalName | InAttributeName | InLocalAttributeName => {
                "a name has letters, digits, -, $ and _"
            }
            AfterName | AfterMemberName | AfterLocalName => {
                "an attribute's name, {, / or > must come next"
            }
            BeforeMemberName | BeforeLocalName | BeforeLocalAttributeName => {
                "a name must come next"
            }
            BeforeAttributeName => "an attribute's name begins with a letter, $ or _",
            AfterAttributeName | AfterLocalAttributeName => "a = is missing before the value",
            BeforeAttributeValue => "a value stands in quotes or in braces",
            AfterSlash => "after the / at the end of a tag comes >",
            InAttributeValue | InExpression | Unsaid => "it can't stand there",
        }
    }

    /// What is missing where the page ends too early.
    pub fn missing(self) -> &'static str {
        match self {
            Where::InAttributeValue => "the closing quote is missing",
            Where::InExpression => "the closing } is missing",
            _ => "it was cut",
        }
    }
}

impl fmt::Display for Where {
    fn fmt(&self, f: &mut fmt::Formatter<'_>) -> fmt::Result {
        f.write_str(self.text())
    }
}

/// A hint for the author: a usual mistake was recognised.
#[derive(Clone, Copy, Debug, Eq, PartialEq)]
#[repr(u8)]
pub enum Note {
    /// How a comment is written in MDX.
    Comment = 1,
    /// Comments in a tag are not taken.
    CommentInTag = 2,
    /// How a link is written in MDX.
    Link = 3,
    /// How an element is given as a value.
    ElementAsValue = 4,
}

impl Note {
    /// The note with a number, 1 to 4.
    pub fn from_number(number: u8) -> Option<Note> {
        let notes = [
            Note::Comment,
            Note::CommentInTag,
            Note::Link,
            Note::ElementAsValue,
        ];
        notes.into_iter().find(|note| note.number() == number)
    }

    /// Its number.
    pub fn number(self) -> u8 {
        self as u8
    }

    /// What to tell the author.
    pub fn advice(self) -> &'static str {
        match self {
            Note::Comment => "write a comment as {/* .. */}",
            Note::CommentInTag => "no comments inside a tag",
            Note::Link => "write a link as [text](address)",
            Note::ElementAsValue => "write an element as a value in braces",
        }
    }
}
