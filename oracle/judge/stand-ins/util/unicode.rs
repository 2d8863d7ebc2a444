//! Stands in for `util/unicode.rs`: punctuation beyond ASCII.
//!
//! It only parts punctuation from everything else, and tags ask only whether a
//! character is white space: the list may be empty.

pub const PUNCTUATION: [char; 0] = [];
