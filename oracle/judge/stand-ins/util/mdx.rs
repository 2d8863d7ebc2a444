//! Stands in for `util/mdx.rs`: the types of verdict sources.

use alloc::{boxed::Box, string::String};

/// What a verdict source says.
#[derive(Clone, Debug)]
pub enum Signal {
    /// An error: reason, offset in the body, source, rule.
    Error(String, usize, Box<String>, Box<String>),
    /// Unfinished: reason, source, rule.
    Eof(String, Box<String>, Box<String>),
    /// Fine.
    Ok,
}

/// Where an expression stands.
#[derive(Clone, Debug)]
pub enum ExpressionKind {
    Expression,
    AttributeExpression,
    AttributeValueExpression,
}

/// Verdict source for ESM.
pub type EsmParse = dyn Fn(&str) -> Signal;

/// Verdict source for expressions.
pub type ExpressionParse = dyn Fn(&str, &ExpressionKind) -> Signal;
