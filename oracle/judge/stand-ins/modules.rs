// Stands in for the module list of the crate's `lib.rs`, less the compilers to
// HTML and to syntax trees. Included at the root, because the given modules
// name one another by `crate::`. Their style is not ours to judge: no
// warnings.

extern crate alloc;

#[allow(warnings)]
mod configuration;
#[allow(warnings)]
mod construct;
#[allow(warnings)]
mod event;
#[allow(warnings)]
mod message;
#[allow(warnings)]
mod parser;
#[allow(warnings)]
mod resolve;
#[allow(warnings)]
mod state;
#[allow(warnings)]
mod subtokenize;
#[allow(warnings)]
mod tokenizer;
#[allow(warnings)]
mod unist;
#[allow(warnings)]
mod util;

use configuration::ParseOptions;
use util::mdx::{
    EsmParse as MdxEsmParse, ExpressionKind as MdxExpressionKind,
    ExpressionParse as MdxExpressionParse, Signal as MdxSignal,
};
