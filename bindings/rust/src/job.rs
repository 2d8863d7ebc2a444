//! What a scan is asked.

use crate::raw;

/// What to look for.
#[derive(Clone, Copy, Debug, Eq, Hash, PartialEq)]
#[repr(u8)]
pub enum Construct {
    /// An expression, `{` to its `}`.
    Expression = 0,
    /// A tag, `<` to its `>`.
    Tag = 1,
    /// A block of `import` or `export`.
    Esm = 2,
}

impl Construct {
    /// What can begin at an offset of a page: an expression at `{`, a tag at `<`, a block of
    /// `import` or `export` at anything else, and at the page's end.
    pub fn beginning_at(page: &[u8], offset: usize) -> Construct {
        match page.get(offset) {
            Some(b'{') => Construct::Expression,
            Some(b'<') => Construct::Tag,
            _ => Construct::Esm,
        }
    }
}

/// Where the construct stands. The two differ in the names of events alone.
#[derive(Clone, Copy, Debug, Eq, Hash, PartialEq)]
#[repr(u8)]
pub enum Context {
    /// On lines of its own.
    Flow = 0,
    /// Inside a line of text.
    Text = 1,
}

/// What a scan is asked. [`Job::new`] is a job at a page's start, in flow, that counts braces.
///
/// ```
/// use tarredlath::{Construct, Context, Job};
///
/// let job = Job { start: 4, context: Context::Text, ..Job::new(Construct::Tag) };
/// assert!(!job.asks && !job.interrupts);
/// ```
#[derive(Clone, Copy, Debug, Eq, Hash, PartialEq)]
pub struct Job {
    /// What to look for.
    pub construct: Construct,
    /// Where it stands.
    pub context: Context,
    /// The offset in the page at which to look.
    pub start: usize,
    /// Whether bodies are judged: the scan asks for verdicts. If not, it counts braces. A block
    /// of `import` or `export` needs verdicts, and is none without.
    pub asks: bool,
    /// Whether the construct would interrupt a paragraph, which a block of `import` or `export`
    /// may not.
    pub interrupts: bool,
}

impl Job {
    /// A job at the page's start, in flow, without verdicts, that interrupts nothing.
    pub fn new(construct: Construct) -> Job {
        Job {
            construct,
            context: Context::Flow,
            start: 0,
            asks: false,
            interrupts: false,
        }
    }

    /// The flags of the C interface.
    pub(crate) fn flags(&self) -> u8 {
        let flag = |set: bool, number: u8| if set { number } else { 0 };
        flag(self.asks, raw::flag::ASKS) | flag(self.interrupts, raw::flag::INTERRUPT)
    }

    /// The same in the C interface's numbers, for a page inside the lent bytes.
    pub(crate) fn asked_of(&self, at: usize, length: usize) -> raw::Asked {
        raw::Asked {
            at,
            length,
            start: self.start,
            construct: self.construct as u8,
            kind: self.context as u8,
            flags: self.flags(),
        }
    }
}
