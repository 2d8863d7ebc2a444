//! The cases.

use crate::pages;
use judge::Construct;

/// A page, what is looked for at its start, and what is said of its bodies.
pub struct Page {
    pub bytes: Vec<u8>,
    pub construct: Construct,
    pub verdicts: Verdicts,
}

/// Who says where JavaScript ends.
#[derive(Clone, Copy, Eq, PartialEq)]
pub enum Verdicts {
    /// Nobody: braces are counted.
    None,
    /// One that looks at nothing, and says Ok of each body.
    AllOk,
    /// One that looks at nothing, and says of each body that it could go on.
    AllUnfinished,
}

/// Who makes the product's buffers. The crate makes its own for each call.
#[derive(Clone, Copy, Eq, PartialEq)]
pub enum Way {
    /// They are made once, before the first round, and lent to each.
    Kept,
    /// Each round makes them, where bodies are judged by `drive`.
    Fresh,
    /// As `Kept`, and a worker has all pages at a time.
    Worker,
}

/// Pages on which the two sides are compared.
pub struct Case {
    pub name: String,
    pub title: String,
    pub pages: Vec<Page>,
    pub way: Way,
    /// Whether the crate takes a time that grows with the square of the page,
    /// so that one round of it must do.
    pub crate_is_slow: bool,
}

impl Case {
    /// The bytes of all pages.
    pub fn bytes(&self) -> usize {
        self.pages.iter().map(|page| page.bytes.len()).sum()
    }

    fn new(name: &str, title: &str, page: Page) -> Case {
        Case {
            name: name.into(),
            title: title.into(),
            pages: vec![page],
            way: Way::Kept,
            crate_is_slow: false,
        }
    }

    /// The same where each round makes the product's buffers.
    fn fresh(name: &str, title: &str, page: Page) -> Case {
        Case {
            way: Way::Fresh,
            ..Case::new(name, &format!("{title}, buffers for each call"), page)
        }
    }
}

/// How many `}` the hostile pages have.
const HOSTILE: [usize; 6] = [1_250, 2_500, 5_000, 10_000, 20_000, 40_000];

/// All cases, in the order of the table.
pub fn all() -> Vec<Case> {
    let mut cases = ordinary();
    cases.extend(small());
    cases.push(sixteen());
    cases.extend(HOSTILE.map(hostile));
    cases
}

/// Pages of some 60,000 bytes.
fn ordinary() -> Vec<Case> {
    let attributes = "attributes `name=\"value\"`";
    let esm = "ESM lines, judged Ok";
    vec![
        Case::new("data", "data in braces", pages::data(59_000)),
        Case::fresh("data-fresh", "data in braces", pages::data(59_000)),
        Case::new("code", "indented lines of code", pages::code(2_800)),
        Case::new("nested", "nested braces", pages::nested(29_000)),
        Case::new("attributes", attributes, pages::attributes(4_600)),
        Case::new("quoted", "one quoted value", pages::quoted(59_000)),
        Case::new("esm", esm, pages::esm(1_600)),
        Case::fresh("esm-fresh", esm, pages::esm(1_600)),
    ]
}

/// A tag of 30 bytes, where what a call costs beside its steps shows.
fn small() -> Vec<Case> {
    let title = "a tag of 30 bytes";
    vec![
        Case::new("small", title, pages::small()),
        Case::fresh("small-fresh", title, pages::small()),
    ]
}

fn sixteen() -> Case {
    Case {
        name: "sixteen".into(),
        title: "sixteen pages, by the product in a worker".into(),
        pages: (0..tarredlath::PLACES).map(pages::of_sixteen).collect(),
        way: Way::Worker,
        crate_is_slow: false,
    }
}

/// Each `}` asks, and is told that the expression could go on.
fn hostile(braces: usize) -> Case {
    let name = format!("hostile-{braces}");
    let title = format!("`{{` and {braces} times `}}`, judged unfinished");
    Case {
        way: Way::Fresh,
        crate_is_slow: true,
        ..Case::new(&name, &title, pages::hostile(braces))
    }
}
