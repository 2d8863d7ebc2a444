//! The door: one scan by a fresh tokenizer, started at the first state of an
//! expression, a tag or ESM.

use crate::configuration::{Constructs, ParseOptions};
use crate::domain;
use crate::event::{Kind as EventKind, Name, Point};
use crate::message::Message;
use crate::parser::ParseState;
use crate::place::Place;
use crate::reading;
use crate::state::{Name as StateName, State};
use crate::tokenizer::Tokenizer;
use crate::util::location::Location;
use crate::MdxSignal;
use std::cell::RefCell;
use std::rc::Rc;

/// What is scanned.
#[derive(Clone, Copy, Debug, Eq, PartialEq)]
pub enum Construct {
    Expression,
    Tag,
    Esm,
}

/// Which of the two names the whole construct has in events.
#[derive(Clone, Copy, Debug, Eq, PartialEq)]
pub enum Kind {
    Flow,
    Text,
}

/// What a verdict source says.
#[derive(Clone, Copy, Debug, Eq, PartialEq)]
pub enum Verdict {
    Ok,
    Unfinished { number: u32 },
    Error { number: u32, offset: usize },
}

/// One scan to be judged.
#[derive(Clone, Copy, Debug)]
pub struct Scan<'a> {
    pub construct: Construct,
    pub kind: Kind,
    /// Whether there is a verdict source; without one, braces are counted.
    pub asks: bool,
    pub interrupt: bool,
    pub start: usize,
    pub page: &'a [u8],
    /// What the verdict source says, in order.
    pub verdicts: &'a [Verdict],
}

/// Document 01's answers, as far as the crate can give them.
#[derive(Clone, Debug, Eq, PartialEq)]
pub enum Answer {
    Done {
        end: usize,
    },
    Nok,
    Eof {
        place: Place,
        at: u32,
    },
    Unexpected {
        place: Place,
        at: u32,
        note: u32,
    },
    VerdictError {
        place: Place,
        number: u32,
    },
    VerdictEof {
        place: Place,
        number: u32,
    },
    /// The list of verdicts is used up.
    Asking {
        place: Place,
        body: String,
    },
    /// The run leaves the domain in which the crate decides.
    Outside {
        why: &'static str,
    },
}

impl Answer {
    /// The place that it carries. The end of a construct that is done is an
    /// offset without line and column, and so no place.
    pub fn place(&self) -> Option<Place> {
        match *self {
            Answer::Eof { place, .. }
            | Answer::Unexpected { place, .. }
            | Answer::VerdictError { place, .. }
            | Answer::VerdictEof { place, .. }
            | Answer::Asking { place, .. } => Some(place),
            Answer::Done { .. } | Answer::Nok | Answer::Outside { .. } => None,
        }
    }
}

/// An event.
#[derive(Clone, Debug, Eq, PartialEq)]
pub struct Mark {
    pub exit: bool,
    /// Number of the name in `Name::ALL`.
    name: usize,
    pub place: Place,
    /// How many columns of the tab at the place are passed, if it is not
    /// finished there; else 0.
    pub passed: usize,
}

impl Mark {
    pub(crate) fn is(&self, name: &Name) -> bool {
        Name::ALL[self.name] == *name
    }
}

/// What came of a scan.
#[derive(Clone, Debug)]
pub struct Outcome {
    pub answer: Answer,
    /// Events, as of the answer. None at Nok: there the crate takes them back.
    pub events: Vec<Mark>,
    /// Every body that the verdict source was given.
    pub bodies: Vec<String>,
}

impl Outcome {
    pub(crate) fn outside(why: &'static str) -> Outcome {
        Outcome {
            answer: Answer::Outside { why },
            events: vec![],
            bodies: vec![],
        }
    }
}

/// The verdict source: a list, and what it was asked.
#[derive(Debug, Default)]
struct Source {
    verdicts: Vec<Verdict>,
    bodies: Vec<String>,
    /// A verdict pointed past the body it was about.
    pointed_past: bool,
}

/// An offset that no body has: the crate's helper finds no place for it.
const NOWHERE: usize = usize::MAX;

impl Source {
    /// Say what the list says next; past its end, stop the run. An error that
    /// points past the body is said to be at `past`.
    fn say(&mut self, body: &str, past: usize) -> MdxSignal {
        let verdict = self.verdicts.get(self.bodies.len()).copied();
        self.bodies.push(body.into());
        let ours = || Box::new(reading::OURS.into());
        match verdict {
            Some(Verdict::Ok) => MdxSignal::Ok,
            Some(Verdict::Unfinished { number }) => MdxSignal::Eof(
                number.to_string(),
                ours(),
                Box::new(reading::VERDICT_EOF.into()),
            ),
            Some(Verdict::Error { number, offset }) => {
                let is_past = offset >= body.len();
                self.pointed_past |= is_past;
                MdxSignal::Error(
                    number.to_string(),
                    if is_past { past } else { offset },
                    ours(),
                    Box::new(reading::VERDICT_ERROR.into()),
                )
            }
            None => MdxSignal::Error(String::new(), 0, ours(), Box::new(reading::ASKING.into())),
        }
    }
}

/// The crate, ready to scan.
pub struct Judge {
    source: Rc<RefCell<Source>>,
    /// Options with the verdict source.
    asking: ParseOptions,
    /// Options without one.
    counting: ParseOptions,
    labels: Vec<String>,
}

impl Default for Judge {
    fn default() -> Judge {
        Judge::new()
    }
}

impl Judge {
    pub fn new() -> Judge {
        let source = Rc::new(RefCell::new(Source::default()));
        let for_expressions = Rc::clone(&source);
        let for_esm = Rc::clone(&source);
        let constructs = || Constructs {
            mdx_esm: true,
            gfm_task_list_item: false,
        };
        Judge {
            source,
            asking: ParseOptions {
                constructs: constructs(),
                // Where no place is found, the crate takes the byte that asked.
                mdx_expression_parse: Some(Box::new(move |body, _| {
                    for_expressions.borrow_mut().say(body, NOWHERE)
                })),
                // Here it would panic; the run is outside, whatever is said.
                mdx_esm_parse: Some(Box::new(move |body| for_esm.borrow_mut().say(body, 0))),
            },
            counting: ParseOptions {
                constructs: constructs(),
                mdx_expression_parse: None,
                mdx_esm_parse: None,
            },
            labels: Name::ALL.iter().map(label).collect(),
        }
    }

    /// Name of an event as the programs write it.
    pub fn label(&self, mark: &Mark) -> &str {
        &self.labels[mark.name]
    }

    /// Judge a scan, or say that it is outside the domain.
    ///
    /// Panics where the crate does.
    pub fn judge(&self, scan: &Scan) -> Outcome {
        let why = domain::forbids_case(scan).or_else(|| domain::forbids_run(self, scan));
        match why {
            Some(why) => Outcome::outside(why),
            None => self.scan(scan),
        }
    }

    /// Run the crate.
    pub(crate) fn scan(&self, scan: &Scan) -> Outcome {
        if !begins(scan) {
            return Outcome {
                answer: Answer::Nok,
                events: vec![],
                bodies: vec![],
            };
        }

        *self.source.borrow_mut() = Source {
            verdicts: scan.verdicts.to_vec(),
            ..Source::default()
        };

        let parse_state = ParseState {
            options: if scan.asks {
                &self.asking
            } else {
                &self.counting
            },
            location: scan.asks.then(|| Location::new(scan.page)),
            bytes: scan.page,
            definitions: vec![],
            gfm_footnote_definitions: vec![],
        };
        let mut tokenizer = Tokenizer::new(point_at(&parse_state, scan.start), &parse_state);
        let message = run(&mut tokenizer, scan);
        let source = self.source.take();
        if source.pointed_past && scan.construct == Construct::Esm {
            return Outcome::outside("a verdict points past a body of ESM");
        }
        outcome(&tokenizer, &message, source)
    }
}

/// Whether the construct's first byte is there. The wrappers (left out) call
/// the module only at that byte.
fn begins(scan: &Scan) -> bool {
    let first = scan.page.get(scan.start);
    match scan.construct {
        Construct::Expression => first == Some(&b'{'),
        Construct::Tag => first == Some(&b'<'),
        Construct::Esm => true,
    }
}

/// What a run came to that a message stopped.
fn outcome(tokenizer: &Tokenizer, message: &Message, source: Source) -> Outcome {
    Outcome {
        answer: reading::answer(message, (&tokenizer.point).into(), source.bodies.last()),
        events: tokenizer
            .events
            .iter()
            .map(|event| Mark {
                exit: event.kind == EventKind::Exit,
                name: event.name.clone() as usize,
                place: (&event.point).into(),
                passed: event.point.vs,
            })
            .collect(),
        bodies: source.bodies,
    }
}

/// The place at an offset, with the line and column that the crate counts:
/// another tokenizer walks there.
fn point_at(parse_state: &ParseState, offset: usize) -> Point {
    let page_start = Point {
        line: 1,
        column: 1,
        index: 0,
        vs: 0,
    };
    if offset == 0 {
        return page_start;
    }
    let mut walker = Tokenizer::new(page_start, parse_state);
    let here = (offset, 0);
    walker.push(here, here, State::Next(StateName::MdxEsmStart));
    walker.point
}

/// Feed a fresh tokenizer from its place to the end of the page.
///
/// The construct runs inside an attempt, as in the crate, so at Nok its events
/// are taken back. Both ways out of the attempt are an error of ours: whatever
/// happens, the run stops there, and the stop is a message to be read.
fn run(tokenizer: &mut Tokenizer, scan: &Scan) -> Message {
    use {Construct::*, Kind::*};
    tokenizer.interrupt = scan.interrupt;
    tokenizer.tokenize_state.token_1 = match (scan.construct, scan.kind) {
        (Expression, Flow) => Name::MdxFlowExpression,
        (Expression, Text) => Name::MdxTextExpression,
        (Tag, Flow) => Name::MdxJsxFlowTag,
        (Tag, Text) => Name::MdxJsxTextTag,
        (Esm, _) => Name::Data,
    };
    let first = match scan.construct {
        Expression => StateName::MdxExpressionStart,
        Tag => StateName::MdxJsxStart,
        Esm => StateName::MdxEsmStart,
    };

    tokenizer.attempt(stop(reading::DONE), stop(reading::NOK));
    let from = (scan.start, 0);
    let to = (scan.page.len(), 0);
    match tokenizer.push(from, to, State::Next(first)) {
        State::Error(message) => message,
        state => tokenizer
            .flush(state, false)
            .expect_err("the attempt leaves only by messages"),
    }
}

/// A message of ours that stops the run.
fn stop(rule: &str) -> State {
    State::Error(Message {
        place: None,
        reason: String::new(),
        rule_id: Box::new(rule.into()),
        source: Box::new(reading::OURS.into()),
    })
}

/// The crate's name less a leading `Mdx`, in lower case with hyphens.
fn label(name: &Name) -> String {
    let name = format!("{name:?}");
    let mut label = String::new();
    for char in name.strip_prefix("Mdx").unwrap_or(&name).chars() {
        if char.is_ascii_uppercase() && !label.is_empty() {
            label.push('-');
        }
        label.push(char.to_ascii_lowercase());
    }
    label
}
