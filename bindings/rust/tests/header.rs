//! The numbers and structs of this crate against those of the header, so that neither moves alone.

mod support;

use std::collections::BTreeMap;
use std::mem::{offset_of, size_of};
use support::recorded::file;
use tarredlath::{raw, BodyKind, Construct, Context, Kind, Waits};

#[test]
fn the_library_has_the_version_that_the_crate_was_written_for() {
    assert_eq!(tarredlath::version(), tarredlath::VERSION);
}

/// What the header defines as a number, by its name less the prefix.
fn defined() -> BTreeMap<String, usize> {
    let number = |line: &str| {
        let mut words = line.strip_prefix("#define TARREDLATH_")?.split_whitespace();
        let (name, value) = (words.next()?, words.next()?);
        let value = value.trim_end_matches('u').parse().ok()?;
        Some((name.to_string(), value))
    };
    file("include/tarredlath.h")
        .lines()
        .filter_map(number)
        .collect()
}

/// Names and numbers of constants of one module.
macro_rules! constants {
    ($module:ident: $($name:ident)*) => {
        vec![$((stringify!($name).to_string(), usize::from(raw::$module::$name))),*]
    };
}

/// A kind's name in the header, and its number.
fn kind_define(kind: &Kind) -> (String, usize) {
    let name = kind.name().replace('-', "_").to_uppercase();
    (format!("KIND_{name}"), kind.number() as usize)
}

/// The numbers that enums and limits of the crate stand for.
fn of_types() -> Vec<(&'static str, usize)> {
    vec![
        ("EXPRESSION", Construct::Expression as usize),
        ("TAG", Construct::Tag as usize),
        ("ESM", Construct::Esm as usize),
        ("FLOW", Context::Flow as usize),
        ("TEXT", Context::Text as usize),
        ("NO_BODY", 0),
        ("BODY_EXPRESSION", BodyKind::Expression as usize),
        (
            "BODY_ATTRIBUTE_EXPRESSION",
            BodyKind::AttributeExpression as usize,
        ),
        ("BODY_ATTRIBUTE_VALUE", BodyKind::AttributeValue as usize),
        ("BODY_ESM", BodyKind::Esm as usize),
        ("WAITS_PAGE", Waits::Page as usize),
        ("WAITS_TURN", Waits::Turn as usize),
        ("WAITS_VERDICT", Waits::Verdict as usize),
        ("WAITS_COLLECT", Waits::Collect as usize),
        ("LARGEST_VERDICT_NUMBER", u16::MAX.into()),
        ("PAGE_LIMIT", tarredlath::PAGE_LIMIT),
        ("EVENT_WORDS", tarredlath::EVENT_WORDS),
        ("PLACES", tarredlath::PLACES),
        ("VERSION", tarredlath::VERSION as usize),
    ]
}

fn of_the_crate() -> BTreeMap<String, usize> {
    let mut numbers = constants!(number: DONE NOK TOO_LONG BAD_START BAD_TEXT NOT_ASCII EOF
        UNEXPECTED VERDICT_ERROR VERDICT_EOF FULL NO_PLACE BAD_CALL ASKING PAUSED KEPT STARTED
        PLACED SERVED IDLE IN_PAGE IN_SCRATCH WORDS);
    numbers.extend(constants!(flag: ASKS INTERRUPT));
    numbers.extend(constants!(verdict: OK UNFINISHED ERROR));
    numbers.extend(
        of_types()
            .into_iter()
            .map(|(name, number)| (name.to_string(), number)),
    );
    numbers.extend(Kind::ALL.iter().map(kind_define));
    numbers.into_iter().collect()
}

#[test]
fn numbers_are_the_header_s() {
    assert_eq!(of_the_crate(), defined());
}

#[test]
fn kinds_are_found_by_their_numbers() {
    for kind in Kind::ALL {
        assert_eq!(Kind::from_number(kind.number()), *kind);
    }
    assert_eq!(Kind::from_number(0), Kind::Other(0));
    assert_eq!(Kind::from_number(32), Kind::Other(32));
}

/// Where each field of a struct stands, and the struct's size.
type Layout = (Vec<(String, usize)>, usize);

macro_rules! layout {
    ($type:ident: $($field:ident)*) => {{
        let name = |field: &str| field.trim_start_matches("r#").to_string();
        let fields = vec![$((name(stringify!($field)), offset_of!(raw::$type, $field))),*];
        (stringify!($type).to_lowercase(), (fields, size_of::<raw::$type>()))
    }};
}

fn layouts_of_the_crate() -> BTreeMap<String, Layout> {
    BTreeMap::from([
        layout!(Answer: place line column events steps verdict number r#where note),
        layout!(Words: words number),
        layout!(Scan: length start words at saved body joint fault line column kept_line kept_column
            fault_line fault_column used steps heard_offset depth last heard_number quote construct
            kind flags state back prefix r#where note tab heard),
        layout!(Ran: scan answer),
        layout!(Body: at length number kind),
        layout!(Opening: start construct kind flags answer place line column r#where note events
            steps first),
        layout!(Filled: answer openings events),
        layout!(Place: scan at taken),
        layout!(Worker: places last q words),
        layout!(Started: worker longest number fits),
        layout!(Called: worker answer),
        layout!(View: at length first events waits body),
    ])
}

/// The structs of the header, laid out as C lays them out on x86-64: each field at the next place
/// that its alignment divides.
fn layouts_of_the_header() -> BTreeMap<String, Layout> {
    let mut sizes = BTreeMap::from(
        [
            ("size_t", 8),
            ("uint32_t", 4),
            ("uint16_t", 2),
            ("uint8_t", 1),
        ]
        .map(|(name, size)| (name.to_string(), (size, size))),
    );
    let header = file("include/tarredlath.h");
    let mut layouts = BTreeMap::new();
    for text in header.split("typedef struct ").skip(1) {
        let (name, rest) = text.split_once(" {\n").expect("a struct's name");
        let (body, _) = rest.split_once("\n}").expect("a struct's end");
        let (mut fields, mut end, mut widest) = (Vec::new(), 0_usize, 1);
        for line in body.lines().filter_map(|line| line.split(';').next()) {
            let (kind, field) = line.trim().split_once(' ').expect("a type and a name");
            let (field, times) = match field.strip_suffix("[TARREDLATH_PLACES]") {
                Some(field) => (field, tarredlath::PLACES),
                None => (field, 1),
            };
            let (size, alignment) = sizes[kind];
            let offset = end.next_multiple_of(alignment);
            fields.push((field.to_string(), offset));
            (end, widest) = (offset + times * size, widest.max(alignment));
        }
        let size = end.next_multiple_of(widest);
        sizes.insert(name.to_string(), (size, widest));
        layouts.insert(name.replace("tarredlath_", ""), (fields, size));
    }
    layouts
}

#[test]
fn structs_are_laid_out_as_the_header_s() {
    assert_eq!(layouts_of_the_crate(), layouts_of_the_header());
}
