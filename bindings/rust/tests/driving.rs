//! Scans that a closure judges.

mod support;

use support::random::Random;
use tarredlath::{drive, Answer, Body, BodyKind, Construct, Job, Refusal, Signal, PAGE_LIMIT};

fn eof(_: &Body<'_>) -> Signal {
    Signal::Eof("could go on".into())
}

fn expression() -> Job {
    Job::new(Construct::Expression)
}

#[test]
fn a_body_that_is_whole_ends_the_expression() {
    let driven = drive(b"{a} b}", &expression(), 10, |_| Signal::Ok);
    assert_eq!((driven.end(), driven.questions), (Some(3), 1));
    assert_eq!(
        (driven.message.as_ref(), driven.limit_reached),
        (None, false)
    );
    assert_eq!(driven.events().len(), driven.answer.tally().events);
    assert_eq!(driven.clone().into_words().len(), 4 * driven.events().len());
}

#[test]
fn the_closure_sees_each_longer_body() {
    let mut seen = Vec::new();
    let driven = drive(b"{a}b}c}", &expression(), 10, |body| {
        seen.push(body.text().expect("text").to_string());
        match seen.len() {
            3 => Signal::Ok,
            _ => Signal::Eof("not yet".into()),
        }
    });
    assert_eq!(seen, ["a", "a}b", "a}b}c"]);
    assert_eq!((driven.end(), driven.message), (Some(7), None));
}

#[test]
fn bodies_have_a_kind_and_no_line_prefix() {
    let mut seen = Vec::new();
    let page = b"<a {...b} c={d\n  e}>";
    let driven = drive(page, &Job::new(Construct::Tag), 10, |body| {
        seen.push((body.kind, body.bytes.to_vec()));
        Signal::Ok
    });
    assert_eq!(driven.end(), Some(page.len()));
    assert_eq!(
        seen,
        [
            (BodyKind::AttributeExpression, b"...b".to_vec()),
            (BodyKind::AttributeValue, b"d\ne".to_vec()),
        ]
    );
}

#[test]
fn the_last_unfinished_message_is_kept() {
    let mut asked = 0;
    let driven = drive(b"{a}b}c", &expression(), 10, |_| {
        asked += 1;
        Signal::Eof(format!("unfinished {asked}"))
    });
    assert!(matches!(driven.answer, Answer::VerdictEof { place, .. } if place.offset == 6));
    assert_eq!(driven.message.as_deref(), Some("unfinished 2"));
}

#[test]
fn an_error_ends_the_scan_at_its_place() {
    let mut asked = 0;
    let driven = drive(b"{a}\nbc}", &expression(), 10, |_| {
        asked += 1;
        match asked {
            1 => Signal::Eof("not yet".into()),
            _ => Signal::Error("no such thing".into(), 4),
        }
    });
    assert_eq!(driven.message.as_deref(), Some("no such thing"));
    let Answer::VerdictError { place, .. } = driven.answer else {
        panic!("{}", driven.answer);
    };
    assert_eq!((place.offset, place.line, place.column), (5, 2, 2));
}

#[test]
fn a_page_may_ask_so_often_and_no_more() {
    let page = [b"{".to_vec(), vec![b'}'; 40_000]].concat();
    for limit in [0, 1, 100] {
        let driven = drive(&page, &expression(), limit, eof);
        assert_eq!((driven.questions, driven.limit_reached), (limit, true));
        assert_eq!((driven.message.as_ref(), driven.end()), (None, None));
        let body_end = 1 + limit;
        let place = driven.answer.place().expect("a place");
        assert!(matches!(driven.answer, Answer::VerdictError { .. }));
        assert_eq!(place.offset, body_end);
    }
}

#[test]
fn as_many_questions_as_the_limit_are_not_too_many() {
    let driven = drive(b"{a}b}", &expression(), 2, eof);
    assert!(!driven.limit_reached && driven.questions == 2);
    assert!(matches!(driven.answer, Answer::VerdictEof { .. }));
    assert_eq!(driven.message.as_deref(), Some("could go on"));
}

#[test]
fn a_block_goes_on_over_a_blank_line_that_is_unfinished() {
    let page = b"export a = [\n\n]\n\nText";
    let job = Job::new(Construct::Esm);
    let driven = drive(page, &job, 10, |body| match body.bytes.ends_with(b"]") {
        true => Signal::Ok,
        false => Signal::Eof("a bracket is open".into()),
    });
    assert_eq!((driven.end(), driven.questions), (Some(15), 2));
}

#[test]
fn what_is_refused_asks_nothing() {
    let never = |_: &Body<'_>| -> Signal { panic!("asked") };
    let long = vec![b'a'; PAGE_LIMIT + 1];
    let driven = drive(&long, &expression(), 10, never);
    assert_eq!(driven.answer, Answer::Refused(Refusal::TooLong));
    let driven = drive(b"{\r}", &expression(), 10, never);
    assert!(matches!(driven.answer, Answer::Refused(Refusal::BadText(place)) if place.offset == 1));
    let past = Job {
        start: 3,
        ..expression()
    };
    let driven = drive(b"{}", &past, 10, never);
    assert_eq!(driven.answer, Answer::Refused(Refusal::BadStart));
    assert_eq!(driven.events().len(), 0);
}

#[test]
fn pages_and_signals_by_chance_come_to_an_end() {
    let mut random = Random::new(7);
    let pieces = [
        "{", "}", "<", ">", "a", "b=", "\"", " ", "\n", "\t", "/", ".", "é", "import ",
    ];
    for _ in 0..3000 {
        let length = random.below(24);
        let page: String = (0..length)
            .map(|_| pieces[random.below(pieces.len())])
            .collect();
        let constructs = [Construct::Expression, Construct::Tag, Construct::Esm];
        let job = Job::new(constructs[random.below(3)]);
        let limit = random.below(6);
        let driven = drive(page.as_bytes(), &job, limit, |_| match random.below(4) {
            0 => Signal::Ok,
            1 => Signal::Error("wrong".into(), random.edge() as usize),
            _ => Signal::Eof("unfinished".into()),
        });
        assert!(driven.questions <= limit);
        assert!(!driven.answer.goes_on(), "{page:?} {}", driven.answer);
        assert!(driven.end().is_none_or(|end| end <= page.len()));
        assert_eq!(driven.events().len(), driven.answer.tally().events);
    }
}
