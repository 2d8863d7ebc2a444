//! Recorded answers, 20,050 of them the crate `markdown`'s, against what this crate makes of their
//! cases.

mod support;

use support::case::{typed, Case};
use support::{recorded, written};
use tarredlath::{raw, scan_once, scratch_enough, steps_enough, Answer, Events, Refusal, Scan};

/// So that the test can't pass by comparing little.
const AT_LEAST: usize = 20_000;

#[test]
fn answers_are_as_recorded() {
    let recorded = recorded::all();
    let (mut compared, mut lists) = (0, 0);
    for line in &recorded.lines {
        if line.case.starts_with("batch ") {
            lists += 1;
            continue;
        }
        let case = Case::parse(&line.case).unwrap_or_else(|| panic!("no case: {}", line.case));
        let made = replay(&case);
        let same = agree(&line.answer, &made);
        assert_eq!(
            same, !line.wrong,
            "{}\nrecorded {}\nmade {made}",
            line.case, line.answer
        );
        compared += 1;
    }
    println!(
        "{compared} compared; left out: {lists} lists, {} comments, {} lines that are no cases, \
         {} without an answer",
        recorded.comments, recorded.bad, recorded.unanswered
    );
    assert!(compared >= AT_LEAST, "only {compared} compared");
}

/// Run a case, and write what it comes to: `ANSWER | steps N | events ..`.
fn replay(case: &Case) -> String {
    let mut events = vec![0; case.words()];
    let allowance = case.allowance.unwrap_or(steps_enough(case.page.len()));
    let ran = scan_once(&case.page, &case.job, allowance, &mut events);
    let (mut scan, mut answer) = (ran.scan, ran.answer);
    let mut verdicts = case.verdicts.iter();
    while answer.goes_on() {
        if matches!(answer, Answer::Asking { .. }) {
            let Some(verdict) = verdicts.next() else {
                break;
            };
            if let Err(refusal) = give(&mut scan, verdict) {
                answer = Answer::Refused(refusal);
                break;
            }
        }
        answer = scan.run(&case.page, &mut events, allowance);
    }
    let mut said = written::answer(&answer);
    if matches!(answer, Answer::Asking { .. }) {
        said += &format!(" {}", body(&scan, &case.page));
    }
    let tally = answer.tally();
    let events = written::events(Events::in_buffer(&events, 0, tally.events));
    format!("{said} | steps {} | {events}", tally.steps)
}

/// Give a verdict in types, or in numbers where it is none.
fn give(scan: &mut Scan, verdict: &raw::Verdict) -> Result<(), Refusal> {
    if let Some(verdict) = typed(verdict) {
        return scan.give(verdict);
    }
    let before = *scan.raw();
    let ran = raw::scan_give(before, *verdict);
    assert_eq!(
        (ran.answer.number, ran.scan),
        (raw::number::BAD_CALL, before)
    );
    Err(Refusal::BadCall)
}

fn body(scan: &Scan, page: &[u8]) -> String {
    let mut scratch = vec![0; scratch_enough(page.len())];
    let body = scan
        .body(page, &mut scratch)
        .expect("a scan that asks has a body");
    body.text().expect("a body of a page that is UTF-8");
    written::hex(body.bytes)
}

/// Whether a recorded answer has the same parts. It may have no steps, and at Nok no events say
/// nothing, since the crate `markdown` takes its events back there.
fn agree(recorded: &str, made: &str) -> bool {
    let mut parts: Vec<&str> = made.split(" | ").collect();
    let recorded: Vec<&str> = recorded.split(" | ").collect();
    if recorded.len() == 2 {
        parts.remove(1);
    }
    if recorded.first() == Some(&"Nok") && recorded.last() == Some(&"events") {
        parts.pop();
        parts.push("events");
    }
    recorded == parts
}
