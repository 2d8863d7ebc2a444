//! Every bit pattern of a scan is answered: those that no call gave, and numbers that stand for
//! nothing. Where the answer is BAD_CALL, all is as it was.

mod support;

use support::made_up::{
    asked, change_one_field, scan_by_chance, scan_of_ones, Counts, PAGE, WORDS,
};
use support::random::Random;
use tarredlath::raw::{self, number};
use tarredlath::{words_enough, Refusal, Scan};

#[test]
fn the_buffer_is_long_enough() {
    assert_eq!(words_enough(PAGE.len()), Some(WORDS));
}

/// The states of a scan that is judged, one after each step.
fn states_of_a_scan() -> Vec<raw::Scan> {
    let mut events = [0; WORDS];
    let mut ran = raw::scan_new(PAGE, &asked(), WORDS);
    let mut states = vec![ran.scan];
    while [number::PAUSED, number::ASKING, number::KEPT].contains(&ran.answer.number) {
        ran = match ran.answer.number {
            number::ASKING => raw::scan_give(ran.scan, raw::Verdict::default()),
            _ => raw::scan_run(ran.scan, PAGE, &mut events, 1),
        };
        states.push(ran.scan);
    }
    assert_eq!(
        (ran.answer.number, ran.answer.place),
        (number::DONE, PAGE.len())
    );
    states
}

/// Make every call with a scan.
fn try_scan(scan: raw::Scan, allowance: usize, counts: &mut Counts) {
    let mut events = [7; WORDS];
    let ran = raw::scan_run(scan, PAGE, &mut events, allowance);
    let untouched = ran.scan == scan && events == [7; WORDS];
    counts.add(ran.answer.number, untouched);
    for verdict in 0..4 {
        let verdict = raw::Verdict {
            verdict,
            number: 1,
            offset: usize::MAX,
        };
        let ran = raw::scan_give(scan, verdict);
        counts.add(ran.answer.number, ran.scan == scan);
    }
    let mut scratch = [7; 2 * PAGE.len()];
    let body = raw::scan_body(scan, PAGE, &mut scratch);
    counts.add(body.number, scratch == [7; 2 * PAGE.len()]);
    counts.add(raw::scan_answer(scan).number, true);
    try_in_types(Scan::from(scan), &mut scratch);
}

/// The same in types: the crate must not panic on what it is answered.
fn try_in_types(scan: Scan, scratch: &mut [u8]) {
    assert!(!scan.answer().to_string().is_empty());
    if let Err(refusal) = scan.body(PAGE, scratch) {
        assert_eq!(refusal, Refusal::BadCall);
    }
}

#[test]
fn scans_with_one_changed_number_are_answered() {
    let mut counts = Counts::default();
    for scan in states_of_a_scan() {
        change_one_field(scan, |changed| try_scan(changed, 3, &mut counts));
    }
    counts.say("scans with one changed number");
}

#[test]
fn scans_by_chance_are_answered() {
    let mut random = Random::new(11);
    let mut counts = Counts::default();
    for scan in states_of_a_scan() {
        for one_in in [1, 4, 16, 64] {
            for _ in 0..50 {
                let changed = scan_by_chance(scan, one_in, &mut random);
                try_scan(changed, 1000, &mut counts);
            }
        }
    }
    counts.say("scans by chance");
}

#[test]
fn a_scan_of_ones_is_refused() {
    let scan = scan_of_ones();
    assert_eq!(raw::scan_answer(scan).number, number::BAD_CALL);
    let ran = raw::scan_run(scan, PAGE, &mut [], usize::MAX);
    assert_eq!((ran.answer.number, ran.scan), (number::BAD_CALL, scan));
}

#[test]
fn numbers_that_stand_for_nothing_are_refused() {
    let mut events = [7; WORDS];
    for tried in 0..=255 {
        let (mut construct, mut kind, mut flags) = (asked(), asked(), asked());
        construct.construct = tried;
        kind.kind = tried;
        flags.flags = tried;
        for (asked, largest) in [(construct, 2), (kind, 1), (flags, 3)] {
            let once = raw::scan_once(PAGE, &asked, 1, &mut events).answer.number;
            assert_eq!(once == number::BAD_CALL, tried > largest);
            let new = raw::scan_new(PAGE, &asked, WORDS).answer.number;
            assert_eq!(new == number::BAD_CALL, tried > largest);
        }
    }
}
