//! Recorded answers of lists of openings, and what a list leaves as it was.

mod support;

use support::case::List;
use support::{recorded, written};
use tarredlath::{fill, Answer, Construct, Events, Job, Opening, Refusal};

/// So that the test can't pass by comparing little.
const AT_LEAST: usize = 50;

#[test]
fn lists_are_as_recorded() {
    let mut compared = 0;
    for line in &recorded::all().lines {
        if !line.case.starts_with("batch ") {
            continue;
        }
        let list = List::parse(&line.case).unwrap_or_else(|| panic!("no list: {}", line.case));
        let made = replay(list);
        let same = agree(&line.answer, &made);
        assert_eq!(
            same, !line.wrong,
            "{}\nrecorded {}\nmade {made}",
            line.case, line.answer
        );
        compared += 1;
    }
    println!("{compared} lists compared");
    assert!(compared >= AT_LEAST, "only {compared} compared");
}

/// Run a list, and write what it comes to: `ANSWER steps N events N ; .. | events ..`.
fn replay(mut list: List) -> String {
    let mut words = vec![0; list.words()];
    let lent = list.openings.clone();
    let filled = match fill(&list.page, &mut list.openings, &mut words) {
        Ok(filled) => filled,
        Err(refusal) => {
            assert_eq!(list.openings, lent, "a refused list is as it was");
            return format!("{} | events", written::answer(&Answer::Refused(refusal)));
        }
    };
    let answered = list
        .openings
        .iter()
        .filter(|opening| opening.answered().is_some())
        .count();
    assert_eq!(answered, filled.openings);
    let parts: Vec<String> = list
        .openings
        .iter()
        .map(|opening| part(opening, &words))
        .collect();
    let events = written::events(Events::in_buffer(&words, 0, filled.events));
    format!("{} | {events}", parts.join(" ; "))
        .trim_start()
        .into()
}

fn part(opening: &Opening, words: &[u32]) -> String {
    let Some(answer) = opening.answered() else {
        return "-".into();
    };
    let tally = answer.tally();
    assert_eq!(opening.events_in(words).len(), tally.events);
    format!(
        "{} steps {} events {}",
        written::answer(&answer),
        tally.steps,
        tally.events
    )
}

/// Whether a recorded answer has the same parts, of which each may have no steps.
fn agree(recorded: &str, made: &str) -> bool {
    let cut = |text: &str| -> Vec<String> {
        text.split(" ; ")
            .flat_map(|part| part.split(" | "))
            .map(String::from)
            .collect()
    };
    let (recorded, made) = (cut(recorded), cut(made));
    let same =
        |(recorded, made): (&String, &String)| recorded == made || *recorded == without_steps(made);
    recorded.len() == made.len() && recorded.iter().zip(&made).all(same)
}

fn without_steps(part: &str) -> String {
    match part.split_once(" steps ") {
        Some((answer, rest)) => match rest.split_once(' ') {
            Some((_, events)) => format!("{answer} {events}"),
            None => part.into(),
        },
        None => part.into(),
    }
}

#[test]
fn openings_behind_a_full_buffer_are_not_answered() {
    let job = Job::new(Construct::Expression);
    let mut openings = [Opening::of(&job); 3];
    let mut words = [0; 4 * 9];
    let filled = fill(b"{}", &mut openings, &mut words).expect("a list that is taken");
    assert!(filled.full && filled.openings == 2);
    assert!(openings[0]
        .answered()
        .is_some_and(|answer| answer.is_done()));
    assert!(matches!(openings[1].answered(), Some(Answer::Full { .. })));
    assert_eq!(openings[2], Opening::of(&job));
}

#[test]
fn lists_have_no_verdicts_and_no_blocks() {
    let asks = Job {
        asks: true,
        ..Job::new(Construct::Tag)
    };
    for job in [asks, Job::new(Construct::Esm)] {
        let mut openings = [Opening::of(&Job::new(Construct::Tag)), Opening::of(&job)];
        let lent = openings;
        let mut words = [7; 40];
        assert_eq!(
            fill(b"<a>", &mut openings, &mut words),
            Err(Refusal::BadCall)
        );
        assert_eq!((openings, words), (lent, [7; 40]));
    }
}
