//! Scans the construct at an offset of a page, and lists the answer and its events as `./list`
//! does.
//!
//!     cargo run --example scan_page -- FILE [OFFSET] [--text]

use std::io::Write;
use std::process::ExitCode;
use tarredlath::{
    steps_enough, words_enough, Answer, Construct, Context, Events, Job, Note, Place, Refusal,
    Scan, Verdict,
};

fn main() -> ExitCode {
    let arguments: Vec<String> = std::env::args().skip(1).collect();
    match list(&arguments) {
        Ok(true) => ExitCode::SUCCESS,
        Ok(false) => ExitCode::from(1),
        Err(reason) => {
            eprintln!("scan_page: {reason}");
            ExitCode::from(2)
        }
    }
}

/// Whether the construct is whole.
fn list(arguments: &[String]) -> Result<bool, String> {
    let text = arguments.iter().any(|word| word == "--text");
    let mut words = arguments.iter().filter(|word| *word != "--text");
    let file = words.next().ok_or("say FILE [OFFSET] [--text]")?;
    let start = match words.next() {
        None => 0,
        Some(word) => word.parse().map_err(|_| format!("no offset: {word}"))?,
    };
    let page = std::fs::read(file).map_err(|error| format!("{file}: {error}"))?;
    let context = if text { Context::Text } else { Context::Flow };
    let (answer, events) = scan(&page, start, context);
    let mut listing = first_line(&answer) + "\n";
    for event in Events::in_buffer(&events, 0, answer.tally().events) {
        listing += &format!("{event}\n");
    }
    match std::io::stdout().write_all(listing.as_bytes()) {
        Ok(()) => Ok(answer.is_done()),
        Err(error) => Err(error.to_string()),
    }
}

/// The answer, and the event buffer. No JavaScript is read: braces are counted, and every block of
/// `import` or `export` is taken to be whole where it ends.
fn scan(page: &[u8], start: usize, context: Context) -> (Answer, Vec<u32>) {
    let construct = Construct::beginning_at(page, start);
    let job = Job {
        start,
        context,
        asks: construct == Construct::Esm,
        ..Job::new(construct)
    };
    let Some(words) = words_enough(page.len()) else {
        return (Answer::Refused(Refusal::TooLong), Vec::new());
    };
    let mut events = vec![0; words];
    let answer = match Scan::new(page, &job, words) {
        Ok(mut scan) => run(&mut scan, page, &mut events),
        Err(refusal) => Answer::Refused(refusal),
    };
    (answer, events)
}

fn run(scan: &mut Scan, page: &[u8], events: &mut [u32]) -> Answer {
    loop {
        let answer = scan.run(page, events, steps_enough(page.len()));
        if !answer.goes_on() {
            return answer;
        }
        if let Err(refusal) = scan.give(Verdict::Ok) {
            return Answer::Refused(refusal);
        }
    }
}

/// The answer's name and values, then the steps and the number of events, where there was a scan.
fn first_line(answer: &Answer) -> String {
    let tally = answer.tally();
    match answer {
        Answer::Refused(Refusal::BadText(place)) => format!("badtext {}", numbers(place)),
        Answer::Refused(refusal) => format!("{refusal:?}").to_lowercase(),
        _ => format!(
            "{} {} {}",
            name_and_values(answer),
            tally.steps,
            tally.events
        ),
    }
}

fn name_and_values(answer: &Answer) -> String {
    match answer {
        Answer::Done { end, .. } => format!("done {end}"),
        Answer::Eof { place, reading, .. } => {
            format!("eof {} {}", numbers(place), reading.number())
        }
        Answer::Unexpected {
            place,
            reading,
            note,
            ..
        } => format!(
            "unexpected {} {} {}",
            numbers(place),
            reading.number(),
            note.map_or(0, Note::number)
        ),
        Answer::NotAscii { place, .. } => format!("notascii {}", numbers(place)),
        Answer::Full { place, .. } => format!("full {}", numbers(place)),
        Answer::Nok { .. } => "nok".into(),
        other => other.to_string(),
    }
}

fn numbers(place: &Place) -> String {
    format!("{} {} {}", place.offset, place.line, place.column)
}
