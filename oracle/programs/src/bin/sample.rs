//! Reads cases and writes the crate's answers to a few of them, chosen to
//! reach all that the cases reach: `CASE => ANSWER | events ..`.
//!
//! Shortest lines first, a case is taken if it reaches something that none
//! taken before does; then, round after round, what was reached once, twice
//! and so on, until there are as many lines as asked for. Leaves with status 1
//! if a state of the judge's modules is not reached.

use judge::{Answer, Call, Judge, STATES};
use programs::case::{push_outcome, Case};
use programs::reach::{answer_words, reach};
use std::collections::{BTreeMap, BTreeSet, HashMap};
use std::io::{self, BufRead, BufWriter, Write};
use std::process::ExitCode;

const USAGE: &str = "usage: sample [--lines N] [--short N] < CASES   (lines: 20000; short: 400)";

/// Longest line that is taken.
const LONGEST_LINE: usize = 100_000;

/// A case that may be taken.
struct Candidate {
    case: Case,
    /// Length of its line with the answer.
    length: usize,
    answer: String,
    calls: BTreeSet<(usize, Option<u8>)>,
    /// Numbers of what it reaches: steps, tabs that end a prefix inside them,
    /// and everything else.
    steps: Vec<u32>,
    tabs: Vec<u32>,
    others: Vec<u32>,
    taken: bool,
}

impl Candidate {
    fn reached(&self) -> impl Iterator<Item = &u32> {
        self.steps.iter().chain(&self.tabs).chain(&self.others)
    }
}

/// Numbers for words.
#[derive(Default)]
struct Numbers(HashMap<String, u32>);

impl Numbers {
    fn of(&mut self, words: Vec<String>) -> Vec<u32> {
        let number = |word| {
            let next = self.0.len() as u32;
            *self.0.entry(word).or_insert(next)
        };
        words.into_iter().map(number).collect()
    }
}

fn main() -> ExitCode {
    let mut lines = 20_000;
    let mut short = 400;
    let mut arguments = std::env::args().skip(1);
    while let Some(argument) = arguments.next() {
        let number = arguments.next().and_then(|d| d.parse().ok());
        match (argument.as_str(), number) {
            ("--lines", Some(number)) => lines = number,
            ("--short", Some(number)) => short = number,
            _ => {
                eprintln!("{USAGE}");
                return ExitCode::from(2);
            }
        }
    }
    match sample(lines, short) {
        Ok(true) => ExitCode::SUCCESS,
        Ok(false) => ExitCode::FAILURE,
        Err(problem) => {
            eprintln!("sample: {problem}");
            ExitCode::FAILURE
        }
    }
}

fn sample(lines: usize, short: usize) -> io::Result<bool> {
    let judge = Judge::new();
    let mut numbers = Numbers::default();
    let mut candidates = read(&judge, &mut numbers)?;
    choose(&mut candidates, numbers.0.len(), lines, short);

    let mut output = BufWriter::with_capacity(1 << 20, io::stdout().lock());
    for candidate in candidates.iter().filter(|d| d.taken) {
        writeln!(output, "{}", answered(&candidate.case, &judge).1)?;
    }
    output.flush()?;
    Ok(report(&candidates, numbers.0.len()))
}

/// Read all cases in the domain, each with what it reaches.
fn read(judge: &Judge, numbers: &mut Numbers) -> io::Result<Vec<Candidate>> {
    let mut candidates = vec![];
    for line in io::stdin().lock().lines() {
        let line = line?;
        let Some(case) = Case::parse(&line) else {
            return Err(io::Error::other(format!("not a case: {line}")));
        };
        let (outcome, line) = answered(&case, judge);
        if matches!(outcome.answer, Answer::Outside { .. }) || line.len() >= LONGEST_LINE {
            continue;
        }
        let reached = reach(&case, judge, &outcome);
        let met = |call: &Call| (call.state, call.byte);
        candidates.push(Candidate {
            case,
            length: line.len(),
            answer: answer_words(&outcome.answer),
            calls: reached.calls.iter().map(met).collect(),
            steps: numbers.of(reached.steps),
            tabs: numbers.of(reached.tabs),
            others: numbers.of(reached.others),
            taken: false,
        });
    }
    Ok(candidates)
}

fn answered(case: &Case, judge: &Judge) -> (judge::Outcome, String) {
    let outcome = case.judge(judge);
    let mut line = case.line();
    line.push_str(" => ");
    push_outcome(&mut line, judge, &outcome);
    (outcome, line)
}

/// Take the candidates. After the first round only steps and tabs count, and
/// only short lines that have events to compare: long ones are there to be long.
/// A prefix that ends inside a tab takes the events of two lines, so for a tab a
/// short line may be three times as long.
fn choose(candidates: &mut [Candidate], words: usize, lines: usize, short: usize) {
    let mut order: Vec<usize> = (0..candidates.len()).collect();
    order.sort_by_key(|index| (candidates[*index].length, *index));
    let mut counts = vec![0; words];
    let mut taken = 0;
    let mut round = 1;
    loop {
        let before = taken;
        for index in &order {
            let candidate = &mut candidates[*index];
            let rare = |number: &u32| counts[*number as usize] < round;
            let wanted = if round == 1 {
                candidate.reached().any(rare)
            } else {
                let by_step = candidate.length <= short && candidate.steps.iter().any(rare);
                let by_tab = candidate.length <= 3 * short && candidate.tabs.iter().any(rare);
                candidate.answer != "Nok" && (by_step || by_tab)
            };
            if candidate.taken || !wanted {
                continue;
            }
            candidate.taken = true;
            taken += 1;
            for number in candidate.reached() {
                counts[*number as usize] += 1;
            }
            if round > 1 && taken >= lines {
                return;
            }
        }
        if round > 1 && taken == before {
            return;
        }
        round += 1;
    }
}

/// Say what was reached, and whether that is every state.
fn report(candidates: &[Candidate], words: usize) -> bool {
    let taken: Vec<&Candidate> = candidates.iter().filter(|d| d.taken).collect();
    let bytes: usize = taken.iter().map(|d| d.length + 1).sum();
    eprintln!(
        "{} of {} cases, {bytes} bytes; {words} different things reached",
        taken.len(),
        candidates.len()
    );
    let mut answers = BTreeMap::<&str, usize>::new();
    let mut met = vec![BTreeSet::new(); STATES.len()];
    for candidate in taken {
        *answers.entry(&candidate.answer).or_default() += 1;
        for (state, byte) in &candidate.calls {
            met[*state].insert(*byte);
        }
    }
    for (answer, count) in answers {
        eprintln!("answer {answer}: {count} cases");
    }
    for (state, bytes) in STATES.iter().zip(&met) {
        let ascii = bytes.iter().flatten().filter(|d| **d < 128).count();
        let other = bytes.iter().flatten().any(|d| *d >= 128);
        let end = bytes.contains(&None);
        eprintln!("state {state}: {ascii} ASCII bytes, others {other}, the end {end}");
    }
    met.iter().all(|bytes| !bytes.is_empty())
}
