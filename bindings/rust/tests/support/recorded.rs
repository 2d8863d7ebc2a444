//! The recorded answers of the repository, read from the files that its own program is tested with.

use std::collections::HashSet;

/// A case and the answer that was recorded for it.
pub struct Line {
    pub case: String,
    pub answer: String,
    /// Whether the answer was written to be a wrong one.
    pub wrong: bool,
}

/// The lines with an answer, and how many there were without one.
#[derive(Default)]
pub struct Recorded {
    pub lines: Vec<Line>,
    pub comments: usize,
    pub bad: usize,
    pub unanswered: usize,
}

/// All recorded answers: those of single cases, those of lists, and what the program `cases` must
/// write for lines that have none.
pub fn all() -> Recorded {
    let key = Key::read(&file("crates/cases/stdout"));
    let mut recorded = Recorded::default();
    for (index, line) in file("crates/cases/stdin").lines().enumerate() {
        recorded.add(line, key.bad.contains(&(index + 1)), &key.wrong);
    }
    let wrong = recorded.lines.iter().filter(|line| line.wrong).count();
    assert_eq!(
        (recorded.lines.len(), wrong),
        key.totals,
        "as many as the key says"
    );
    for line in key.own.iter().chain(&braces()) {
        recorded.add(line, false, &HashSet::new());
    }
    recorded
}

fn braces() -> Vec<String> {
    file("vectors/braces.txt")
        .lines()
        .map(String::from)
        .collect()
}

/// A file of the repository. Some lines of the cases are no text, and are no cases.
pub fn file(name: &str) -> String {
    let path = format!("{}/../../{name}", env!("CARGO_MANIFEST_DIR"));
    let bytes = std::fs::read(&path).unwrap_or_else(|error| panic!("{path}: {error}"));
    String::from_utf8_lossy(&bytes).into_owned()
}

impl Recorded {
    fn add(&mut self, line: &str, bad: bool, wrong: &HashSet<String>) {
        if bad {
            self.bad += 1;
        } else if line.is_empty() || line.starts_with('#') {
            self.comments += 1;
        } else if let Some((case, answer)) = line.split_once(" => ") {
            self.lines.push(Line {
                case: case.into(),
                answer: answer.into(),
                wrong: wrong.contains(line),
            });
        } else {
            self.unanswered += 1;
        }
    }
}

/// What the program `cases` must write: which lines are no cases, which recorded answers are wrong,
/// and its own answers.
#[derive(Default)]
struct Key {
    bad: HashSet<usize>,
    wrong: HashSet<String>,
    own: Vec<String>,
    /// How many answers are compared, and how many differ.
    totals: (usize, usize),
}

impl Key {
    fn read(text: &str) -> Key {
        let mut key = Key::default();
        let mut lines = text.lines();
        while let Some(line) = lines.next() {
            if line == "DIFFERS" {
                key.wrong.extend(lines.next().map(String::from));
            } else if let Some(rest) = line.strip_prefix("BadLine ") {
                let number = rest.split(' ').next().and_then(|word| word.parse().ok());
                key.bad.extend(number as Option<usize>);
            } else if line.contains(" => ") {
                key.own.push(line.into());
            } else if let Some(totals) = totals(line) {
                key.totals = totals;
            }
        }
        key
    }
}

/// `N cases, N compared, N differ`
fn totals(line: &str) -> Option<(usize, usize)> {
    let (_, counts) = line.split_once(" cases, ")?;
    let (compared, differ) = counts.split_once(" compared, ")?;
    let differ = differ.strip_suffix(" differ")?;
    Some((compared.parse().ok()?, differ.parse().ok()?))
}
