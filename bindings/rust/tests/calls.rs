//! A recorded script of a worker's calls, with what each must answer, through this crate.

mod support;

use support::case::{construct, context, decimal, from_hex, one_of, typed, verdict};
use support::{recorded, written};
use tarredlath::{raw, words_enough, Answer, Job, Refusal, Worker};

/// So that the test can't pass by comparing little.
const AT_LEAST: usize = 1000;

/// The most words that a script may start a worker with.
const MOST_WORDS: usize = 65_536;

#[test]
fn calls_are_answered_as_recorded() {
    let mut script = Script::default();
    let mut compared = 0;
    for line in recorded::file("crates/calls/stdout").lines() {
        let Some((call, reply)) = line.split_once(" => ") else {
            continue;
        };
        let made = script
            .reply(call)
            .unwrap_or_else(|| panic!("no call: {call}"));
        assert_eq!(made, reply, "{call}");
        compared += 1;
    }
    println!("{compared} calls compared");
    assert!(compared >= AT_LEAST, "only {compared} compared");
}

/// What lives from call to call of a script.
#[derive(Default)]
struct Script {
    lent: Vec<u8>,
    worker: Option<Worker>,
    words: usize,
    events: Vec<u32>,
}

impl Script {
    fn reply(&mut self, call: &str) -> Option<String> {
        let mut fields = call.split(' ');
        let name = fields.next()?;
        let rest: Vec<&str> = fields.collect();
        let made = match (name, rest.as_slice()) {
            ("lend", [hex]) => {
                self.lent = from_hex(hex)?;
                Ok("Lent".into())
            }
            ("words", [length]) => match words_enough(decimal(length)?) {
                Some(words) => Ok(format!("Words {words}")),
                None => Err(Refusal::TooLong),
            },
            ("start", [q, words]) => self.start(decimal(q)?, decimal(words)?),
            ("turn", []) => self.turn(self.words, self.lent.len()),
            ("turn", [option]) => match option.split_once('=')? {
                ("words", words) => self.turn(decimal(words)?, self.lent.len()),
                (_, lent) => self.turn(self.words, decimal(lent)?),
            },
            ("admit", fields) => self.admit(fields)?,
            ("verdict", [place, text]) => self.verdict(decimal(place)?, &verdict(text)?),
            ("body", [place, scratch]) => self.body(decimal(place)?, decimal(scratch)?),
            ("collect", [place]) => self.collect(decimal(place)?),
            _ => return None,
        };
        let refused = |refusal| written::answer(&Answer::Refused(refusal));
        Some(made.unwrap_or_else(refused))
    }

    /// Before the first start there is no worker to call.
    fn worker(&mut self) -> Result<&mut Worker, Refusal> {
        self.worker.as_mut().ok_or(Refusal::BadCall)
    }

    fn start(&mut self, q: usize, words: usize) -> Result<String, Refusal> {
        let started = Worker::start(q, words)?;
        self.worker = Some(started.worker);
        self.words = words;
        self.events = vec![0; MOST_WORDS + 1];
        let longest = started
            .longest
            .map_or("none".into(), |length| length.to_string());
        Ok(format!("Started {longest}"))
    }

    fn admit(&mut self, fields: &[&str]) -> Option<Result<String, Refusal>> {
        let [letter, kind, mode, interrupt, start, at, length] = fields else {
            return None;
        };
        let job = Job {
            construct: construct(letter)?,
            context: context(kind)?,
            start: decimal(start)?,
            asks: one_of(mode, "c", "v")?,
            interrupts: one_of(interrupt, "0", "1")?,
        };
        let page = decimal(at)?..decimal(at)? + decimal(length)?;
        let lent = self.lent.clone();
        let placed = self
            .worker()
            .and_then(|worker| worker.admit(&lent, page, &job));
        Some(placed.map(|place| format!("Place {place}")))
    }

    fn turn(&mut self, words: usize, lent: usize) -> Result<String, Refusal> {
        let worker = self.worker.as_mut().ok_or(Refusal::BadCall)?;
        let events = &mut self.events[..words.min(MOST_WORDS + 1)];
        let lent = &self.lent[..lent.min(self.lent.len())];
        let served = worker.turn(lent, events)?;
        Ok(served.map_or("Idle".into(), |place| format!("Served {place}")))
    }

    fn verdict(&mut self, place: usize, verdict: &raw::Verdict) -> Result<String, Refusal> {
        let worker = self.worker()?;
        if let Some(verdict) = typed(verdict) {
            return worker.verdict(place, verdict).map(|()| "Kept".into());
        }
        let before = *worker.raw();
        let called = raw::worker_verdict(before, place, *verdict);
        assert_eq!(
            (called.answer.number, called.worker),
            (raw::number::BAD_CALL, before)
        );
        Err(Refusal::BadCall)
    }

    fn body(&mut self, place: usize, scratch: usize) -> Result<String, Refusal> {
        let lent = self.lent.clone();
        let worker = self.worker()?;
        let mut scratch = vec![0; scratch];
        let found = raw::worker_body(*worker.raw(), &lent, place, &mut scratch);
        let bytes = worker.body(&lent, place, &mut scratch)?.bytes;
        let (length, hex) = (bytes.len(), written::hex(bytes));
        match found.number {
            raw::number::IN_PAGE => Ok(format!("Page {} {length} {hex}", found.at)),
            _ => Ok(format!("Scratch {length} {hex}")),
        }
    }

    fn collect(&mut self, place: usize) -> Result<String, Refusal> {
        let worker = self.worker.as_mut().ok_or(Refusal::BadCall)?;
        let view = worker.view(place).ok_or(Refusal::BadCall)?;
        let answer = worker.collect(place)?;
        let (said, steps) = (written::answer(&answer), answer.tally().steps);
        let events = written::events(view.events_in(&self.events[..self.words]));
        Ok(format!("{said} | steps {steps} | {events}"))
    }
}
