//! Sixteen pages in one worker, with a judge of bodies that is a toy. One of them is a `{` and
//! forty thousand `}`, each of which asks; it is allowed so many questions and no more. The fifteen
//! others are collected long before.
//!
//!     cargo run --example sixteen

use std::num::NonZeroU16;
use std::process::ExitCode;
use tarredlath::{
    scratch_enough, words_enough, Answer, Body, Construct, Job, Refusal, Verdict, Waits, Worker,
    PLACES,
};

/// How many steps a turn has.
const TURN: usize = 16;
/// How many bodies of a page are judged; if it asks once more, it is ended.
const QUESTIONS: usize = 1000;
/// The place of the long page among the others.
const LONG: usize = 4;
/// Each place has room for the events of a page of so many bytes.
const ROOM_FOR: usize = 4096;

fn main() -> ExitCode {
    match run() {
        Ok(true) => ExitCode::SUCCESS,
        Ok(false) => ExitCode::from(1),
        Err(refusal) => {
            eprintln!("sixteen: {refusal}");
            ExitCode::from(2)
        }
    }
}

/// Whether every page was collected, the long one last.
fn run() -> Result<bool, Refusal> {
    let mut shop = Shop::open(pages())?;
    let mut order = Vec::new();
    while let Some(place) = shop.turn()? {
        if let Some(answer) = shop.look_at(place)? {
            let (turns, asked) = (shop.turns, shop.asked[place]);
            println!("page {place:2} after {turns:4} turns and {asked:4} questions: {answer}");
            order.push((place, turns));
        }
    }
    let before: Vec<usize> = order
        .iter()
        .filter(|end| end.0 != LONG)
        .map(|end| end.1)
        .collect();
    println!(
        "{} pages were collected by turn {}, the long one at turn {}",
        before.len(),
        before.iter().max().unwrap_or(&0),
        shop.turns
    );
    Ok(before.len() == PLACES - 1 && order.last().is_some_and(|end| end.0 == LONG))
}

/// A worker, and all that is lent to it.
struct Shop {
    worker: Worker,
    lent: Vec<u8>,
    events: Vec<u32>,
    scratch: Vec<u8>,
    asked: [usize; PLACES],
    turns: usize,
}

impl Shop {
    /// Admit all pages, of which the bytes are lent one behind the other.
    fn open(pages: Vec<Vec<u8>>) -> Result<Shop, Refusal> {
        let lent = pages.concat();
        let events = vec![0; PLACES * words_enough(ROOM_FOR).ok_or(Refusal::TooLong)?];
        let mut worker = Worker::start(TURN, events.len())?.worker;
        let mut from = 0;
        for page in &pages {
            let job = Job {
                asks: true,
                ..Job::new(Construct::beginning_at(page, 0))
            };
            worker.admit(&lent, from..from + page.len(), &job)?;
            from += page.len();
        }
        Ok(Shop {
            worker,
            scratch: vec![0; scratch_enough(lent.len())],
            lent,
            events,
            asked: [0; PLACES],
            turns: 0,
        })
    }

    fn turn(&mut self) -> Result<Option<usize>, Refusal> {
        let served = self.worker.turn(&self.lent, &mut self.events)?;
        self.turns += usize::from(served.is_some());
        Ok(served)
    }

    /// Give a place what it waits for: a verdict, or to be collected.
    fn look_at(&mut self, place: usize) -> Result<Option<Answer>, Refusal> {
        match self.worker.view(place).map(|view| view.waits) {
            Some(Waits::Verdict) => {
                let body = self.worker.body(&self.lent, place, &mut self.scratch)?;
                let verdict = verdict(&body, self.asked[place]);
                self.asked[place] += 1;
                self.worker.verdict(place, verdict)?;
                Ok(None)
            }
            Some(Waits::Collect) => self.worker.collect(place).map(Some),
            _ => Ok(None),
        }
    }
}

/// What is said of a body: an error after so many questions, else what the toy thinks of it.
fn verdict(body: &Body<'_>, asked: usize) -> Verdict {
    let number = NonZeroU16::MIN;
    if asked >= QUESTIONS {
        return Verdict::Error {
            number,
            offset: body.bytes.len(),
        };
    }
    if is_whole(body.bytes) {
        return Verdict::Ok;
    }
    Verdict::Unfinished(number)
}

/// A toy in place of a JavaScript parser: a body is whole where it has something, its quotes are
/// closed, and it has as many closing brackets as opening ones outside of quotes.
fn is_whole(body: &[u8]) -> bool {
    let (mut open, mut closed, mut quoted) = (0, 0, false);
    for byte in body {
        match byte {
            b'"' => quoted = !quoted,
            b'(' | b'[' | b'{' if !quoted => open += 1,
            b')' | b']' | b'}' if !quoted => closed += 1,
            _ => {}
        }
    }
    !body.is_empty() && !quoted && open == closed
}

/// Fifteen pages of a shop, and the long one among them.
fn pages() -> Vec<Vec<u8>> {
    let ordinary = |number: usize| match number % 5 {
        0 => format!("<PriceTag sku=\"{number}\" price={{{number}.90}} />"),
        1 => format!("{{total(basket, \"}}\", {number})}}"),
        2 => format!("import {{Notice}} from \"./notice-{number}.js\"\n"),
        3 => format!("<Row cells={{[{number}, (2), 3]}} note='new' {{...rest}}>"),
        _ => format!("{{items.map((item) => \"{{\" + item + \"}}\" + {number})}}"),
    };
    let mut pages: Vec<Vec<u8>> = (1..PLACES).map(|number| ordinary(number).into()).collect();
    pages.insert(LONG, [b"{".to_vec(), vec![b'}'; 40_000]].concat());
    pages
}
