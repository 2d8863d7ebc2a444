//! The product and the crate's own modules on the same pages, in one process.
//!
//!     race list                  the cases
//!     race time [--short]        all cases by the clock, as a markdown table
//!     race seen CASE SIDE        what the side comes to, to be compared from outside
//!     race CASE SIDE ROUNDS      so many rounds of one side, for counting instructions from outside
//!
//! A side is `crate` or `product`. `crate_side.rs` and `product_side.rs` say
//! what a round of theirs includes. The status is 0, or 1 where the sides
//! differ, or 2 where it can't run: time is refused on an imitated machine.

mod case;
mod crate_side;
mod pages;
mod product_side;
mod seen;
mod time;

use case::Case;
use crate_side::CrateSide;
use product_side::ProductSide;
use std::env;
use std::hint::black_box;
use std::process::ExitCode;

const USAGE: &str = "usage: race list | time [--short] | seen CASE SIDE | CASE SIDE ROUNDS";

fn main() -> ExitCode {
    let words: Vec<String> = env::args().skip(1).collect();
    let words: Vec<&str> = words.iter().map(String::as_str).collect();
    let done = match words[..] {
        ["list"] => list(),
        ["time"] => time::tell_all(&time::Limits::FULL),
        ["time", "--short"] => time::tell_all(&time::Limits::SHORT),
        ["seen", case, side] => tell_seen(case, side),
        [case, side, rounds] => run(case, side, rounds),
        _ => Err(Stop::CannotRun(USAGE.into())),
    };
    match done {
        Ok(()) => ExitCode::SUCCESS,
        Err(Stop::Differ(said)) => end(1, &said),
        Err(Stop::CannotRun(said)) => end(2, &said),
    }
}

/// Why the program stopped.
enum Stop {
    Differ(String),
    CannotRun(String),
}

fn end(status: u8, said: &str) -> ExitCode {
    eprintln!("race: {said}");
    ExitCode::from(status)
}

/// A line for each case: its name, how many bytes it has, and its title.
fn list() -> Result<(), Stop> {
    for case in case::all() {
        println!("{} {} {}", case.name, case.bytes(), case.title);
    }
    Ok(())
}

fn tell_seen(name: &str, side: &str) -> Result<(), Stop> {
    let case = find(name)?;
    match side {
        "crate" => println!("{}", CrateSide::new(&case).seen()),
        "product" => println!("{}", ProductSide::new(&case).seen()),
        _ => return Err(Stop::CannotRun(USAGE.into())),
    }
    Ok(())
}

/// Make so many rounds of one side. What comes of a round is built in full,
/// and nobody looks at it.
fn run(name: &str, side: &str, rounds: &str) -> Result<(), Stop> {
    let case = find(name)?;
    let Ok(rounds) = rounds.parse::<u32>() else {
        return Err(Stop::CannotRun(USAGE.into()));
    };
    match side {
        "crate" => {
            let side = CrateSide::new(&case);
            (0..rounds).for_each(|_| side.round(|outcome| drop(black_box(outcome))));
        }
        "product" => {
            let mut side = ProductSide::new(&case);
            (0..rounds).for_each(|_| side.round(|_, made| drop(black_box(made))));
        }
        _ => return Err(Stop::CannotRun(USAGE.into())),
    }
    Ok(())
}

fn find(name: &str) -> Result<Case, Stop> {
    case::all()
        .into_iter()
        .find(|case| case.name == name)
        .ok_or_else(|| Stop::CannotRun(format!("there is no case `{name}`; see `race list`")))
}
