//! Reads cases on standard input and writes the crate's answers:
//! `CASE => ANSWER | events +NAME@OFFSET:LINE:COLUMN -NAME@OFFSET:LINE:COLUMN ..`,
//! with the crate's own lines and columns, and `~V` after an event's column
//! where V columns of an unfinished tab are passed.
//!
//! A line that isn't a case answers `BadLine`. A case whose run the crate does
//! not decide (document 01, "Domain") answers `Outside (why)`. A panic inside
//! the crate answers `Panic`; what it said is on standard error.

use judge::Judge;
use programs::case::{push_outcome, Case};
use std::io::{self, BufRead, BufWriter, Write};
use std::panic::{catch_unwind, AssertUnwindSafe};

fn main() -> io::Result<()> {
    let mut input = io::stdin().lock();
    let mut output = BufWriter::with_capacity(1 << 20, io::stdout().lock());
    if let Some(variant) = judge::VARIANT {
        eprintln!("oracle: this is the wrong reading `{variant}`");
    }
    let judge = Judge::new();
    let mut bytes = vec![];
    let mut line = String::new();

    loop {
        bytes.clear();
        if input.read_until(b'\n', &mut bytes)? == 0 {
            break;
        }
        if bytes.last() == Some(&b'\n') {
            bytes.pop();
        }

        line.clear();
        let text = std::str::from_utf8(&bytes).ok();
        match text.and_then(|text| Some((text, Case::parse(text)?))) {
            None => line.push_str("BadLine"),
            Some((text, case)) => {
                line.push_str(text);
                line.push_str(" => ");
                // The judge holds nothing from one scan to the next, so it can
                // be used again after a panic.
                match catch_unwind(AssertUnwindSafe(|| case.judge(&judge))) {
                    Ok(outcome) => push_outcome(&mut line, &judge, &outcome),
                    Err(_) => line.push_str("Panic"),
                }
            }
        }
        line.push('\n');
        output.write_all(line.as_bytes())?;
    }
    output.flush()
}
