//! Which states a run calls, and with which bytes, as the tokenizer tells it.

use crate::door::{Judge, Scan};

/// A call of a state.
#[derive(Clone, Copy, Debug, Eq, Hash, PartialEq)]
pub struct Call {
    /// Number of the state in [`STATES`].
    pub state: usize,
    /// The byte that it meets; none at the end of the page. Of a tab, that is
    /// a space for each column but the first.
    pub byte: Option<u8>,
}

include!(concat!(env!("OUT_DIR"), "/states.rs"));

impl Judge {
    /// The states that a scan calls, in order.
    pub fn calls(&self, scan: &Scan) -> Vec<Call> {
        let told = log::listen(|| {
            self.scan(scan);
        });
        let mut byte = None;
        let mut calls = vec![];
        for line in told {
            if let Some(rest) = line.strip_prefix("feed:") {
                let (what, name) = rest.rsplit_once(" to ").expect("a byte and a state");
                byte = read_byte(what);
                calls.push(call(name, byte));
            } else if let Some(name) = line.strip_prefix("retry:") {
                // The same byte again: only what is fed changes it.
                calls.push(call(name.trim_matches([' ', '`']), byte));
            }
        }
        calls
    }
}

fn call(name: &str, byte: Option<u8>) -> Call {
    let state = STATES
        .iter()
        .position(|d| *d == name)
        .unwrap_or_else(|| panic!("`{name}` is no state of the judge's modules"));
    Call { state, byte }
}

/// Read `byte .. U+HH`, or that the page is at its end.
fn read_byte(what: &str) -> Option<u8> {
    let (_, number) = what.rsplit_once("U+")?;
    let digits = number.trim_end_matches(')');
    Some(u8::from_str_radix(digits, 16).expect("the number of a byte"))
}
