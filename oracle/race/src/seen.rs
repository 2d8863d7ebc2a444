//! What a round came to, in words that both sides have.

use std::fmt;

/// The answers to all pages of a case, their numbers of events, and the events
/// themselves as a number that changes with each of them.
#[derive(Default, Eq, PartialEq)]
pub struct Seen {
    pages: Vec<(String, usize, u64)>,
}

impl Seen {
    pub fn add(&mut self, answer: &str, events: usize, digest: Digest) {
        self.pages.push((answer.into(), events, digest.0));
    }
}

impl fmt::Display for Seen {
    fn fmt(&self, f: &mut fmt::Formatter<'_>) -> fmt::Result {
        for (number, (answer, events, digest)) in self.pages.iter().enumerate() {
            let between = if number == 0 { "" } else { "; " };
            write!(f, "{between}{answer}, {events} events {digest:016x}")?;
        }
        Ok(())
    }
}

/// The 64-bit number of Fowler, Noll and Vo over all parts of all events.
pub struct Digest(u64);

impl Default for Digest {
    fn default() -> Digest {
        Digest(0xcbf2_9ce4_8422_2325)
    }
}

impl Digest {
    pub fn add(&mut self, exit: bool, label: &str, numbers: [usize; 4]) {
        self.bytes(&[u8::from(exit)]);
        self.bytes(label.as_bytes());
        for number in numbers {
            self.bytes(&(number as u64).to_le_bytes());
        }
    }

    fn bytes(&mut self, bytes: &[u8]) {
        for byte in bytes {
            self.0 = (self.0 ^ u64::from(*byte)).wrapping_mul(0x0100_0000_01b3);
        }
    }
}
