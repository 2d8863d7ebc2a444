//! Scans and workers that no call gave, and what is owed to whoever hands one over.

use super::random::Random;
use tarredlath::raw::{self, number};

/// A page with every kind of part of a tag.
pub const PAGE: &[u8] = b"<a b={c\n\td} {...e}f='g\nh'/>";

/// The words of an event buffer that are enough for it.
pub const WORDS: usize = 24 * (PAGE.len() + 1);

/// A scan of the page that is judged.
pub fn asked() -> raw::Asked {
    raw::Asked {
        length: PAGE.len(),
        construct: 1,
        flags: raw::flag::ASKS,
        ..raw::Asked::default()
    }
}

/// The fields of a scan that are bytes, and those that are wider, for a macro.
macro_rules! byte_fields {
    ($apply:ident) => {
        $apply!(construct kind flags state back prefix r#where note tab heard)
    };
}
macro_rules! wide_fields {
    ($apply:ident) => {
        $apply!(length start words at saved body joint fault line column kept_line kept_column
            fault_line fault_column used steps heard_offset depth last heard_number quote)
    };
}

/// Try copies of a scan in which one field has another number: every number that a byte can have,
/// and the edges of ranges in the wider ones.
pub fn change_one_field(scan: raw::Scan, mut attempt: impl FnMut(raw::Scan)) {
    let at = scan.at as u64;
    let (page, limit) = (PAGE.len() as u64, tarredlath::PAGE_LIMIT as u64);
    let edges = [
        0,
        1,
        at,
        at + 1,
        page,
        page + 1,
        256,
        limit,
        limit + 1,
        65_535,
        65_536,
        u64::MAX,
    ];
    macro_rules! attempt_each {
        ($numbers:expr, $field:ident) => {
            for number in $numbers {
                let mut changed = scan;
                changed.$field = number as _;
                attempt(changed);
            }
        };
    }
    macro_rules! all_bytes {
        ($($field:ident)*) => { $(attempt_each!(0..=255_u64, $field);)* };
    }
    macro_rules! all_edges {
        ($($field:ident)*) => { $(attempt_each!(edges, $field);)* };
    }
    byte_fields!(all_bytes);
    wide_fields!(all_edges);
}

/// Give each field of a scan a number, or leave it.
pub fn set_fields(scan: &mut raw::Scan, mut number: impl FnMut() -> Option<u64>) {
    macro_rules! set {
        ($($field:ident)*) => {
            $(if let Some(number) = number() {
                scan.$field = number as _;
            })*
        };
    }
    byte_fields!(set);
    wide_fields!(set);
}

/// A scan of which one field in so many is by chance.
pub fn scan_by_chance(mut scan: raw::Scan, one_in: usize, random: &mut Random) -> raw::Scan {
    set_fields(&mut scan, || {
        (random.below(one_in) == 0).then(|| random.edge())
    });
    scan
}

/// A scan of which every bit is set.
pub fn scan_of_ones() -> raw::Scan {
    let mut scan = raw::Scan::default();
    set_fields(&mut scan, || Some(u64::MAX));
    scan
}

/// How many calls were refused, and how many were taken.
#[derive(Default)]
pub struct Counts {
    refused: usize,
    taken: usize,
}

impl Counts {
    /// Count a call by the number of its answer. A refused one must have left all as it was.
    pub fn add(&mut self, answer: u8, untouched: bool) {
        if answer == number::BAD_CALL {
            assert!(untouched, "a refused call changed something");
            self.refused += 1;
            return;
        }
        let given = [0..=number::NO_PLACE, number::ASKING..=number::WORDS];
        assert!(
            given.iter().any(|range| range.contains(&answer)),
            "answer {answer}"
        );
        self.taken += 1;
    }

    /// Say the counts. A test that was refused or taken throughout has tried little.
    pub fn say(&self, of_what: &str) {
        println!(
            "{of_what}: {} calls refused, {} taken",
            self.refused, self.taken
        );
        assert!(self.refused > 0 && self.taken > 0, "{of_what}");
    }
}
