//! Lists of jobs: pages with many openings, each scanned where something opens
//! and elsewhere.

use super::{random, Sink, LONGEST_PAGE};
use crate::chance::Chance;
use crate::list::{Job, List, INTERRUPT};
use judge::{Construct, Kind};
use std::io::{self, Write};

/// Longest construct that is strung together with others, about, in bytes.
const LONGEST_CONSTRUCT: usize = 256;

/// Most jobs that a list is drawn with: the program hands over 256 at once, so
/// that some lists take it several calls.
const MOST_JOBS: usize = 700;

/// Room for every event of most lists.
const ENOUGH: usize = 200_000;

/// Small pages, each with lists for every room up to more than they take.
const SMALL_PAGES: [&str; 6] = [
    "",
    "{a}",
    "a{b}<c>",
    "{a\n\tb} <c d=\"e\n\tf\"/>\n{g",
    "<a><!b>{c}</a>\t<é",
    "\t{\n\t{\n  \ta}\n}\n\n<b c={d}>",
];

const CONSTRUCTS: [Construct; 2] = [Construct::Expression, Construct::Tag];

/// Small lists, then so many by chance, on pages of up to so many bytes.
pub fn all<W: Write>(sink: &mut Sink<W>, count: usize, longest: usize) -> io::Result<()> {
    for page in SMALL_PAGES {
        small(sink, page.as_bytes())?;
    }
    for _ in 0..count {
        let list = draw(&mut sink.chance, longest.min(LONGEST_PAGE));
        sink.put_list(&list)?;
    }
    Ok(())
}

/// Lists for what opens on a small page and for both sides of its end, rising
/// and falling, in every room up to what any run takes; refused ones, one of no
/// job, and long ones.
fn small<W: Write>(sink: &mut Sink<W>, page: &[u8]) -> io::Result<()> {
    let mut list = List {
        page: page.to_vec(),
        room: ENOUGH,
        jobs: vec![],
    };
    sink.put_list(&list)?;
    let mut starts = openings(page);
    starts.extend([page.len(), page.len() + 1]);
    for (kind, flags) in [(Kind::Flow, 0), (Kind::Text, INTERRUPT)] {
        list.jobs.extend(starts.iter().map(|start| Job {
            construct: construct_at(page, *start).unwrap_or(Construct::Tag),
            kind,
            flags,
            start: *start,
        }));
    }
    for _ in 0..2 {
        for room in 0..=6 * (page.len() + 1) {
            list.room = room;
            sink.put_list(&list)?;
        }
        list.jobs.reverse();
    }
    for at in [0, list.jobs.len() / 2, list.jobs.len()] {
        for job in refused_jobs(0) {
            let mut refused = list.clone();
            refused.jobs.insert(at, job);
            sink.put_list(&refused)?;
        }
    }
    repeated(sink, &list)
}

/// A small list's jobs over and over, about as many as the program hands over
/// at once or twice: in rooms that run out early, late or not at all, and with a
/// last job that has all refused.
fn repeated<W: Write>(sink: &mut Sink<W>, small: &List) -> io::Result<()> {
    for count in [255, 256, 257, 511, 512, 513] {
        let mut list = small.clone();
        list.jobs = small.jobs.iter().copied().cycle().take(count).collect();
        for room in [0, 1, 2, 3, 4].map(|events| events * count) {
            list.room = room;
            sink.put_list(&list)?;
        }
        list.room = ENOUGH;
        sink.put_list(&list)?;
        list.jobs.extend(refused_jobs(0).first());
        sink.put_list(&list)?;
    }
    Ok(())
}

/// Where a construct may open.
fn openings(page: &[u8]) -> Vec<usize> {
    let opens = |at: &usize| construct_at(page, *at).is_some();
    (0..page.len()).filter(opens).collect()
}

/// What may open at a place.
fn construct_at(page: &[u8], at: usize) -> Option<Construct> {
    match page.get(at) {
        Some(b'{') => Some(Construct::Expression),
        Some(b'<') => Some(Construct::Tag),
        _ => None,
    }
}

/// Jobs that a list may not have.
fn refused_jobs(start: usize) -> Vec<Job> {
    let job = |construct, flags| Job {
        construct,
        kind: Kind::Flow,
        flags,
        start,
    };
    let flags = [1, 3, 4, 255, 256, 300, u32::MAX];
    let mut jobs = vec![job(Construct::Esm, 0), job(Construct::Esm, 1)];
    jobs.extend(CONSTRUCTS.iter().flat_map(|d| flags.map(|f| job(*d, f))));
    jobs
}

/// A list by chance.
fn draw(chance: &mut Chance, longest: usize) -> List {
    let mut page = draw_page(chance, longest);
    // Answers 2 to 4 alone: the page is bad wherever it is begun.
    if chance.once_in(16) {
        let at = chance.below(page.len() + 1);
        page.insert(at, [b'\r', 0x80, 0xC3, 0xFF][chance.below(4)]);
    }
    let mut list = List {
        jobs: draw_jobs(chance, &page),
        room: draw_room(chance),
        page,
    };
    if chance.once_in(16) {
        let refused = refused_jobs(chance.below(list.page.len() + 2));
        let at = chance.below(list.jobs.len() + 1);
        list.jobs.insert(at, refused[chance.below(refused.len())]);
    }
    list.jobs.truncate(MOST_JOBS);
    list
}

/// Constructs with text between them, some with errors worked in.
fn draw_page(chance: &mut Chance, longest: usize) -> Vec<u8> {
    // Half of the pages by powers of two, so that there are short ones.
    let size = match chance.below(2) {
        0 => chance.below(longest + 1),
        _ => chance.below_power(1 + longest.max(2).ilog2()),
    };
    let mut page = vec![];
    while page.len() < size {
        let mut piece = random::draw(chance, LONGEST_CONSTRUCT.min(size));
        let whole = piece.page.clone();
        while chance.once_in(3) {
            random::change(chance, &mut piece);
        }
        // Changes may cut a character in two.
        let is_text = std::str::from_utf8(&piece.page).is_ok();
        page.extend(if is_text { piece.page } else { whole });
        page.extend(random::other_text(chance, 12).bytes());
    }
    page
}

/// Jobs where something opens, and at a few other places; as they stand on the
/// page, the other way round, or by chance with repetitions.
fn draw_jobs(chance: &mut Chance, page: &[u8]) -> Vec<Job> {
    if chance.once_in(32) {
        return vec![];
    }
    let mut starts = openings(page);
    for _ in 0..chance.below(6) {
        starts.push(chance.below(page.len() + 4));
    }
    while starts.len() > MOST_JOBS {
        starts.remove(chance.below(starts.len()));
    }
    starts.sort_unstable();
    match chance.below(3) {
        0 => {}
        1 => starts.reverse(),
        _ => starts = draw_starts(chance, &starts),
    }
    let jobs = starts.into_iter();
    jobs.map(|start| draw_job(chance, page, start)).collect()
}

/// As many starts as there are, or more or fewer, in any order; now and then
/// far more.
fn draw_starts(chance: &mut Chance, starts: &[usize]) -> Vec<usize> {
    let most = match starts.len() {
        0 => 0,
        _ if chance.once_in(8) => MOST_JOBS,
        len => (2 * len).min(MOST_JOBS),
    };
    let count = chance.below(most + 1);
    (0..count)
        .map(|_| match chance.below(24) {
            0 => u32::MAX as usize,
            _ => starts[chance.below(starts.len())],
        })
        .collect()
}

/// A job for what opens at a start, or now and then for something else.
fn draw_job(chance: &mut Chance, page: &[u8], start: usize) -> Job {
    let opens = construct_at(page, start).filter(|_| !chance.once_in(16));
    Job {
        construct: opens.unwrap_or(CONSTRUCTS[chance.below(2)]),
        kind: [Kind::Flow, Kind::Text][chance.below(2)],
        flags: [0, INTERRUPT][chance.below(2)],
        start,
    }
}

/// Room for all, or for none, or for some.
fn draw_room(chance: &mut Chance) -> usize {
    match chance.below(8) {
        0 => chance.below(8),
        1 | 2 => chance.below_power(14),
        3 => u32::MAX as usize,
        _ => ENOUGH,
    }
}
