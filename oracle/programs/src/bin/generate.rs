//! Writes sets of cases, the same ones for the same arguments.

use programs::sets::{boundaries, braces, exhaustive, lists, random, starts, states, Sink};
use std::io::{self, BufWriter, Write};
use std::process::ExitCode;

const USAGE: &str = "\
usage: generate [OPTION..] SET..

sets:
  settled      document 01's bench cases and other settled points
  large        empty, one-byte, long and deep pages
  starts       scans that start anywhere in a page
  states       every state met with every ASCII byte, and ways on
  tags         every tag over small alphabets
  expressions  every expression over small alphabets
  esm          every ESM over small alphabets
  tabs         every page of expressions, alone and in tags, with tabs
  valid        valid constructs by chance
  broken       constructs by chance, with errors worked in
  all          all of these
  braces       every page of `{`, `}` and a letter, as an expression and in tags
  lists        lists of jobs, many openings of one page to a line

options:
  --seed N     seed of chance (1)
  --count N    how many cases each of `valid` and `broken` draws, or lists (100000)
  --longest N  their longest construct, or a list's longest page, about, in bytes (4096)
  --depth N    letters after the beginning in `tags`, `expressions`, `esm`, `tabs`, `braces` (5)
  --every N    write one of N cases, and pass over the others (1)
  --allowances have each single case run in pieces (`allowance=`, by chance)
";

/// Lists of jobs, which only the product takes as such.
const LISTS: &str = "lists";

/// Where braces close. It is no part of `all`: the recorded answers are chosen
/// from that (`oracle/record`), and their bytes stay as they are.
const BRACES: &str = "braces";

/// The sets of single cases that `all` stands for.
const SETS: [&str; 10] = [
    "settled",
    "large",
    "starts",
    "states",
    "tags",
    "expressions",
    "esm",
    "tabs",
    "valid",
    "broken",
];

struct Options {
    seed: u64,
    count: usize,
    longest: usize,
    depth: usize,
    every: u64,
    allowances: bool,
    sets: Vec<String>,
}

fn main() -> ExitCode {
    let Some(options) = options() else {
        eprint!("{USAGE}");
        return ExitCode::from(2);
    };
    match generate(&options) {
        Ok(()) => ExitCode::SUCCESS,
        // Whoever reads may have seen enough.
        Err(problem) if problem.kind() == io::ErrorKind::BrokenPipe => ExitCode::SUCCESS,
        Err(problem) => {
            eprintln!("generate: {problem}");
            ExitCode::FAILURE
        }
    }
}

fn options() -> Option<Options> {
    let mut options = Options {
        seed: 1,
        count: 100_000,
        longest: 4096,
        depth: 5,
        every: 1,
        allowances: false,
        sets: vec![],
    };
    let mut arguments = std::env::args().skip(1);
    while let Some(argument) = arguments.next() {
        match argument.as_str() {
            "--seed" => options.seed = arguments.next()?.parse().ok()?,
            "--count" => options.count = arguments.next()?.parse().ok()?,
            "--longest" => options.longest = arguments.next()?.parse().ok()?,
            "--depth" => options.depth = arguments.next()?.parse().ok()?,
            "--every" => options.every = arguments.next()?.parse().ok()?,
            "--allowances" => options.allowances = true,
            "all" => options.sets.extend(SETS.map(String::from)),
            set if [LISTS, BRACES].contains(&set) || SETS.contains(&set) => {
                options.sets.push(set.into());
            }
            _ => return None,
        }
    }
    (!options.sets.is_empty() && options.every > 0).then_some(options)
}

fn generate(options: &Options) -> io::Result<()> {
    let output = BufWriter::with_capacity(1 << 20, io::stdout().lock());
    let mut sink = Sink::new(output, options.seed);
    sink.allowances = options.allowances;
    sink.every = options.every;
    for set in &options.sets {
        let before = (sink.written, sink.outside);
        put(&mut sink, set, options)?;
        eprintln!(
            "{set}: {} cases, {} left out as outside the domain",
            sink.written - before.0,
            sink.outside - before.1
        );
    }
    sink.finish()
}

fn put<W: Write>(sink: &mut Sink<W>, set: &str, options: &Options) -> io::Result<()> {
    match set {
        "settled" => boundaries::settled(sink),
        "large" => boundaries::large(sink),
        "starts" => starts::all(sink),
        "states" => states::all(sink),
        "tags" => exhaustive::tags(sink, options.depth),
        "expressions" => exhaustive::expressions(sink, options.depth),
        "esm" => exhaustive::esm(sink, options.depth),
        "tabs" => exhaustive::tabs(sink, options.depth),
        "valid" => random::all(sink, options.count, options.longest, false),
        "broken" => random::all(sink, options.count, options.longest, true),
        BRACES => braces::all(sink, options.depth),
        LISTS => lists::all(sink, options.count, options.longest),
        _ => unreachable!("sets are checked before"),
    }
}
