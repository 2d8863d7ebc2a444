//! All cases by the clock.

use crate::case::{self, Case};
use crate::crate_side::CrateSide;
use crate::product_side::ProductSide;
use crate::seen::Seen;
use crate::Stop;
use std::arch::x86_64::__cpuid;
use std::hint::black_box;
use std::time::{Duration, Instant};

/// How long a case may take.
pub struct Limits {
    /// Rounds of a case are made until this is over; there is at least one.
    budget: Duration,
    /// A round of the crate that would take longer is not made. Twice the page
    /// takes it four times as long, where it is slow.
    slow_round: Duration,
}

impl Limits {
    pub const FULL: Limits = Limits {
        budget: Duration::from_secs(3),
        slow_round: Duration::from_secs(300),
    };
    pub const SHORT: Limits = Limits {
        budget: Duration::from_millis(200),
        slow_round: Duration::from_secs(5),
    };
}

/// A batch of rounds is at least this long, so that reading the clock is no
/// part of it that counts.
const BATCH: Duration = Duration::from_micros(200);

/// Print the table. Of each side the least of many batches counts; of the
/// crate's slow rounds there is one.
pub fn tell_all(limits: &Limits) -> Result<(), Stop> {
    if is_imitated() {
        let said = "this machine is imitated, so its time says nothing; count instructions";
        return Err(Stop::CannotRun(said.into()));
    }
    println!("| case | bytes | crate, ns a byte | product, ns a byte | crate / product |");
    println!("|---|--:|--:|--:|--:|");
    let mut slow_round = Duration::ZERO;
    for case in case::all() {
        let (of_crate, of_product) = if !case.crate_is_slow {
            race(&case, limits)?
        } else if slow_round * 4 > limits.slow_round {
            (None, alone(&case, limits))
        } else {
            let both = race_once(&case, limits)?;
            slow_round = both.0.unwrap_or_default();
            both
        };
        tell(&case, of_crate, of_product);
    }
    Ok(())
}

fn tell(case: &Case, of_crate: Option<Duration>, of_product: Duration) {
    let a_byte = |time: Duration| time.as_secs_f64() * 1e9 / case.bytes() as f64;
    let not_measured = || String::from("not measured");
    println!(
        "| {} | {} | {} | {:.2} | {} |",
        case.title,
        case.bytes(),
        of_crate.map_or_else(not_measured, |time| format!("{:.2}", a_byte(time))),
        a_byte(of_product),
        of_crate.map_or_else(not_measured, |time| {
            format!("{:.2}", time.as_secs_f64() / of_product.as_secs_f64())
        }),
    );
}

/// Rounds of both sides in turn, so that what else the machine does meets both.
fn race(case: &Case, limits: &Limits) -> Result<(Option<Duration>, Duration), Stop> {
    let given = CrateSide::new(case);
    let mut product = ProductSide::new(case);
    agree(case, &given.seen(), &product.seen())?;

    let mut crate_round = || given.round(|outcome| drop(black_box(outcome)));
    let mut product_round = || product.round(|_, made| drop(black_box(made)));
    let crate_batch = batch_of(&mut crate_round);
    let product_batch = batch_of(&mut product_round);
    let (mut of_crate, mut of_product) = (Duration::MAX, Duration::MAX);
    let begun = Instant::now();
    loop {
        of_crate = of_crate.min(mean_of(crate_batch, &mut crate_round));
        of_product = of_product.min(mean_of(product_batch, &mut product_round));
        if begun.elapsed() >= limits.budget {
            return Ok((Some(of_crate), of_product));
        }
    }
}

/// One round of the crate, whose outcome is the one that is compared.
fn race_once(case: &Case, limits: &Limits) -> Result<(Option<Duration>, Duration), Stop> {
    let given = CrateSide::new(case);
    let mut outcomes = vec![];
    let begun = Instant::now();
    given.round(|outcome| outcomes.push(outcome));
    let of_crate = begun.elapsed();

    let mut seen = Seen::default();
    outcomes.iter().for_each(|page| given.see(&mut seen, page));
    agree(case, &seen, &ProductSide::new(case).seen())?;
    Ok((Some(of_crate), alone(case, limits)))
}

/// The product, where the crate's side is not measured by its side.
fn alone(case: &Case, limits: &Limits) -> Duration {
    let mut product = ProductSide::new(case);
    let mut round = || product.round(|_, made| drop(black_box(made)));
    let batch = batch_of(&mut round);
    let mut least = Duration::MAX;
    let begun = Instant::now();
    loop {
        least = least.min(mean_of(batch, &mut round));
        if begun.elapsed() >= limits.budget {
            return least;
        }
    }
}

/// Nothing is measured of sides that differ.
fn agree(case: &Case, given: &Seen, product: &Seen) -> Result<(), Stop> {
    if given == product {
        return Ok(());
    }
    Err(Stop::Differ(format!(
        "{}: the sides differ\ncrate:   {given}\nproduct: {product}",
        case.name
    )))
}

/// How many rounds make a batch that is long enough.
fn batch_of(round: &mut impl FnMut()) -> u32 {
    let mut batch = 1;
    while mean_of(batch, round) * batch < BATCH {
        batch *= 2;
    }
    batch
}

fn mean_of(batch: u32, round: &mut impl FnMut()) -> Duration {
    let begun = Instant::now();
    (0..batch).for_each(|_| round());
    begun.elapsed() / batch
}

/// Whether qemu translates this program: its processor says so.
fn is_imitated() -> bool {
    // Made safe in later versions of the standard library.
    #[allow(unused_unsafe)]
    let leaf = unsafe { __cpuid(0x4000_0000) };
    let signature = [leaf.ebx, leaf.ecx, leaf.edx].map(u32::to_le_bytes);
    signature.concat() == b"TCGTCGTCGTCG"
}
