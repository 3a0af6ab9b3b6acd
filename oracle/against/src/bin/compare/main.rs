//! Holds our library, linked as the static library, to the bought Rust: files, lists of library calls, and the calls
//! without a state. `compare [COUNT [SEED]]`; prints its seed, and the first difference, shrunk.

mod bundles;
mod differ;
mod lists;
mod met;
mod questions;
mod shrink;
mod states;

use bundles::File;
use lists::List;
use oracle::draw::Rng;
use questions::{Install, Number, Walk};
use shrink::{Case, shrunk};
use std::process::ExitCode;
use std::time::{SystemTime, UNIX_EPOCH};

/// Runs cases until one differs; how many there were, or the difference and the case that still shows it.
fn run<C: Case>(cases: impl Iterator<Item = C>) -> Result<usize, String> {
    let mut count = 0;
    for case in cases {
        count += 1;
        if let Some(first) = case.differs() {
            let small = shrunk(case);
            let now = small.differs().unwrap_or_default();
            return Err(format!("case {count}: {first}\nshrunk: {now}\n{}", small.tell()));
        }
    }
    Ok(count)
}

/// Everything, in the order of the printed lines.
fn compare(count: usize, rng: &mut Rng) -> Result<(), String> {
    let told = |what: &str, n: Result<usize, String>| match n {
        Ok(n) => Ok(println!("{n:>9} {what}: no difference")),
        Err(e) => Err(format!("{what}, {e}")),
    };
    told("bundles, two for each of the 5,682 schemes", run(bundles::every_scheme(rng).map(File)))?;
    told("bundles, damaged", run(bundles::damaged(rng).map(File)))?;
    told("random bundles", run((0..count).map(|_| File(bundles::random(rng)))))?;
    told("random lists of library calls", run((0..count).map(|_| List::random(rng))))?;
    told("maps installed", run((0..count).map(|_| Install::random(rng))))?;
    told("plain walks", run((0..count).map(|_| Walk::random(rng))))?;
    told("questions with a number as their answer", run((0..count).map(|_| Number::random(rng))))?;
    Ok(())
}

fn main() -> ExitCode {
    let mut words = std::env::args().skip(1);
    let count = words.next().map_or(Ok(100_000), |w| w.parse());
    let now = SystemTime::now().duration_since(UNIX_EPOCH).map_or(1, |d| d.as_secs());
    let seed = words.next().map_or(Ok(now), |w| w.parse());
    let (Ok(count), Ok(seed), None) = (count, seed, words.next()) else {
        eprintln!("compare [COUNT [SEED]]");
        return ExitCode::from(2);
    };
    println!("seed {seed}");
    // any seed but 0 draws; the first numbers of small ones are alike
    let mut rng = Rng(seed.wrapping_mul(0x9E37_79B9_7F4A_7C15) | 1);
    for _ in 0..20 {
        rng.next();
    }
    match compare(count, &mut rng) {
        Ok(()) => {
            println!("{}", met::told());
            ExitCode::SUCCESS
        }
        Err(e) => {
            println!("{e}\nseed {seed}");
            ExitCode::FAILURE
        }
    }
}
