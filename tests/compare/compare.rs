//! Compares the library with the judge over systematic cases, and over cases drawn by lot, and
//! wherever no deviation is touched with the original as it stands.
//! The same seed gives the same cases. Exit status 1: some differ.

#[macro_use]
mod record;
mod deviated;
mod deviations;
mod formats;
mod judge;
mod library;
mod line;
mod lot;
mod random;
mod reading;
mod records;
mod sweeps;
mod systematic;

use judge::Judge;
use lot::seed_and_count;
use std::process::ExitCode;

fn main() -> ExitCode {
    let mut words: Vec<String> = std::env::args().skip(1).collect();
    if words == ["--zones"] {
        return try_zones();
    }
    let exact = words.first().is_some_and(|word| word == "--exact");
    if exact {
        words.remove(0);
    }
    let Some((seed, count)) = seed_and_count(&words) else {
        eprintln!("usage: compare [--exact] SEED COUNT | compare --zones");
        eprintln!("--exact: only the drawn cases, each in blocks of just its lengths");
        eprintln!("--zones: only the systematic cases of zone names");
        return ExitCode::from(2);
    };
    let mut judge = Judge::new(exact);
    if !exact {
        systematic::try_systematic(&mut judge);
        println!("systematic: {} cases", judge.tried());
    }
    random::try_random(&mut judge, seed, count);
    println!("by lot: {count} cases, seed {seed}");
    ExitCode::from(u8::from(!judge.report()))
}

fn try_zones() -> ExitCode {
    let mut judge = Judge::new(false);
    systematic::zone_bytes(&mut judge);
    println!("every byte in a zone name: {} cases", judge.tried());
    ExitCode::from(u8::from(!judge.report()))
}
