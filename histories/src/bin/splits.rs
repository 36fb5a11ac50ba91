//! Pairs of tables for the yearly heat split on the library and the model side by side.
//!
//! `splits [--pairs N] [--seed S]`: N pairs drawn from the seed S, of all kinds in turn. A pair that the two do not
//! answer alike, to the byte, or whose text is not as the request says, ends the program with 1; so it does where many
//! were tried and something that should have come up did not.

#[path = "../library.rs"]
mod library;

use std::process::ExitCode;

use paviluko_histories::{Seen, Twin};
use paviluko_model::Params;

use library::Library;

const USAGE: &str = "splits [--pairs N] [--seed S]";

/// From so many pairs on, everything has to come up.
const ENOUGH: u64 = 24_000;

/// How many pairs, and from which seed.
fn options() -> Option<(u64, u64)> {
    let (mut pairs, mut seed) = (ENOUGH, 1);
    let mut words = std::env::args().skip(1);
    while let Some(word) = words.next() {
        let to = match word.as_str() {
            "--pairs" => &mut pairs,
            "--seed" => &mut seed,
            _ => return None,
        };
        *to = words.next()?.parse().ok()?;
    }
    Some((pairs, seed))
}

fn main() -> ExitCode {
    let Some((pairs, seed)) = options() else {
        eprintln!("{USAGE}");
        return ExitCode::from(2);
    };
    let mut seen = Seen::default();
    if let Err(what) = seen.run(pairs, seed, &Library::new(), &Twin::new(&Params::scope())) {
        eprintln!("{what}");
        return ExitCode::FAILURE;
    }
    print!("{}", seen.table());
    let missing = seen.missing();
    if pairs >= ENOUGH && !missing.is_empty() {
        missing.iter().for_each(|what| eprintln!("{what}"));
        return ExitCode::FAILURE;
    }
    ExitCode::SUCCESS
}
