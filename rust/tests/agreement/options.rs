//! What the caller asks for on the command line.

use std::env;
use std::str::FromStr;

const DEFAULT_SEED: u64 = 6718;
const DEFAULT_SOAK_SECONDS: f64 = 600.0;

pub struct Options {
    pub seed: u64,
    /// 0 for one round.
    pub soak_seconds: f64,
}

impl Options {
    /// None if the tests are only to be listed. Flags of the usual harness are passed over.
    pub fn from_arguments() -> Option<Options> {
        let arguments: Vec<String> = env::args().skip(1).collect();
        if arguments.iter().any(|argument| argument == "--list") {
            println!("agreement: test");
            return None;
        }
        let place = |flag: &str| arguments.iter().position(|argument| argument == flag);
        let soak_seconds = match place("--soak") {
            Some(place) => number_after(&arguments, place).unwrap_or(DEFAULT_SOAK_SECONDS),
            None => 0.0,
        };
        let seed = match place("--seed") {
            Some(place) => number_after(&arguments, place).expect("--seed needs a number"),
            None => DEFAULT_SEED,
        };
        Some(Options { seed, soak_seconds })
    }
}

fn number_after<T: FromStr>(arguments: &[String], place: usize) -> Option<T> {
    arguments.get(place + 1)?.parse().ok()
}
