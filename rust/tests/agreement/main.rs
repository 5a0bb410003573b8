//! Compares the archive, the wrapper around it, and the program `reach` with an implementation
//! written apart from them: from the format's description, from the conditions in section 2 of
//! NISTIR 6718, and from the customer's papers 01 and 02.
//!
//! `cargo test --release` makes one round of cases from a fixed seed. With `--seed N` after `--`
//! it takes another seed, with `--soak SECONDS` it goes on with the next seeds for that long.

mod bare;
mod battery;
mod bench;
mod bends;
mod boundaries;
mod call;
mod creases;
mod damage;
mod draft;
mod element;
mod exercise;
mod far;
mod filling;
mod fraction;
mod lent;
mod meshes;
mod options;
mod patterns;
mod pixels;
mod pool;
mod pooling;
mod random;
mod reach;
mod reaching;
mod requests;
mod round;
mod sheet;
mod slopes;
mod steep;
mod sums;
mod tally;
mod three;
mod trust;
mod vectors;
mod watch;
mod worst;
mod wrapped;
mod zones;
mod zoning;

use std::process::ExitCode;
use std::time::Instant;

use bench::Bench;
use options::Options;
use random::Random;
use reaching::Program;

fn main() -> ExitCode {
    let Some(options) = Options::from_arguments() else {
        return ExitCode::SUCCESS;
    };
    let Some(program) = Program::found() else {
        return ExitCode::FAILURE;
    };
    let started = Instant::now();
    let seconds = || started.elapsed().as_secs_f64();
    println!("agreement: seed {}", options.seed);

    let vectors = vectors::all();
    let requests = requests::all();
    trust::check(&mut Random::new(options.seed), &vectors, &requests);
    println!(
        "the independent implementation meets the conditions, examples and vectors ({:.1} s)",
        seconds()
    );

    watch::start();
    let mut bench = Bench::new(options.seed);
    far::run(&mut bench.tally);
    round::vectors(&mut bench, &vectors);
    round::requests(&mut bench, &requests.cases);
    program.run_cases(&mut bench.tally, &requests.inputs);
    round::run(&mut bench, options.seed);
    program.run_drawn(&mut bench.tally, options.seed);
    let mut seed = options.seed;
    while seconds() < options.soak_seconds {
        seed = seed.wrapping_add(1);
        round::run(&mut bench, seed);
        program.run_drawn(&mut bench.tally, seed);
        println!("seed {seed}: {} calls so far ({:.0} s)", bench.tally.call_count(), seconds());
    }

    bench.tally.print(seconds());
    let complaints = bench.tally.complaints();
    if complaints.is_empty() {
        println!("agreement: passed");
        return ExitCode::SUCCESS;
    }
    println!("agreement: FAILED: {}", complaints.join(", "));
    ExitCode::FAILURE
}
