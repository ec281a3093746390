//! Prints which answers the generated inputs reach; exit status 1 when a count
//! is 0. The number of seeds may be given as the one argument.

use epm_reference::coverage::measure;
use std::process::ExitCode;

const SEEDS: u64 = 4000;

fn main() -> ExitCode {
    let seeds = match std::env::args().nth(1) {
        Some(argument) => argument.parse().expect("a number of seeds"),
        None => SEEDS,
    };
    let coverage = measure(seeds);
    print!("{coverage}");
    let missing = coverage.missing();
    for word in &missing {
        println!("not reached: {word}");
    }
    match missing.is_empty() {
        true => ExitCode::SUCCESS,
        false => ExitCode::FAILURE,
    }
}
