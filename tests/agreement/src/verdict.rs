//! What the two comparing programs share: their argument and their exit status.

use std::process::ExitCode;

/// The number of seeds given as the one argument, or the usual one.
pub fn seeds(usual: u64) -> u64 {
    match std::env::args().nth(1) {
        Some(argument) => argument.parse().expect("a number of seeds"),
        None => usual,
    }
}

/// Prints every failure; success where there is none.
pub fn verdict(failures: Vec<String>) -> ExitCode {
    for failure in &failures {
        println!("FAILED: {failure}");
    }
    match failures.is_empty() {
        true => ExitCode::SUCCESS,
        false => ExitCode::FAILURE,
    }
}
