//! Prints how many inputs each refusal, each family and each table of columns had,
//! how many rivals each certificate was held to, and where the proved calls and
//! the second implementation differ; exit status 1 where they do, or where
//! something was not met. The number of seeds may be given.

use epm_agreement::{measure, measure_rivals, seeds, verdict};
use std::process::ExitCode;

fn main() -> ExitCode {
    let seeds = seeds(6000);
    let agreement = measure(seeds);
    print!("{agreement}");
    let rivals = measure_rivals(seeds / 12);
    print!("{rivals}");
    verdict([agreement.failures(), rivals.failures()].concat())
}
