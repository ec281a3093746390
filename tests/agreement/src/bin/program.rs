//! Prints how many inputs of the programs certify and explain met each refusal and
//! how they were made, what was explained, and where a program and the second
//! implementation differ; exit status 1 where they do, or where something was not
//! met. The number of seeds may be given.

use epm_agreement::{measure_program, seeds, verdict};
use std::process::ExitCode;

fn main() -> ExitCode {
    let agreement = measure_program(seeds(3000));
    print!("{agreement}");
    verdict(agreement.failures())
}
