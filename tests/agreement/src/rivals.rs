//! Certificates of the proved certify held to rival plans (demand 3).

use crate::calls::certify;
use epm_reference::generator::draft::Case;
use epm_reference::generator::random::Random;
use epm_reference::generator::{linked, optimal, shape, solved, sound_case};
use epm_reference::rival_count::RivalCount;

const RIVALS_OF_EACH: u64 = 8;

/// Rivals of as many drawn certificates, as many optimal ones, as many optimal ones with a
/// battery and as many with lines.
pub fn measure_rivals(certificates: u64) -> RivalCount {
    let mut random = Random::new(certificates);
    let mut count = RivalCount::default();
    for seed in 0..certificates {
        let drawn = sound_case(shape(&mut random), seed);
        try_case(&mut random, &drawn, &mut count);
        let best = optimal::draft(&mut random).case;
        try_case(&mut random, &best, &mut count);
        let stored = solved::draft(&mut random).case;
        try_case(&mut random, &stored, &mut count);
        let linked = linked::draft(&mut random).case;
        try_case(&mut random, &linked, &mut count);
    }
    count
}

fn try_case(random: &mut Random, case: &Case, count: &mut RivalCount) {
    match certify(&case.data, case.scale, &case.plan, &case.multipliers) {
        Ok(certificate) => count.try_rivals(random, case, certificate, RIVALS_OF_EACH),
        Err(refusal) => count
            .faults
            .push(format!("a sound case was refused: {refusal}")),
    }
}
