//! Which answers the generated inputs reach: every refusal, every family as the
//! first broken row and as the first multiplier out of range, every table of columns
//! as the first underpriced, every range of the data.

use crate::cable_count::CableCount;
use crate::calls::{certify, check, post};
use crate::default_count::DefaultCount;
use crate::generator::draft::Case;
use crate::generator::frames;
use crate::generator::random::Random;
use crate::generator::{case, multiplier_edges, products, range_edges, thousandths};
use crate::met::{absent, Met};
use crate::product_count::ProductCount;
use crate::program;
use crate::refusal::{Refusal, BROKEN, ENTRY, FRAME, MULTIPLIER, REFUSAL_COUNT, UNDERPRICED};
use crate::season_count::SeasonCount;
use crate::storage_count::StorageCount;
use std::fmt;

/// Every refusal by its number.
fn refusals() -> Vec<u32> {
    (1..=REFUSAL_COUNT as u32).collect()
}

/// Counts over a run of seeded inputs.
#[derive(Clone, Debug, Default, PartialEq, Eq)]
pub struct Coverage {
    pub inputs: u64,
    pub texts: u64,
    /// Inputs that all three calls accepted.
    pub accepted: u64,
    /// Accepted certificates whose bound, cost less gap, is above 0.
    pub bounds_above_zero: u64,
    /// Each refusal that an input met in some call, once for each input.
    pub met: Met,
    pub storage: StorageCount,
    pub cables: CableCount,
    pub seasons: SeasonCount,
    pub products: ProductCount,
    pub defaults: DefaultCount,
}

/// Runs the inputs of seeds 0..inputs through all calls and, where they are
/// small enough, through the program as well; of one seed in two hundred the
/// entries and multipliers at the ends of their ranges and the products about their
/// edges; and through the program a tenth as many texts without a SCAL line.
pub fn measure(inputs: u64) -> Coverage {
    let mut coverage = Coverage::default();
    for seed in 0..inputs {
        let generated = case(seed);
        coverage.count_case(&generated.case);
        coverage.count_text(seed, &generated.case);
    }
    for seed in 0..inputs / 200 {
        let edges = [range_edges(seed), multiplier_edges(seed)].concat();
        edges.iter().for_each(|case| coverage.count_case(case));
        let edges = products::edges(seed);
        edges
            .iter()
            .for_each(|edge| coverage.count_case(&edge.case));
    }
    let mut random = Random::new(inputs);
    for (_, text) in thousandths::texts_without_scale_line(&mut random, inputs / 10) {
        coverage.texts += 1;
        coverage.defaults.count(&text, program::answer(&text));
    }
    coverage
}

/// The refusals that the three calls give to one case.
pub fn refusals_of(case: &Case) -> Vec<Refusal> {
    let checked = check(&case.data, case.scale, &case.plan).err();
    let certified = certify(&case.data, case.scale, &case.plan, &case.multipliers).err();
    let mut board = case.board.clone();
    let posted = post(
        &case.data, case.scale, &case.plan, case.year, &mut board, case.start,
    )
    .err();
    [checked, certified, posted].into_iter().flatten().collect()
}

impl Coverage {
    fn count_case(&mut self, case: &Case) {
        self.inputs += 1;
        let refusals = refusals_of(case);
        if refusals.is_empty() {
            self.accepted += 1;
        }
        let certified = certify(&case.data, case.scale, &case.plan, &case.multipliers);
        if certified.is_ok_and(|(cost, gap)| cost > gap) {
            self.bounds_above_zero += 1;
        }
        self.storage.count(case, certified);
        self.cables.count(case, certified);
        self.seasons.count(case, certified);
        self.products.count(case, certified);
        let mut counted = vec![];
        for refusal in refusals {
            if !counted.contains(&refusal.number) {
                counted.push(refusal.number);
                self.met.count(&case.data, refusal);
            }
        }
    }

    fn count_text(&mut self, seed: u64, case: &Case) {
        let Some(text) = text(seed, case) else { return };
        self.texts += 1;
        let answer = program::answer(&text.bytes);
        self.defaults.count(&text.bytes, answer);
        if let Err(refusal) = answer {
            if refusal.number == FRAME {
                self.met.count(&case.data, refusal);
            }
        }
    }

    /// The counts that are 0, in words.
    pub fn missing(&self) -> Vec<String> {
        let mut missing = self.met.missing(&refusals());
        let placed = [ENTRY, BROKEN, MULTIPLIER, UNDERPRICED];
        missing.extend(self.met.missing_places(&placed));
        missing.extend(self.storage.missing());
        missing.extend(self.cables.missing());
        missing.extend(self.seasons.missing());
        missing.extend(self.products.missing());
        missing.extend(self.defaults.missing());
        missing.extend(absent(&[
            (self.accepted, "accepted"),
            (self.bounds_above_zero, "bound above 0"),
        ]));
        missing
    }
}

/// The program's input of a seed and its case, sound or damaged as text beside
/// what the case itself is. None where the case is too large for the program.
pub fn text(seed: u64, case: &Case) -> Option<frames::Text> {
    if !frames::fits(case) {
        return None;
    }
    // Apart from the numbers that the case itself was drawn with.
    let mut random = Random::new(!seed);
    Some(frames::text_of(&mut random, case))
}

impl fmt::Display for Coverage {
    fn fmt(&self, f: &mut fmt::Formatter<'_>) -> fmt::Result {
        writeln!(f, "inputs {}, texts {}", self.inputs, self.texts)?;
        writeln!(f, "accepted by all calls {}", self.accepted)?;
        writeln!(f, "certificates above 0 {}", self.bounds_above_zero)?;
        write!(f, "{}{}", self.storage, self.cables)?;
        write!(f, "{}{}{}", self.seasons, self.products, self.defaults)?;
        write!(f, "refusals met:\n{}", self.met.table(&refusals()))
    }
}
