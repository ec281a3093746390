//! Seeded inputs through both implementations, with counts of what was met.

use crate::calls;
use epm_reference::cable_count::CableCount;
use epm_reference::calls::column_loads;
use epm_reference::generator::anything::{any_contents, any_lists, steep};
use epm_reference::generator::draft::Case;
use epm_reference::generator::random::Random;
use epm_reference::generator::stations::stations;
use epm_reference::generator::{
    case, extremes, multiplier_edges, products, range_edges, twice_damaged_case,
};
use epm_reference::met::{absent, Met};
use epm_reference::model::Model;
use epm_reference::refusal::{
    Refusal, COLUMN_OFF_SCALE, OF_ALL_CALLS, OF_CERTIFY, OF_POST, PLACED,
};
use epm_reference::season_count::SeasonCount;
use epm_reference::storage_count::StorageCount;
use std::fmt::{self, Debug};

/// Refusals that post can give, in the order of its tests.
fn by_post() -> Vec<u32> {
    [&OF_ALL_CALLS[..], &OF_POST].concat()
}

/// Refusals that certify can give, in the order of its tests.
fn by_certify() -> Vec<u32> {
    [&OF_ALL_CALLS[..], &OF_CERTIFY].concat()
}

/// What was met, and where the two differed.
#[derive(Default)]
pub struct Agreement {
    pub inputs: u64,
    pub posted: u64,
    /// Boards that post changed.
    pub written: u64,
    pub by_post: Met,
    pub certified: u64,
    /// Certificates with three quarters of their multipliers not 0.
    pub far_from_zero: u64,
    /// Certificates with a multiplier below 0.
    pub below_zero: u64,
    /// Certificates whose bound, cost less gap, is above 0.
    pub bounds_above_zero: u64,
    pub by_certify: Met,
    /// What the inputs of certify had of batteries, of lines between zones and of links by
    /// season.
    pub storage: StorageCount,
    pub cables: CableCount,
    pub seasons: SeasonCount,
    /// First columns off scale that are underpriced as well.
    pub off_scale_and_underpriced: u64,
    pub differences: Vec<String>,
}

/// The inputs of seeds 0..inputs, the station's ten cases, the cases at the limit
/// of the sums, entries and multipliers at the ends of their ranges, products about
/// their edges, cases with two faults and lists of any content.
pub fn measure(inputs: u64) -> Agreement {
    let mut agreement = Agreement::default();
    for seed in 0..inputs {
        agreement.compare(&format!("seed {seed}"), &case(seed).case);
    }
    for (place, station) in stations().iter().enumerate() {
        agreement.compare(&format!("station {place}"), &station.case());
    }
    for extreme in extremes::all() {
        agreement.compare(extreme.name, &extreme.case);
    }
    for seed in 0..inputs / 200 {
        for case in multiplier_edges(seed) {
            agreement.compare(&format!("multiplier edge, seed {seed}"), &case);
        }
        for case in range_edges(seed) {
            agreement.compare(&format!("entry edge, seed {seed}"), &case);
        }
        for edge in products::edges(seed) {
            agreement.compare(&edge.label(), &edge.case);
        }
    }
    let mut random = Random::new(inputs);
    for seed in 0..inputs / 10 {
        agreement.compare("two faults", &twice_damaged_case(&mut random));
        agreement.compare("any lists", &any_lists(&mut random, seed as usize % 400));
        agreement.compare("any contents", &any_contents(&mut random));
        agreement.compare("steep", &steep(&mut random));
    }
    agreement
}

impl Agreement {
    /// The three calls on one case, answers and boards.
    pub fn compare(&mut self, label: &str, case: &Case) {
        self.inputs += 1;
        let (data, scale, plan) = (&case.data, case.scale, &case.plan);
        let expected = epm_reference::check(data, scale, plan);
        let answered = calls::check(data, scale, plan);
        self.hold(label, "check", &expected, &answered);

        let expected = epm_reference::certify(data, scale, plan, &case.multipliers);
        let answered = calls::certify(data, scale, plan, &case.multipliers);
        self.hold(label, "certify", &expected, &answered);
        self.count_certify(case, expected);
        self.storage.count(case, expected);
        self.cables.count(case, expected);
        self.seasons.count(case, expected);

        let mut expected_board = case.board.clone();
        let mut board = case.board.clone();
        let (year, start) = (case.year, case.start);
        let expected = epm_reference::post(data, scale, plan, year, &mut expected_board, start);
        let answered = calls::post(data, scale, plan, year, &mut board, start);
        self.hold(label, "post", &expected, &answered);
        let place = (0..board.len()).find(|&i| board[i] != expected_board[i]);
        self.hold(label, "the board, first place that differs", &None, &place);
        self.written += u64::from(board != case.board);
        match expected {
            Ok(_) => self.posted += 1,
            Err(refusal) => self.by_post.count(data, refusal),
        }
    }

    fn hold<T: PartialEq + Debug>(&mut self, label: &str, call: &str, expected: &T, answered: &T) {
        if expected != answered {
            self.differences.push(format!(
                "{label}: {call} answered {answered:?}, the second implementation {expected:?}"
            ));
        }
    }

    fn count_certify(&mut self, case: &Case, answer: Result<(u64, u64), Refusal>) {
        match answer {
            Ok((cost, gap)) => {
                let multipliers = &case.multipliers;
                let used = multipliers.iter().filter(|m| **m != 0).count();
                self.certified += 1;
                self.far_from_zero += u64::from(4 * used >= 3 * multipliers.len());
                self.below_zero += u64::from(multipliers.iter().any(|m| *m < 0));
                self.bounds_above_zero += u64::from(cost > gap);
            }
            Err(refusal) => {
                self.by_certify.count(&case.data, refusal);
                if refusal.number == COLUMN_OFF_SCALE {
                    let both = is_underpriced(case, refusal.place as usize);
                    self.off_scale_and_underpriced += u64::from(both);
                }
            }
        }
    }

    /// What was not met, and every difference.
    pub fn failures(&self) -> Vec<String> {
        let mut failures = self.differences.clone();
        let mut missing = self.by_post.missing(&by_post());
        missing.extend(self.by_certify.missing(&by_certify()));
        missing.extend(self.by_certify.missing_places(&PLACED));
        missing.extend(self.storage.missing());
        missing.extend(self.cables.missing());
        missing.extend(self.seasons.missing());
        missing.extend(absent(&[
            (self.written, "a board written"),
            (self.far_from_zero, "a certificate far from zero"),
            (self.below_zero, "a certificate with a multiplier below 0"),
            (self.bounds_above_zero, "a bound above 0"),
            (self.off_scale_and_underpriced, "11 before 12 in a column"),
        ]));
        failures.extend(missing.iter().map(|word| format!("not met: {word}")));
        failures
    }
}

/// Whether a column's price is below its Σ m·a.
fn is_underpriced(case: &Case, column: usize) -> bool {
    let model = Model::read(&case.data).expect("columns come after the data");
    let load = column_loads(&model, &case.multipliers)[column];
    model.price(column) < load.value()
}

impl fmt::Display for Agreement {
    fn fmt(&self, f: &mut fmt::Formatter<'_>) -> fmt::Result {
        writeln!(
            f,
            "check, certify and post on {} inputs: {} differences",
            self.inputs,
            self.differences.len()
        )?;
        writeln!(f, "certify: {} accepted", self.certified)?;
        writeln!(
            f,
            "  three quarters of the multipliers not 0 {}, some below 0 {}, bound above 0 {}",
            self.far_from_zero, self.below_zero, self.bounds_above_zero
        )?;
        write!(
            f,
            "{}{}{}{}",
            self.by_certify.table(&by_certify()),
            self.storage,
            self.cables,
            self.seasons
        )?;
        writeln!(
            f,
            "  columns off scale that are underpriced as well {}",
            self.off_scale_and_underpriced
        )?;
        writeln!(
            f,
            "post: {} accepted, {} boards changed",
            self.posted, self.written
        )?;
        writeln!(f, "  refusals {}", self.by_post.line(&by_post()))
    }
}
