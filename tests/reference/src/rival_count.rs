//! Demand 3 by experiment: rivals of a certificate, counted.

use crate::columns::{Column, ColumnLayout};
use crate::data::read_shape;
use crate::generator::draft::Case;
use crate::generator::random::Random;
use crate::generator::rivals::{rival, Rival};
use crate::met::absent;
use crate::model::Model;
use crate::rival::{evaluate, within_certificate};
use crate::wide::Wide;
use std::cmp::Ordering;
use std::collections::BTreeMap;
use std::fmt;

/// Rivals of a run of certificates.
#[derive(Clone, Debug, Default, PartialEq, Eq)]
pub struct RivalCount {
    pub certificates: u64,
    /// Rivals that meet all the equations.
    pub feasible: u64,
    pub infeasible: u64,
    /// Feasible rivals at a scale that is no multiple of the plan's.
    pub other_scale: u64,
    /// Feasible rivals by the way they were made.
    pub labels: BTreeMap<&'static str, u64>,
    /// Feasible rivals with a battery that charges otherwise than in the plan.
    pub charging_otherwise: u64,
    /// Feasible rivals with lines that are built otherwise than in the plan.
    pub building_lines_otherwise: u64,
    /// Feasible rivals with a total that is no whole number of the plan's Nths of a line.
    pub finer_lines: u64,
    /// Feasible rivals with an entry of more than 32 bits.
    pub wide_entries: u64,
    pub cheaper_than_the_plan: u64,
    /// Feasible rivals of certificates whose cost less gap is above 0.
    pub bounded_above_zero: u64,
    /// Those that cost just what the certificate allows.
    pub at_the_bound: u64,
    /// Feasible rivals that cost less than the certificate allows, and rivals
    /// that miss an equation which they were made to meet.
    pub faults: Vec<String>,
}

/// N·cost(rival) against M·amount.
fn compare(rival: Wide, rival_scale: u64, amount: u64, scale: u32) -> Ordering {
    let left = rival.times(u64::from(scale));
    left.cmp(&Wide::product(u128::from(amount), u128::from(rival_scale)))
}

/// Whether an entry of this table, in Mths, differs from the plan's in Nths.
fn differs_in(table: Column, rival: &Rival, case: &Case) -> bool {
    let columns = ColumnLayout::new(read_shape(&case.data).expect("sound data"));
    let differs = |column: usize| {
        let planned = u128::from(case.plan[column]) * u128::from(rival.scale);
        rival.entries[column] * u128::from(case.scale) != planned
    };
    columns.of_table(table).any(differs)
}

/// Whether a total of the rival, in Mths of a line, cannot be said in Nths.
fn has_finer_lines(rival: &Rival, case: &Case) -> bool {
    let columns = ColumnLayout::new(read_shape(&case.data).expect("sound data"));
    let nths = |column: usize| rival.entries[column] * u128::from(case.scale);
    let mut totals = columns.of_table(Column::Total);
    totals.any(|column| !nths(column).is_multiple_of(u128::from(rival.scale)))
}

impl RivalCount {
    /// Draws rivals of a case and holds them to its certificate, cost and gap.
    pub fn try_rivals(
        &mut self,
        random: &mut Random,
        case: &Case,
        certificate: (u64, u64),
        rivals: u64,
    ) {
        self.certificates += 1;
        for _ in 0..rivals {
            self.try_one(random, case, certificate);
        }
    }

    fn try_one(&mut self, random: &mut Random, case: &Case, (cost, gap): (u64, u64)) {
        let rival = rival(random, case);
        let found = evaluate(&case.data, rival.scale, &rival.entries).expect("sound data");
        if let Some(row) = found.first_broken {
            self.infeasible += 1;
            if rival.feasible {
                let model = Model::read(&case.data).expect("sound data");
                let row = model.rows.name(row);
                self.faults
                    .push(format!("{} rival breaks {row}", rival.label));
            }
            return;
        }
        self.feasible += 1;
        if !within_certificate(found.cost, rival.scale, (cost, gap), case.scale) {
            self.faults.push(format!(
                "{} rival at scale {} costs {}, certificate {cost} {gap} at scale {}",
                rival.label, rival.scale, found.cost, case.scale
            ));
        }
        let against = |amount: u64| compare(found.cost, rival.scale, amount, case.scale);
        let wide = rival
            .entries
            .iter()
            .any(|&entry| entry > u128::from(u32::MAX));
        let multiple = rival.scale.is_multiple_of(u64::from(case.scale));
        *self.labels.entry(rival.label).or_default() += 1;
        self.other_scale += u64::from(!multiple);
        self.charging_otherwise += u64::from(differs_in(Column::Charge, &rival, case));
        self.building_lines_otherwise += u64::from(differs_in(Column::Built, &rival, case));
        self.finer_lines += u64::from(has_finer_lines(&rival, case));
        self.wide_entries += u64::from(wide);
        self.cheaper_than_the_plan += u64::from(against(cost).is_lt());
        if cost > gap {
            self.bounded_above_zero += 1;
            self.at_the_bound += u64::from(against(cost - gap).is_eq());
        }
    }

    /// Every fault, and what no rival was.
    pub fn failures(&self) -> Vec<String> {
        let missing = absent(&[
            (self.feasible, "feasible"),
            (self.other_scale, "at a scale that is no multiple"),
            (self.charging_otherwise, "charging otherwise"),
            (self.building_lines_otherwise, "building lines otherwise"),
            (self.finer_lines, "building finer fractions of a line"),
            (self.wide_entries, "of more than 32 bits"),
            (self.cheaper_than_the_plan, "cheaper than the plan"),
            (self.bounded_above_zero, "bounded above 0"),
            (self.at_the_bound, "at the bound"),
        ]);
        let missing = missing.iter().map(|word| format!("no rival was {word}"));
        self.faults.iter().cloned().chain(missing).collect()
    }
}

impl fmt::Display for RivalCount {
    fn fmt(&self, f: &mut fmt::Formatter<'_>) -> fmt::Result {
        writeln!(
            f,
            "rivals of {} certificates: {} feasible, {} below what a certificate allows",
            self.certificates,
            self.feasible,
            self.faults.len()
        )?;
        for (label, count) in &self.labels {
            writeln!(f, "  {label:34} {count:5}")?;
        }
        for (word, count) in [
            ("not feasible, left out", self.infeasible),
            ("at a scale that is no multiple", self.other_scale),
            ("charging otherwise than the plan", self.charging_otherwise),
            ("building lines otherwise", self.building_lines_otherwise),
            ("with finer fractions of a line", self.finer_lines),
            ("with entries of more than 32 bits", self.wide_entries),
            ("cheaper than the plan", self.cheaper_than_the_plan),
            ("bounded above 0", self.bounded_above_zero),
            ("at the bound itself", self.at_the_bound),
        ] {
            writeln!(f, "  {word:34} {count:5}")?;
        }
        Ok(())
    }
}
