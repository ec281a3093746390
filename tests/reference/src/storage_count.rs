//! What a run of inputs had of batteries that the counts of refusals do not show.

use crate::calls::{row_value, LARGEST_SCALE};
use crate::columns::Column;
use crate::data::Data;
use crate::generator::draft::{Case, Draft};
use crate::met::absent;
use crate::model::Model;
use crate::refusal::{Refusal, ENTRY, MULTIPLIER, STORAGE};
use std::fmt;

/// The family whose empty rows take multipliers of both signs.
const LEVEL: usize = 21;

/// The families of batteries that are no equalities: charge limit, charge rise,
/// charge fall and level limit.
const LIMITS: [usize; 4] = [22, 23, 24, 25];

/// Counts over a run of inputs of certify.
#[derive(Clone, Debug, Default, PartialEq, Eq)]
pub struct StorageCount {
    /// A battery has VRE set, and 3 is answered: 16 comes after it.
    entry_first: u64,
    /// 16 is answered, and the scale is out of range: 4 comes after it.
    storage_first: u64,
    /// Certificates with a multiplier below 0 in family 21, in the row of a battery.
    below_zero_of_battery: u64,
    /// The same in a row that reads 0 ≥ 0.
    below_zero_of_empty_row: u64,
    /// Refused for a multiplier below 0, by the families of `LIMITS`.
    below_zero_refused: [u64; LIMITS.len()],
    /// Certificates of plans in which a battery reaches a limit, by the same.
    at_limit: [u64; LIMITS.len()],
    /// Certificates of plans with a battery that gives what it charged, bound above 0.
    bounds_above_zero: u64,
}

impl StorageCount {
    /// Counts an input with certify's answer to it.
    pub fn count(&mut self, case: &Case, answer: Result<(u64, u64), Refusal>) {
        match answer {
            Ok((cost, gap)) => self.count_accepted(case, cost > gap),
            Err(refusal) => self.count_refused(case, refusal),
        }
    }

    fn count_refused(&mut self, case: &Case, refusal: Refusal) {
        let place = refusal.place as usize;
        match refusal.number {
            ENTRY => {
                let data = Data::laid_out(&case.data).expect("entries come after the length");
                let mut plants = 0..data.shape.plants;
                let fault = plants.any(|g| data.is_battery(g) && data.is_vre(g));
                self.entry_first += u64::from(fault);
            }
            STORAGE => {
                let sound_scale = (1..=LARGEST_SCALE).contains(&case.scale);
                self.storage_first += u64::from(!sound_scale);
            }
            MULTIPLIER if case.multipliers[place] < 0 => {
                let draft = Draft::of(case.clone());
                let family = draft.rows.family(place).expect("a row");
                if let Some(at) = LIMITS.iter().position(|&limit| limit == family) {
                    self.below_zero_refused[at] += 1;
                }
            }
            _ => (),
        }
    }

    fn count_accepted(&mut self, case: &Case, bound_above_zero: bool) {
        let model = Model::read(&case.data).expect("accepted data");
        let entry =
            |column, place: &[usize]| i128::from(case.plan[model.columns.index(column, place)]);
        let (mut battery, mut empty, mut gives) = (false, false, false);
        let mut reached = [false; LIMITS.len()];
        for number in model.rows.of_family(LEVEL) {
            let (_, i) = model.rows.locate(number).expect("a row");
            let below_zero = case.multipliers[number] < 0;
            if !model.data.is_battery(i[1]) {
                empty = empty || below_zero;
                continue;
            }
            battery = battery || below_zero;
            gives = gives || entry(Column::Gen, &i) > 0;
            let earlier = match model.data.shape.hour_of(i[2]) {
                0 => 0,
                _ => entry(Column::Charge, &[i[0], i[1], i[2] - 1]),
            };
            let charge = entry(Column::Charge, &i);
            let moved = [
                charge,
                charge - earlier,
                earlier - charge,
                entry(Column::Level, &i),
            ];
            for (at, family) in LIMITS.into_iter().enumerate() {
                let row = model.row_of(family, &i);
                let exact = row_value(&row, case.scale, &case.plan).value() == 0;
                reached[at] = reached[at] || exact && !row.terms.is_empty() && moved[at] > 0;
            }
        }
        self.below_zero_of_battery += u64::from(battery);
        self.below_zero_of_empty_row += u64::from(empty);
        self.bounds_above_zero += u64::from(gives && bound_above_zero);
        for (count, reached) in self.at_limit.iter_mut().zip(reached) {
            *count += u64::from(reached);
        }
    }

    /// Each count with what it counts.
    fn counts(&self) -> Vec<(u64, &'static str)> {
        let [charge_refused, rise_refused, fall_refused, level_refused] = self.below_zero_refused;
        let [charge, rise, fall, level] = self.at_limit;
        vec![
            (self.entry_first, "3 before 16"),
            (self.storage_first, "16 before 4"),
            (self.below_zero_of_battery, "below 0 in 21, battery"),
            (self.below_zero_of_empty_row, "below 0 in 21, empty row"),
            (charge_refused, "below 0 refused in 22"),
            (rise_refused, "below 0 refused in 23"),
            (fall_refused, "below 0 refused in 24"),
            (level_refused, "below 0 refused in 25"),
            (charge, "charge at its limit"),
            (rise, "charge rising as fast as it may"),
            (fall, "charge falling as fast as it may"),
            (level, "level at its limit"),
            (
                self.bounds_above_zero,
                "a battery that gives, bound above 0",
            ),
        ]
    }

    /// The counts that are 0, in words.
    pub fn missing(&self) -> Vec<String> {
        absent(&self.counts())
    }
}

impl fmt::Display for StorageCount {
    fn fmt(&self, f: &mut fmt::Formatter<'_>) -> fmt::Result {
        writeln!(f, "batteries:")?;
        for (count, word) in self.counts() {
            writeln!(f, "  {word:36} {count:7}")?;
        }
        Ok(())
    }
}
