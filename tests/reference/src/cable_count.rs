//! What a run of inputs had of lines between zones that the counts of refusals do not show.

use crate::calls::row_value;
use crate::columns::{Column, ColumnLayout};
use crate::data::{read_shape, Table};
use crate::generator::draft::Case;
use crate::met::absent;
use crate::model::Model;
use crate::refusal::{Refusal, BROKEN, MULTIPLIER, ROW_OFF_SCALE, UNDERPRICED};
use crate::rows::RowLayout;
use std::cmp::Ordering;
use std::fmt;

/// The families of lines.
const BALANCE: usize = 26;
const LIMIT: usize = 27;
const BOTH_WAYS: usize = 28;

/// The families in which lines add to what a link carries.
const TRANSFER: usize = 2;
const SPINNING: usize = 3;

/// Counts over a run of inputs of certify.
#[derive(Clone, Debug, Default, PartialEq, Eq)]
pub struct CableCount {
    /// Refused for a row off scale by lines, in families 2 and 3.
    transfer_off_scale: u64,
    spinning_off_scale: u64,
    /// Refused for lines within one zone, by families 26 and 27.
    balance_within_zone: u64,
    limit_within_zone: u64,
    /// Refused for a multiplier below 0 in family 27.
    below_zero_refused: u64,
    /// Refused for an underpriced total, from the lower zone to the higher, from the
    /// higher to the lower and within one zone.
    underpriced_upward: u64,
    underpriced_downward: u64,
    underpriced_within_zone: u64,
    /// Certificates with a multiplier below 0 in families 26 and 28, and in a row of 28
    /// that reads 0 ≥ 0.
    below_zero_in_balance: u64,
    below_zero_both_ways: u64,
    below_zero_of_empty_row: u64,
    accepted: Accepted,
}

/// Certificates by what their plans have of lines.
#[derive(Clone, Copy, Debug, Default, PartialEq, Eq)]
struct Accepted {
    /// The builds of a pair are all that its limit allows.
    at_limit: u64,
    /// Lines are built in a year after the first.
    later_year: u64,
    /// A total is no whole number of lines.
    fraction: u64,
    /// A flow is larger than TL.
    above_tl: u64,
    /// A row of family 3 that holds by its lines alone.
    reserve_by_lines: u64,
    /// Lines are built, the gap is 0 and the cost is not.
    worth_building: u64,
    /// No line is built where one could be, the gap is 0 and the cost is not.
    not_worth_building: u64,
}

impl CableCount {
    /// Counts an input with certify's answer to it.
    pub fn count(&mut self, case: &Case, answer: Result<(u64, u64), Refusal>) {
        match answer {
            Ok((cost, gap)) => self.count_accepted(case, cost > 0 && gap == 0),
            Err(refusal) => self.count_refused(case, refusal),
        }
    }

    fn count_refused(&mut self, case: &Case, refusal: Refusal) {
        let place = refusal.place as usize;
        let row = || {
            let shape = read_shape(&case.data).expect("rows come after the data");
            RowLayout::new(shape).locate(place).expect("a row")
        };
        match refusal.number {
            ROW_OFF_SCALE => match row().0 {
                TRANSFER => self.transfer_off_scale += 1,
                SPINNING => self.spinning_off_scale += 1,
                _ => (),
            },
            BROKEN => match row() {
                (BALANCE, i) if i[1] == i[2] => self.balance_within_zone += 1,
                (LIMIT, i) if i[0] == i[1] => self.limit_within_zone += 1,
                _ => (),
            },
            MULTIPLIER if case.multipliers[place] < 0 => {
                self.below_zero_refused += u64::from(row().0 == LIMIT);
            }
            UNDERPRICED => {
                let shape = read_shape(&case.data).expect("columns come after the data");
                if let Some((Column::Total, i)) = ColumnLayout::new(shape).locate(place) {
                    match i[1].cmp(&i[2]) {
                        Ordering::Less => self.underpriced_upward += 1,
                        Ordering::Greater => self.underpriced_downward += 1,
                        Ordering::Equal => self.underpriced_within_zone += 1,
                    }
                }
            }
            _ => (),
        }
    }

    fn count_accepted(&mut self, case: &Case, least_cost: bool) {
        let model = Model::read(&case.data).expect("accepted data");
        let below_zero = |family: usize, empty: bool| {
            let mut rows = model.rows.of_family(family);
            rows.any(|row| case.multipliers[row] < 0 && model.row(row).terms.is_empty() == empty)
        };
        self.below_zero_in_balance += u64::from(below_zero(BALANCE, false));
        self.below_zero_both_ways += u64::from(below_zero(BOTH_WAYS, false));
        self.below_zero_of_empty_row += u64::from(below_zero(BOTH_WAYS, true));
        let plan = Plan { model, case };
        let built = plan.has_lines();
        let counts = &mut self.accepted;
        counts.at_limit += u64::from(plan.reaches_a_limit());
        counts.later_year += u64::from(plan.builds_later());
        counts.fraction += u64::from(plan.has_a_fraction());
        counts.above_tl += u64::from(plan.flows_above_tl());
        counts.reserve_by_lines += u64::from(plan.has_reserve_by_lines());
        counts.worth_building += u64::from(least_cost && built);
        counts.not_worth_building += u64::from(least_cost && !built && plan.may_have_lines());
    }

    /// Each count with what it counts.
    fn counts(&self) -> Vec<(u64, &'static str)> {
        let accepted = &self.accepted;
        vec![
            (self.transfer_off_scale, "6 in family 2"),
            (self.spinning_off_scale, "6 in family 3"),
            (self.balance_within_zone, "within one zone, 26 broken"),
            (self.limit_within_zone, "within one zone, 27 broken"),
            (self.below_zero_refused, "below 0 refused in 27"),
            (self.underpriced_upward, "total underpriced, z below z2"),
            (self.underpriced_downward, "total underpriced, z above z2"),
            (self.underpriced_within_zone, "total underpriced, z = z2"),
            (self.below_zero_in_balance, "below 0 in 26"),
            (self.below_zero_both_ways, "below 0 in 28, z below z2"),
            (self.below_zero_of_empty_row, "below 0 in 28, empty row"),
            (accepted.at_limit, "builds at their limit"),
            (accepted.later_year, "built in a later year"),
            (accepted.fraction, "a fraction of a line"),
            (accepted.above_tl, "a flow above TL"),
            (accepted.reserve_by_lines, "spinning reserve by lines"),
            (accepted.worth_building, "gap 0, lines built"),
            (accepted.not_worth_building, "gap 0, lines not worth it"),
        ]
    }

    /// The counts that are 0, in words.
    pub fn missing(&self) -> Vec<String> {
        absent(&self.counts())
    }
}

/// An accepted plan over its data.
struct Plan<'a> {
    model: Model<'a>,
    case: &'a Case,
}

impl Plan<'_> {
    fn entry(&self, column: Column, indices: &[usize]) -> i128 {
        i128::from(self.case.plan[self.model.columns.index(column, indices)])
    }

    fn scale(&self) -> i128 {
        i128::from(self.case.scale)
    }

    /// Whether an entry of the table, with its indices, is as asked.
    fn any(&self, column: Column, asked: impl Fn(&[usize], i128) -> bool) -> bool {
        self.model.columns.of_table(column).any(|number| {
            let (_, indices) = self.model.columns.locate(number).expect("a column");
            asked(&indices, i128::from(self.case.plan[number]))
        })
    }

    fn has_lines(&self) -> bool {
        self.any(Column::Built, |_, built| built > 0)
    }

    fn builds_later(&self) -> bool {
        self.any(Column::Built, |i, built| i[0] > 0 && built > 0)
    }

    fn has_a_fraction(&self) -> bool {
        self.any(Column::Total, |_, total| total % self.scale() != 0)
    }

    fn reaches_a_limit(&self) -> bool {
        self.any(Column::Built, |i, built| {
            let row = self.model.row_of(LIMIT, &i[1..]);
            let value = row_value(&row, self.case.scale, &self.case.plan).value();
            built > 0 && value == 0
        })
    }

    fn flows_above_tl(&self) -> bool {
        let data = &self.model.data;
        self.any(Column::Trans, |i, flow| {
            let q = data.shape.season_of(i[3]);
            flow > self.scale() * data.at(Table::Tl, &[i[0], i[1], i[2], q])
        })
    }

    fn has_reserve_by_lines(&self) -> bool {
        let data = &self.model.data;
        self.model.rows.of_family(SPINNING).any(|number| {
            let (_, i) = self.model.rows.locate(number).expect("a row");
            let (y, z) = (i[0], i[1]);
            let lines = data.zones_beside(z).map(|z2| {
                data.at(Table::LineMw, &[z2, z]) * self.entry(Column::Total, &[y, z2, z])
            });
            let lines: i128 = lines.sum();
            let row = self.model.row(number);
            let value = row_value(&row, self.case.scale, &self.case.plan).value();
            value < 1000 * lines
        })
    }

    /// Whether a pair has lines that carry something and may be built in both directions.
    fn may_have_lines(&self) -> bool {
        let data = &self.model.data;
        (0..data.shape.zones).any(|z| {
            data.zones_beside(z).any(|z2| {
                data.at(Table::LineMw, &[z, z2]) > 0
                    && data.at(Table::LineLimit, &[z, z2]) > 0
                    && data.at(Table::LineLimit, &[z2, z]) > 0
            })
        })
    }
}

impl fmt::Display for CableCount {
    fn fmt(&self, f: &mut fmt::Formatter<'_>) -> fmt::Result {
        writeln!(f, "lines between zones:")?;
        for (count, word) in self.counts() {
            writeln!(f, "  {word:36} {count:7}")?;
        }
        Ok(())
    }
}
