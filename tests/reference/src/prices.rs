//! Document 01, "Cost, multipliers and gap": the price c of each column, in
//! millionths of a money unit, and the cost.

use crate::columns::Column;
use crate::data::Table;
use crate::model::Model;

impl Model<'_> {
    /// The price of a column number below `columns.count()`. Never below 0.
    pub fn price(&self, number: usize) -> i128 {
        let (column, indices) = self.columns.locate(number).expect("a column number");
        self.price_of(column, &indices)
    }

    pub fn price_of(&self, column: Column, i: &[usize]) -> i128 {
        let data = &self.data;
        let weight = data.year_weight(i[0]);
        let weighted_hours = |slice: usize| weight * data.duration(slice);
        match column {
            Column::Cap => weight * self.capacity_price(i[0], i[1]),
            Column::Build | Column::Retire | Column::Trans => 0,
            Column::Charge | Column::Level | Column::Built => 0,
            Column::Gen => weighted_hours(i[2]) * self.generation_price(i[0], i[1]),
            Column::Reserve => weighted_hours(i[2]) * data.at(Table::ResCost, &[i[1]]),
            Column::Unmet => weighted_hours(i[2]) * data.single(Table::Voll),
            Column::Surplus => weighted_hours(i[2]) * data.single(Table::SurplusPenalty),
            Column::SpinShort => weighted_hours(i[2]) * data.single(Table::SresVoll),
            Column::FirmShort => weight * data.single(Table::ResVoll),
            Column::Total => weight * self.line_price(i[1], i[2]),
        }
    }

    /// FixedOM + Annuity, the latter for candidates.
    fn capacity_price(&self, y: usize, g: usize) -> i128 {
        let fixed = self.data.at(Table::FixedOm, &[y, g]);
        if self.data.is_candidate(g) {
            fixed + self.data.at(Table::Annuity, &[y, g])
        } else {
            fixed
        }
    }

    /// GenCost + Tax·E. Money units per ton times kg per MWh are mills per MWh.
    fn generation_price(&self, y: usize, g: usize) -> i128 {
        let tax = self.data.at(Table::Tax, &[y]) * self.data.at(Table::Emission, &[g]);
        self.data.at(Table::GenCost, &[y, g]) + tax
    }

    /// The annuity of the pair with the lower zone first. The total of the other
    /// direction is the same by family 28 and pays nothing, so that a line pays once.
    fn line_price(&self, z: usize, z2: usize) -> i128 {
        if z < z2 {
            self.data.at(Table::LineAnnuity, &[z, z2])
        } else {
            0
        }
    }

    /// Σ c·entry, exact. The plan has as many entries as there are columns.
    pub fn cost(&self, plan: &[u32]) -> u128 {
        let mut cost = 0;
        for (number, &entry) in plan.iter().enumerate() {
            cost += self.price(number).unsigned_abs() * u128::from(entry);
        }
        cost
    }
}
