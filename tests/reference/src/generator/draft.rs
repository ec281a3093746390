//! The inputs of the three calls, and access to them by table and indices.

use super::random::Random;
use crate::columns::{Column, ColumnLayout};
use crate::data::{read_shape, DataLayout, Table};
use crate::rows::RowLayout;
use crate::shape::Shape;

/// The inputs of check, certify and post together.
#[derive(Clone, Debug, Default, PartialEq, Eq)]
pub struct Case {
    pub data: Vec<u32>,
    pub scale: u32,
    pub plan: Vec<u32>,
    pub multipliers: Vec<i64>,
    pub year: usize,
    pub board: Vec<u32>,
    pub start: usize,
}

/// A case under construction, of a known shape.
#[derive(Clone, Debug)]
pub struct Draft {
    pub shape: Shape,
    pub case: Case,
    pub layout: DataLayout,
    pub columns: ColumnLayout,
    pub rows: RowLayout,
}

impl Draft {
    /// All zero but for the counts and the scale.
    pub fn empty(shape: Shape, scale: u32) -> Draft {
        let layout = DataLayout::new(shape);
        let columns = ColumnLayout::new(shape);
        let rows = RowLayout::new(shape);
        let mut data = vec![0; layout.length()];
        for (place, count) in shape.counts().iter().enumerate() {
            data[place] = *count as u32;
        }
        let case = Case {
            data,
            scale,
            plan: vec![0; columns.count()],
            multipliers: vec![0; rows.count()],
            year: 0,
            board: vec![0; shape.plants * shape.slices()],
            start: 0,
        };
        Draft {
            shape,
            case,
            layout,
            columns,
            rows,
        }
    }

    /// A case whose data have the length that their counts give.
    pub fn of(case: Case) -> Draft {
        let shape = read_shape(&case.data).expect("counts in range");
        Draft {
            case,
            ..Draft::empty(shape, 1)
        }
    }

    /// N.
    pub fn scale(&self) -> i128 {
        i128::from(self.case.scale)
    }

    pub fn data(&self, table: Table, indices: &[usize]) -> i128 {
        i128::from(self.case.data[self.layout.index(table, indices)])
    }

    pub fn set_data(&mut self, table: Table, indices: &[usize], value: i128) {
        let index = self.layout.index(table, indices);
        self.case.data[index] = u32::try_from(value).expect("a data entry of 32 bits");
    }

    pub fn entry(&self, column: Column, indices: &[usize]) -> i128 {
        i128::from(self.case.plan[self.columns.index(column, indices)])
    }

    pub fn set_entry(&mut self, column: Column, indices: &[usize], value: i128) {
        let index = self.columns.index(column, indices);
        self.case.plan[index] = u32::try_from(value).expect("a plan entry of 32 bits");
    }

    pub fn multiplier(&self, family: usize, indices: &[usize]) -> i128 {
        i128::from(self.case.multipliers[self.rows.index(family, indices)])
    }

    pub fn set_multiplier(&mut self, family: usize, indices: &[usize], value: i128) {
        let index = self.rows.index(family, indices);
        self.case.multipliers[index] = i64::try_from(value).expect("a multiplier of 64 bits");
    }

    pub fn is_candidate(&self, plant: usize) -> bool {
        self.data(Table::Kind, &[plant]) == 1
    }

    pub fn is_vre(&self, plant: usize) -> bool {
        self.data(Table::Vre, &[plant]) == 1
    }

    pub fn is_battery(&self, plant: usize) -> bool {
        self.data(Table::Battery, &[plant]) == 1
    }

    pub fn zone_of(&self, plant: usize) -> usize {
        self.data(Table::Zone, &[plant]) as usize
    }

    pub fn plants_in(&self, zone: usize) -> Vec<usize> {
        (0..self.shape.plants)
            .filter(|&plant| self.zone_of(plant) == zone)
            .collect()
    }

    pub fn zones_beside(&self, zone: usize) -> Vec<usize> {
        (0..self.shape.zones).filter(|&z| z != zone).collect()
    }

    /// What the lines of a link carry in a year, from z to z2, in Nths of a MW.
    pub fn line_capacity(&self, y: usize, z: usize, z2: usize) -> i128 {
        self.data(Table::LineMw, &[z, z2]) * self.entry(Column::Total, &[y, z, z2])
    }

    /// Lines built in a year, or fewer where the change is below 0; the totals of that year
    /// and of those after it follow, as family 26 asks.
    pub fn build_lines(&mut self, [y, z, z2]: [usize; 3], change: i128) -> Option<()> {
        self.raise(Column::Built, &[y, z, z2], change)?;
        for later in y..self.shape.years {
            self.raise(Column::Total, &[later, z, z2], change)?;
        }
        Some(())
    }

    /// Adds to a plan entry; none where the result does not fit.
    pub fn raise(&mut self, column: Column, indices: &[usize], change: i128) -> Option<()> {
        let value = self.entry(column, indices) + change;
        u32::try_from(value).ok()?;
        self.set_entry(column, indices, value);
        Some(())
    }

    /// All pairs of zones whose first is below the second.
    pub fn pairs(&self) -> Vec<[usize; 2]> {
        let zones = 0..self.shape.zones;
        zones.flat_map(|z2| (0..z2).map(move |z| [z, z2])).collect()
    }

    pub fn is_minimum_load_day(&self, slice: usize) -> bool {
        let day = [self.shape.season_of(slice), self.shape.day_of(slice)];
        self.data(Table::MinimumLoadDay, &day) == 1
    }

    /// A plant's capacity in a year, in Nths of a MW.
    pub fn cap(&self, year: usize, plant: usize) -> i128 {
        self.entry(Column::Cap, &[year, plant])
    }

    pub fn gen(&self, year: usize, plant: usize, slice: usize) -> i128 {
        self.entry(Column::Gen, &[year, plant, slice])
    }

    /// A year, a board and a start place that post accepts.
    pub fn draw_board(&mut self, random: &mut Random) {
        let part = self.shape.plants * self.shape.slices();
        let before = random.below(9) as usize;
        let after = random.below(9) as usize;
        self.case.year = random.below(self.shape.years as u64) as usize;
        self.case.start = before;
        self.case.board = (0..before + part + after)
            .map(|_| random.bits() as u32)
            .collect();
    }
}
