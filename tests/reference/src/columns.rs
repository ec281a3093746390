//! Document 01, "The plan's columns".

use crate::shape::{describe, Axis, Shape};

/// The plan's tables in the order of the plan list. Requests append at the
/// end.
#[derive(Clone, Copy, Debug, PartialEq, Eq)]
pub enum Column {
    Cap,
    Build,
    Retire,
    Gen,
    Reserve,
    Trans,
    Unmet,
    Surplus,
    SpinShort,
    FirmShort,
    // Request (i).
    Charge,
    Level,
    // Request (ii).
    Built,
    Total,
}

pub struct ColumnEntry {
    pub column: Column,
    pub name: &'static str,
    pub axes: &'static [Axis],
}

const YG: &[Axis] = &[Axis::Year, Axis::Plant];
const YGS: &[Axis] = &[Axis::Year, Axis::Plant, Axis::Slice];
const YZZS: &[Axis] = &[Axis::Year, Axis::Zone, Axis::OtherZone, Axis::Slice];
const YZS: &[Axis] = &[Axis::Year, Axis::Zone, Axis::Slice];
const YZ: &[Axis] = &[Axis::Year, Axis::Zone];
const YZZ: &[Axis] = &[Axis::Year, Axis::Zone, Axis::OtherZone];

const fn entry(column: Column, name: &'static str, axes: &'static [Axis]) -> ColumnEntry {
    ColumnEntry { column, name, axes }
}

pub const COLUMN_TABLES: usize = 14;

/// Unmet, surplus, spinshort and firmshort are in Nths of a kW, level in Nths of
/// a kWh, built and total in Nths of a line, the others in Nths of a MW.
pub const COLUMNS: [ColumnEntry; COLUMN_TABLES] = [
    entry(Column::Cap, "cap", YG),
    entry(Column::Build, "build", YG),
    entry(Column::Retire, "retire", YG),
    entry(Column::Gen, "gen", YGS),
    entry(Column::Reserve, "reserve", YGS),
    entry(Column::Trans, "trans", YZZS),
    entry(Column::Unmet, "unmet", YZS),
    entry(Column::Surplus, "surplus", YZS),
    entry(Column::SpinShort, "spinshort", YZS),
    entry(Column::FirmShort, "firmshort", YZ),
    entry(Column::Charge, "charge", YGS),
    entry(Column::Level, "level", YGS),
    entry(Column::Built, "built", YZZ),
    entry(Column::Total, "total", YZZ),
];

/// Where each table of the plan starts.
#[derive(Clone, Debug)]
pub struct ColumnLayout {
    pub shape: Shape,
    starts: [usize; COLUMN_TABLES],
    count: usize,
}

impl ColumnLayout {
    pub fn new(shape: Shape) -> ColumnLayout {
        let mut starts = [0; COLUMN_TABLES];
        let mut next = 0;
        for (start, entry) in starts.iter_mut().zip(&COLUMNS) {
            *start = next;
            next += shape.size(entry.axes);
        }
        ColumnLayout {
            shape,
            starts,
            count: next,
        }
    }

    /// The number of columns.
    pub fn count(&self) -> usize {
        self.count
    }

    /// The number of a column.
    pub fn index(&self, column: Column, indices: &[usize]) -> usize {
        let entry = &COLUMNS[column as usize];
        self.starts[column as usize] + self.shape.place(entry.axes, indices)
    }

    /// The numbers of a table's columns.
    pub fn of_table(&self, column: Column) -> std::ops::Range<usize> {
        let start = self.starts[column as usize];
        start..start + self.shape.size(COLUMNS[column as usize].axes)
    }

    /// The table and indices of a column number.
    pub fn locate(&self, number: usize) -> Option<(Column, Vec<usize>)> {
        if number >= self.count {
            return None;
        }
        let last = self.starts.iter().rposition(|&start| start <= number)?;
        let entry = &COLUMNS[last];
        let indices = self.shape.indices(entry.axes, number - self.starts[last]);
        Some((entry.column, indices))
    }

    /// A column number in words, such as `gen[y 0, g 1, s 5]`.
    pub fn name(&self, number: usize) -> String {
        match self.locate(number) {
            Some((column, indices)) => {
                let entry = &COLUMNS[column as usize];
                describe(entry.name, entry.axes, &indices)
            }
            None => format!("no column {number}"),
        }
    }
}
