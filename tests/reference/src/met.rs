//! Which refusals a run of inputs met, and where: a row by its family, a column
//! or an entry by its table.

use crate::columns::{Column, ColumnLayout, COLUMNS};
use crate::data::{read_shape, DataLayout, Range, TABLES};
use crate::refusal::{
    Refusal, BROKEN, COLUMN_OFF_SCALE, ENTRY, MULTIPLIER, ROW_OFF_SCALE, UNDERPRICED, WORDS,
};
use crate::rows::{RowLayout, FAMILIES, FAMILY_COUNT, NO_NUMBER};
use std::collections::BTreeMap;
use std::fmt::Write;

/// Counts over a run of inputs.
#[derive(Clone, Debug, Default, PartialEq, Eq)]
pub struct Met {
    refusals: BTreeMap<u32, u64>,
    /// By refusal and by family or table.
    places: BTreeMap<(u32, String), u64>,
}

/// The names of what a refusal's place may be: families, tables of columns, tables
/// of the data, or nothing where the place is none of these. Of the rows and columns
/// only these can pass 2^62 − 1 with entries of 32 bits; of the tables of the data
/// those without a range cannot be refused.
fn names(number: u32) -> Vec<String> {
    match number {
        ENTRY => TABLES
            .iter()
            .filter(|entry| entry.range != Range::Any)
            .map(|entry| entry.name.to_string())
            .collect(),
        ROW_OFF_SCALE => [2, 3, 17, 18, 19].map(family_name).into(),
        BROKEN | MULTIPLIER => (1..=FAMILY_COUNT).map(family_name).collect(),
        COLUMN_OFF_SCALE => [Column::Cap, Column::Gen, Column::Total]
            .map(table_name)
            .into(),
        UNDERPRICED => COLUMNS
            .iter()
            .map(|entry| table_name(entry.column))
            .collect(),
        _ => vec![],
    }
}

fn family_name(family: usize) -> String {
    let entry = &FAMILIES[family - 1];
    match entry.equation {
        NO_NUMBER => format!("family {family} {}", entry.name),
        equation => format!("family {family} ({equation})"),
    }
}

fn table_name(column: Column) -> String {
    COLUMNS[column as usize].name.to_string()
}

/// The words whose count is 0.
pub fn absent(counts: &[(u64, &str)]) -> Vec<String> {
    let absent = counts.iter().filter(|(count, _)| *count == 0);
    absent.map(|(_, word)| word.to_string()).collect()
}

impl Met {
    /// Counts a refusal that was given to these data.
    pub fn count(&mut self, data: &[u32], refusal: Refusal) {
        *self.refusals.entry(refusal.number).or_default() += 1;
        let place = refusal.place as usize;
        let shape = || read_shape(data).expect("places come after the counts");
        let name = match refusal.number {
            ENTRY => {
                let (table, _) = DataLayout::new(shape()).locate(place).expect("an entry");
                TABLES[table as usize].name.to_string()
            }
            ROW_OFF_SCALE | BROKEN | MULTIPLIER => {
                family_name(RowLayout::new(shape()).family(place).expect("a row"))
            }
            COLUMN_OFF_SCALE | UNDERPRICED => table_name(
                ColumnLayout::new(shape())
                    .locate(place)
                    .expect("a column")
                    .0,
            ),
            _ => return,
        };
        *self.places.entry((refusal.number, name)).or_default() += 1;
    }

    pub fn refusals(&self, number: u32) -> u64 {
        self.refusals.get(&number).copied().unwrap_or(0)
    }

    fn places(&self, number: u32, name: &str) -> u64 {
        let key = (number, name.to_string());
        self.places.get(&key).copied().unwrap_or(0)
    }

    /// The refusals among these that no input met, in words.
    pub fn missing(&self, numbers: &[u32]) -> Vec<String> {
        let absent = numbers.iter().filter(|&&number| self.refusals(number) == 0);
        absent.map(|number| format!("refusal {number}")).collect()
    }

    /// The families and tables that no input met with one of these refusals.
    pub fn missing_places(&self, numbers: &[u32]) -> Vec<String> {
        let mut missing = vec![];
        for &number in numbers {
            let absent = names(number)
                .into_iter()
                .filter(|name| self.places(number, name) == 0);
            missing.extend(absent.map(|name| format!("refusal {number}, {name}")));
        }
        missing
    }

    /// How many of the families or tables of a refusal were met, and how many there are.
    pub fn named(&self, number: u32) -> (usize, usize) {
        let names = names(number);
        let met = names.iter().filter(|name| self.places(number, name) > 0);
        (met.count(), names.len())
    }

    /// The counts of these refusals on one line.
    pub fn line(&self, numbers: &[u32]) -> String {
        let counts = numbers
            .iter()
            .map(|&number| format!("{number}: {}", self.refusals(number)));
        counts.collect::<Vec<String>>().join(", ")
    }

    /// The counts of these refusals, one to a line, each with those of its places.
    pub fn table(&self, numbers: &[u32]) -> String {
        let mut table = String::new();
        let mut line = |word: &str, count: u64| {
            writeln!(table, "  {word:32} {count:7}").expect("a string takes any line");
        };
        for &number in numbers {
            let word = format!("{number:2} {}", WORDS[number as usize - 1]);
            line(&word, self.refusals(number));
            for name in names(number) {
                line(&format!("     {name}"), self.places(number, &name));
            }
        }
        table
    }
}
