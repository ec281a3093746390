//! The rows and prices of a data list as a linear program in free MPS, for a
//! solver. The page's worked example (docs/FORMAT.md, "Two years") was solved
//! from it.
//!
//! - Columns and rows stand in the order of their numbers, so that a solver
//!   which numbers its answer numbers it as the program does.
//! - Rows are read as the page reads them, a sum of terms at least −k, so that a
//!   dual is a multiplier. The objective is in money units, a millionth of the
//!   prices, and so the duals are millionths of the multipliers.
//! - Capacity outside a plant's years is left out, as planners do: its columns
//!   are fixed at 0, and the rows of family 13 are empty.
//! - A row whose multiplier is fixed is empty too; the multiplier times its
//!   coefficients is taken off the prices.

use crate::columns::Column;
use crate::model::{Model, Row};

/// Millionths of a money unit in one.
pub const MILLIONTHS: f64 = 1e6;

/// The family that holds capacity at 0 outside a plant's years.
const OUTSIDE_YEARS: usize = 13;

/// The program's text. `fixed` has rows with their multipliers.
pub fn write(model: &Model, fixed: &[(usize, i64)]) -> String {
    let rows: Vec<Row> = (0..model.rows.count())
        .map(|number| solved_row(model, fixed, number))
        .collect();
    let sections = [
        "NAME plan FREE\nROWS\n N cost\n".to_string(),
        row_lines(&rows),
        "COLUMNS\n".to_string(),
        column_lines(&rows, &prices(model, fixed)),
        "RHS\n".to_string(),
        constant_lines(&rows),
        "BOUNDS\n".to_string(),
        bound_lines(model),
        "ENDATA\n".to_string(),
    ];
    sections.concat()
}

/// A row as the solver sees it: empty where its multiplier is fixed, and in family 13.
fn solved_row(model: &Model, fixed: &[(usize, i64)], number: usize) -> Row {
    let row = model.row(number);
    let is_fixed = fixed.iter().any(|&(row, _)| row == number);
    if is_fixed || model.rows.family(number) == Some(OUTSIDE_YEARS) {
        let equality = row.equality;
        return Row {
            equality,
            ..Row::default()
        };
    }
    row
}

/// The prices less what the fixed multipliers pay.
fn prices(model: &Model, fixed: &[(usize, i64)]) -> Vec<i128> {
    let columns = 0..model.columns.count();
    let mut prices: Vec<i128> = columns.map(|column| model.price(column)).collect();
    for &(number, multiplier) in fixed {
        for (column, a) in model.row(number).terms {
            prices[column] -= i128::from(multiplier) * a;
        }
    }
    prices
}

fn row_lines(rows: &[Row]) -> String {
    let line = |(number, row): (usize, &Row)| {
        let sign = if row.equality { 'E' } else { 'G' };
        format!(" {sign} r{number}\n")
    };
    rows.iter().enumerate().map(line).collect()
}

/// Every column has a line of its price, so that none is left out of the solver's numbering.
fn column_lines(rows: &[Row], prices: &[i128]) -> String {
    let mut lines: Vec<String> = prices
        .iter()
        .enumerate()
        .map(|(column, &price)| format!(" c{column} cost {}\n", price as f64 / MILLIONTHS))
        .collect();
    for (number, row) in rows.iter().enumerate() {
        for (column, a) in &row.terms {
            lines[*column] += &format!(" c{column} r{number} {a}\n");
        }
    }
    lines.concat()
}

fn constant_lines(rows: &[Row]) -> String {
    let line = |(number, row): (usize, &Row)| match row.constant {
        0 => String::new(),
        constant => format!(" k r{number} {}\n", -constant),
    };
    rows.iter().enumerate().map(line).collect()
}

fn bound_lines(model: &Model) -> String {
    let shape = model.data.shape;
    let mut lines = String::new();
    for y in 0..shape.years {
        for g in (0..shape.plants).filter(|&g| model.is_outside_years(y, g)) {
            let column = model.columns.index(Column::Cap, &[y, g]);
            lines += &format!(" FX b c{column} 0\n");
        }
    }
    lines
}
