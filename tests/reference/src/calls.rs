//! Document 01, "Calls": check, certify and post, with the tests in the order
//! of "Refusals by number"; 16 comes with the tests of the data, after 3.

use crate::columns::Column;
use crate::model::{Model, Row};
use crate::refusal::{
    Refusal, BOARD, BROKEN, COLUMN_OFF_SCALE, COST_OFF_SCALE, GAP_OFF_SCALE, MULTIPLIER,
    MULTIPLIER_COUNT, PLAN_LENGTH, ROW_OFF_SCALE, SCALE, UNDERPRICED,
};
use crate::rows::FAMILIES;
use crate::sums::{SignedSum, LIMIT};

/// N is 1..1000.
pub const LARGEST_SCALE: u32 = 1000;

/// Multipliers are −2^40..2^40 in the families of equalities, 1, 12, 21, 26 and 28, and
/// 0..2^40 elsewhere. The range goes by family: rows of 21 and 28 that read 0 ≥ 0 take
/// both signs too (docs/DECISIONS.md, "Multipliers and gap").
pub const LARGEST_MULTIPLIER: i64 = 1 << 40;

/// Tests data, scale and plan; answers the cost.
pub fn check(data: &[u32], scale: u32, plan: &[u32]) -> Result<u64, Refusal> {
    let model = Model::read(data)?;
    check_plan(&model, scale, plan)
}

/// Tests what check tests and then the multipliers; answers cost and gap.
pub fn certify(
    data: &[u32],
    scale: u32,
    plan: &[u32],
    multipliers: &[i64],
) -> Result<(u64, u64), Refusal> {
    let model = Model::read(data)?;
    let cost = check_plan(&model, scale, plan)?;
    check_multipliers(&model, multipliers)?;
    check_column_prices(&model, multipliers)?;
    let gap = gap(&model, scale, cost, multipliers)?;
    Ok((cost, gap))
}

/// Tests what check tests and then year and start; writes the year's part of
/// the gen table to the board from `start` on; answers the cost. On a refusal
/// the board keeps every number.
pub fn post(
    data: &[u32],
    scale: u32,
    plan: &[u32],
    year: usize,
    board: &mut [u32],
    start: usize,
) -> Result<u64, Refusal> {
    let model = Model::read(data)?;
    let cost = check_plan(&model, scale, plan)?;
    let shape = model.data.shape;
    let length = shape.plants * shape.slices();
    // `start` may be any number, so the places left are found by subtraction.
    let places_left = board.len().saturating_sub(start);
    if year >= shape.years || places_left < length {
        return Err(Refusal::at(BOARD, 0));
    }
    let first = model.columns.index(Column::Gen, &[year, 0, 0]);
    board[start..start + length].copy_from_slice(&plan[first..first + length]);
    Ok(cost)
}

/// Refusals 4 to 8.
fn check_plan(model: &Model, scale: u32, plan: &[u32]) -> Result<u64, Refusal> {
    if !(1..=LARGEST_SCALE).contains(&scale) {
        return Err(Refusal::at(SCALE, 0));
    }
    if plan.len() != model.columns.count() {
        return Err(Refusal::at(PLAN_LENGTH, model.columns.count()));
    }
    for number in 0..model.rows.count() {
        let row = model.row(number);
        let value = row_value(&row, scale, plan);
        if value.is_off_scale() {
            return Err(Refusal::at(ROW_OFF_SCALE, number));
        }
        if !row.holds_at(value.value()) {
            return Err(Refusal::at(BROKEN, number));
        }
    }
    let cost = model.cost(plan);
    if cost > LIMIT {
        return Err(Refusal::at(COST_OFF_SCALE, 0));
    }
    Ok(cost as u64)
}

/// Σ a·entry + N·k by sign.
pub fn row_value(row: &Row, scale: u32, plan: &[u32]) -> SignedSum {
    let mut sum = SignedSum::default();
    for &(column, coefficient) in &row.terms {
        sum.add(coefficient * i128::from(plan[column]));
    }
    sum.add(i128::from(scale) * row.constant);
    sum
}

/// Refusals 9 and 10.
fn check_multipliers(model: &Model, multipliers: &[i64]) -> Result<(), Refusal> {
    if multipliers.len() != model.rows.count() {
        return Err(Refusal::at(MULTIPLIER_COUNT, model.rows.count()));
    }
    for (number, &multiplier) in multipliers.iter().enumerate() {
        let family = model.rows.family(number).expect("a row number");
        let least = if FAMILIES[family - 1].equality {
            -LARGEST_MULTIPLIER
        } else {
            0
        };
        if multiplier < least || multiplier > LARGEST_MULTIPLIER {
            return Err(Refusal::at(MULTIPLIER, number));
        }
    }
    Ok(())
}

/// Refusals 11 and 12: c ≥ Σ m·a for every column, "terms of each sign are
/// capped". The terms are m·a, so the price itself is in neither sum
/// (docs/DECISIONS.md, "Multipliers and gap": "A column's own price").
fn check_column_prices(model: &Model, multipliers: &[i64]) -> Result<(), Refusal> {
    for (number, load) in column_loads(model, multipliers).iter().enumerate() {
        if load.is_off_scale() {
            return Err(Refusal::at(COLUMN_OFF_SCALE, number));
        }
        if model.price(number) < load.value() {
            return Err(Refusal::at(UNDERPRICED, number));
        }
    }
    Ok(())
}

/// Σ m·a of every column by sign, gathered row by row.
pub fn column_loads(model: &Model, multipliers: &[i64]) -> Vec<SignedSum> {
    let mut loads = vec![SignedSum::default(); model.columns.count()];
    for (number, &multiplier) in multipliers.iter().enumerate() {
        if multiplier != 0 {
            for (column, coefficient) in model.row(number).terms {
                loads[column].add(i128::from(multiplier) * coefficient);
            }
        }
    }
    loads
}

/// Refusal 13, then cost + N·Σ m·k.
///
/// The gap is not below 0: every column is priced well and every row holds, so
/// cost ≥ Σ m·(value − N·k) ≥ −N·Σ m·k. It is at most 2·(2^62 − 1).
fn gap(model: &Model, scale: u32, cost: u64, multipliers: &[i64]) -> Result<u64, Refusal> {
    let mut sum = SignedSum::default();
    for (number, &multiplier) in multipliers.iter().enumerate() {
        if multiplier != 0 {
            let constant = model.row(number).constant;
            sum.add(i128::from(scale) * i128::from(multiplier) * constant);
        }
    }
    if sum.is_off_scale() {
        return Err(Refusal::at(GAP_OFF_SCALE, 0));
    }
    let gap = i128::from(cost) + sum.value();
    Ok(u64::try_from(gap).expect("a gap is not below 0"))
}
