//! A walk written by hand, for comparison: check and certify of document 01, with
//! the requests that have landed, over plain slices, each row and each column by its
//! own terms, in document order.
//! It is tested against the second implementation, and nothing about it is proved.
//!
//! Beside it what the program `versions` times builds of the proved calls with:
//! `library`, `currency` and `products`.

pub mod columns;
pub mod currency;
pub mod library;
pub mod products;
pub mod rows;
pub mod view;

use epm_reference::refusal::{COST_OFF_SCALE, PLAN_LENGTH, SCALE};
use epm_reference::sums::LIMIT;
use epm_reference::Refusal;
use rows::Rows;
use view::View;

/// Tests data, scale and plan; answers the cost.
pub fn check(data: &[u32], scale: u32, plan: &[u32]) -> Result<u64, Refusal> {
    check_view(&View::read(data)?, scale, plan)
}

fn check_view(view: &View, scale: u32, plan: &[u32]) -> Result<u64, Refusal> {
    if !(1..=1000).contains(&scale) {
        return Err(Refusal::at(SCALE, 0));
    }
    let Some(plan) = view.split_plan(plan) else {
        return Err(Refusal::at(PLAN_LENGTH, view.columns.count()));
    };
    let rows = Rows::new(view, scale, plan);
    rows.test()?;
    match rows.cost() {
        cost if cost > LIMIT => Err(Refusal::at(COST_OFF_SCALE, 0)),
        cost => Ok(cost as u64),
    }
}

/// Tests what check tests and then the multipliers; answers cost and gap.
pub fn certify(
    data: &[u32],
    scale: u32,
    plan: &[u32],
    multipliers: &[i64],
) -> Result<(u64, u64), Refusal> {
    let view = View::read(data)?;
    let cost = check_view(&view, scale, plan)?;
    let gap = columns::gap(&view, scale, cost, multipliers)?;
    Ok((cost, gap))
}
