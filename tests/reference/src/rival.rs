//! Rival plans of demand 3: the same a, k and c, entries in Mths, exact sums
//! without a limit.
//!
//! Entries are naturals below 2^128 and M is any `u64` from 1. A coefficient or
//! price is below 2^60, a constant below 2^62, and there are below 2^20 columns,
//! so every sum is below 2^(60+128+20) + 2^(62+64) < 2^209. The product of a
//! cost with N or M is below 2^(209+64), which may need more than 256 bits only
//! for entries of more than 110 bits; `Wide` panics in that case and never
//! answers wrongly.

use crate::model::Model;
use crate::refusal::Refusal;
use crate::wide::Wide;

/// What a rival plan comes to.
#[derive(Clone, Copy, Debug, PartialEq, Eq)]
pub struct Evaluation {
    /// The first row that does not hold; none when all equations are met.
    pub first_broken: Option<usize>,
    /// Σ c·entry, in millionths of a money unit, in Mths.
    pub cost: Wide,
}

/// Why a rival plan was not read.
#[derive(Clone, Copy, Debug, PartialEq, Eq)]
pub enum Fault {
    /// The data itself is refused.
    Data(Refusal),
    /// M is 0.
    Scale,
    /// The entries are not as many as the columns.
    Length,
}

/// Tests every row of every family on a rival plan in Mths.
pub fn evaluate(data: &[u32], scale: u64, entries: &[u128]) -> Result<Evaluation, Fault> {
    let model = Model::read(data).map_err(Fault::Data)?;
    if scale == 0 {
        return Err(Fault::Scale);
    }
    if entries.len() != model.columns.count() {
        return Err(Fault::Length);
    }
    let first_broken =
        (0..model.rows.count()).find(|&number| !row_holds(&model, number, scale, entries));
    Ok(Evaluation {
        first_broken,
        cost: cost(&model, entries),
    })
}

fn row_holds(model: &Model, number: usize, scale: u64, entries: &[u128]) -> bool {
    let row = model.row(number);
    let mut positive = Wide::ZERO;
    let mut negative = Wide::ZERO;
    let scaled = (row.constant, u128::from(scale));
    let terms = row.terms.iter().map(|&(column, a)| (a, entries[column]));
    for (coefficient, entry) in terms.chain([scaled]) {
        let term = Wide::product(coefficient.unsigned_abs(), entry);
        if coefficient >= 0 {
            positive = positive.plus(term);
        } else {
            negative = negative.plus(term);
        }
    }
    if row.equality {
        positive == negative
    } else {
        positive >= negative
    }
}

fn cost(model: &Model, entries: &[u128]) -> Wide {
    let mut cost = Wide::ZERO;
    for (number, &entry) in entries.iter().enumerate() {
        let price = model.price(number).unsigned_abs();
        cost = cost.plus(Wide::product(price, entry));
    }
    cost
}

/// Whether a rival of this cost in Mths is within what a certificate at scale N
/// allows: N·cost(rival) ≥ M·(cost − gap). Cost less gap may be below 0.
pub fn within_certificate(
    rival_cost: Wide,
    rival_scale: u64,
    certificate: (u64, u64),
    scale: u32,
) -> bool {
    let (cost, gap) = certificate;
    let bound = u128::from(cost.saturating_sub(gap));
    let least = Wide::product(bound, u128::from(rival_scale));
    rival_cost.times(u64::from(scale)) >= least
}
