//! Sums measured by sign, exact.
//!
//! Document 01 caps sums at 2^62 − 1. Here every sum is taken exactly and then
//! compared with the limit. The sums fit `u128`:
//!
//! - a coefficient of a row is below 2^47 (family 18, R·V·Annuity), a price
//!   below 2^60 (gen, W·Dur·(GenCost + Tax·E)), a constant below 2^62
//!   (family 18, 10^9·MaxCapital);
//! - an entry is below 2^32, a multiplier at most 2^40, N at most 2^10;
//! - there are below 2^20 columns and below 2^21 rows.
//!
//! So a row's sum is below 2^(47+32+20) + 2^(10+62), the cost below
//! 2^(60+32+20) and a column's sum below 2^(40+47+21). Family 18 has one row
//! and every other constant is below 2^45 (family 1, Demand·EE; families 3 and 4,
//! 1000·TL of at most seven links), so a sum of N·m·k is below
//! 2^(10+40+62) + 2^(10+40+45+21). All are below 2^119.

/// The largest sum that is on scale.
pub const LIMIT: u128 = (1 << 62) - 1;

/// The positive and the negative terms of a sum, summed apart.
#[derive(Clone, Copy, Debug, Default, PartialEq, Eq)]
pub struct SignedSum {
    pub positive: u128,
    pub negative: u128,
}

impl SignedSum {
    pub fn add(&mut self, term: i128) {
        if term >= 0 {
            self.positive += term.unsigned_abs();
        } else {
            self.negative += term.unsigned_abs();
        }
    }

    pub fn is_off_scale(&self) -> bool {
        self.positive > LIMIT || self.negative > LIMIT
    }

    /// The positive less the negative terms; both are below 2^119.
    pub fn value(&self) -> i128 {
        self.positive as i128 - self.negative as i128
    }
}
