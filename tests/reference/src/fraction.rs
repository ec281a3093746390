//! Fractions of `i128`, in lowest terms. Every operation tells where its result does
//! not fit: none is ever wrong.

use std::cmp::Ordering;

/// A fraction in lowest terms; the denominator is above 0.
#[derive(Clone, Copy, Debug, PartialEq, Eq)]
pub struct Fraction {
    pub numerator: i128,
    pub denominator: i128,
}

fn greatest_common_divisor(a: u128, b: u128) -> u128 {
    match b {
        0 => a,
        _ => greatest_common_divisor(b, a % b),
    }
}

impl Fraction {
    pub const ZERO: Fraction = Fraction {
        numerator: 0,
        denominator: 1,
    };

    pub fn whole(number: i128) -> Fraction {
        Fraction {
            numerator: number,
            denominator: 1,
        }
    }

    /// The fraction of a denominator that is not 0.
    fn of(numerator: i128, denominator: i128) -> Fraction {
        let divisor =
            greatest_common_divisor(numerator.unsigned_abs(), denominator.unsigned_abs()) as i128;
        let divisor = divisor * denominator.signum();
        Fraction {
            numerator: numerator / divisor,
            denominator: denominator / divisor,
        }
    }

    pub fn plus(self, other: Fraction) -> Option<Fraction> {
        let left = self.numerator.checked_mul(other.denominator)?;
        let right = other.numerator.checked_mul(self.denominator)?;
        let denominator = self.denominator.checked_mul(other.denominator)?;
        Some(Fraction::of(left.checked_add(right)?, denominator))
    }

    pub fn times(self, other: Fraction) -> Option<Fraction> {
        let numerator = self.numerator.checked_mul(other.numerator)?;
        let denominator = self.denominator.checked_mul(other.denominator)?;
        Some(Fraction::of(numerator, denominator))
    }

    /// One divided by the fraction, which is not 0.
    pub fn inverse(self) -> Fraction {
        Fraction::of(self.denominator, self.numerator)
    }

    pub fn negative(self) -> Fraction {
        Fraction {
            numerator: -self.numerator,
            ..self
        }
    }

    pub fn sign(self) -> i128 {
        self.numerator.signum()
    }

    pub fn compare(self, other: Fraction) -> Option<Ordering> {
        let difference = self.plus(other.negative())?;
        Some(difference.sign().cmp(&0))
    }
}

/// The least number of which every denominator is a divisor.
pub fn common_denominator(fractions: &[Fraction]) -> Option<i128> {
    fractions.iter().try_fold(1_i128, |common, fraction| {
        let part = fraction.denominator.unsigned_abs();
        let divisor = greatest_common_divisor(common.unsigned_abs(), part) as i128;
        common.checked_mul(fraction.denominator / divisor)
    })
}
