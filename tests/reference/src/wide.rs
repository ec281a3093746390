//! Natural numbers of 256 bits, for the exact sums of rival plans.

use std::fmt;

/// high·2^128 + low. The derived order compares `high` first.
#[derive(Clone, Copy, Debug, Default, PartialEq, Eq, PartialOrd, Ord)]
pub struct Wide {
    high: u128,
    low: u128,
}

const HALF: u128 = u64::MAX as u128;

impl Wide {
    pub const ZERO: Wide = Wide { high: 0, low: 0 };

    pub fn from_u128(low: u128) -> Wide {
        Wide { high: 0, low }
    }

    /// The exact product of two 128-bit numbers, by halves of 64 bits.
    pub fn product(left: u128, right: u128) -> Wide {
        let (left_high, left_low) = (left >> 64, left & HALF);
        let (right_high, right_low) = (right >> 64, right & HALF);
        let low = Wide::from_u128(left_low * right_low);
        let middle_one = Wide::shifted_64(left_high * right_low);
        let middle_two = Wide::shifted_64(left_low * right_high);
        let high = Wide {
            high: left_high * right_high,
            low: 0,
        };
        low.plus(middle_one).plus(middle_two).plus(high)
    }

    fn shifted_64(number: u128) -> Wide {
        Wide {
            high: number >> 64,
            low: number << 64,
        }
    }

    /// The exact sum. Panics when it needs more than 256 bits.
    pub fn plus(self, other: Wide) -> Wide {
        let (low, carry) = self.low.overflowing_add(other.low);
        let high = self
            .high
            .checked_add(other.high)
            .and_then(|high| high.checked_add(u128::from(carry)))
            .expect("a sum of 256 bits");
        Wide { high, low }
    }

    /// The exact product with a small number. Panics when it needs more than
    /// 256 bits.
    pub fn times(self, factor: u64) -> Wide {
        let factor = u128::from(factor);
        let high = Wide::product(self.high, factor);
        assert_eq!(high.high, 0, "a product of 256 bits");
        let shifted = Wide {
            high: high.low,
            low: 0,
        };
        Wide::product(self.low, factor).plus(shifted)
    }

    /// The number, when it fits 128 bits.
    pub fn to_u128(self) -> Option<u128> {
        (self.high == 0).then_some(self.low)
    }
}

impl fmt::Display for Wide {
    fn fmt(&self, f: &mut fmt::Formatter<'_>) -> fmt::Result {
        if self.high == 0 {
            write!(f, "{}", self.low)
        } else {
            write!(f, "0x{:x}{:032x}", self.high, self.low)
        }
    }
}
