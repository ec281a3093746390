//! What a run of inputs had of products, by the lengths in bits of their two factors: what
//! request (iii) goes by. No answer of this implementation uses a length: its sums are exact.
//!
//! The factors are this implementation's, in the order in which the proved code has them:
//! coefficient and entry, N and constant, price and entry, coefficient and multiplier,
//! multiplier and constant, and the gap's totals and N. The proved code's own differ:
//!
//! - it multiplies the hours of all slices by one price, and a plant's energy in a season by
//!   one rate, where the price and the coefficient of each slice are multiplied here;
//! - it makes W·price, Dur·entry and other factors by products of their own, not counted here;
//! - it has a multiplier as two numbers, one of them 0, and a constant too, and makes the
//!   products with 0 as well; here a factor 0 counts where the number itself is 0.
//!
//! The factors of `generator::products` are those of the proved code.

use crate::generator::draft::Case;
use crate::met::absent;
use crate::model::{Model, Row};
use crate::refusal::{
    Refusal, BROKEN, COLUMN_OFF_SCALE, COST_OFF_SCALE, GAP_OFF_SCALE, MULTIPLIER, MULTIPLIER_COUNT,
    ROW_OFF_SCALE, UNDERPRICED,
};
use crate::sums::{SignedSum, LIMIT};
use std::fmt;

/// The largest number whose square is within the limit: 31 bits.
pub const HALF: u128 = (1 << 31) - 1;

/// The least number of bits that hold a number; 0 for 0. Numbers here are below 2^127.
pub fn bit_length(number: u128) -> u32 {
    let mut bits = 0;
    while number >= 1 << bits {
        bits += 1;
    }
    bits
}

/// A product by its two factors.
#[derive(Clone, Copy, Debug, PartialEq, Eq)]
pub enum Class {
    /// Both factors are at most 2^31 − 1.
    Small,
    /// A factor 0 beside one above 2^31 − 1.
    FirstZero,
    SecondZero,
    /// Lengths of 62 or less together, one factor above 2^31 − 1: the first, or the second.
    FirstLong,
    SecondLong,
    /// Lengths of 63 together, and a product within the limit or above it.
    Within63,
    Above63,
    /// Lengths of 64 together, and of more.
    At64,
    Longer,
    /// Of more than 64 together, and the lowest 64 bits of the product are within the limit:
    /// a program that takes them for the product goes on.
    Truncated,
}

pub const CLASSES: [(Class, &str); 10] = [
    (Class::Small, "both at most 2^31 - 1"),
    (Class::FirstZero, "first 0, second above 2^31 - 1"),
    (Class::SecondZero, "second 0, first above 2^31 - 1"),
    (Class::FirstLong, "62 bits or less, first above that"),
    (Class::SecondLong, "62 bits or less, second above that"),
    (Class::Within63, "63 bits, within the limit"),
    (Class::Above63, "63 bits, above the limit"),
    (Class::At64, "64 bits"),
    (Class::Longer, "65 or more, lowest 64 above"),
    (Class::Truncated, "65 or more, lowest 64 within"),
];

/// The class of two factors below 2^64.
pub fn class_of(first: u128, second: u128) -> Class {
    if first <= HALF && second <= HALF {
        return Class::Small;
    }
    if first == 0 {
        return Class::FirstZero;
    }
    if second == 0 {
        return Class::SecondZero;
    }
    match bit_length(first) + bit_length(second) {
        0..=62 if first > HALF => Class::FirstLong,
        0..=62 => Class::SecondLong,
        63 if first * second <= LIMIT => Class::Within63,
        63 => Class::Above63,
        64 => Class::At64,
        _ if first * second % (1 << 64) <= LIMIT => Class::Truncated,
        _ => Class::Longer,
    }
}

/// Counts over a run of inputs of certify.
#[derive(Clone, Debug, Default, PartialEq, Eq)]
pub struct ProductCount {
    by_class: [u64; CLASSES.len()],
    /// The gap's total below 0 times N, at 63 bits within the limit and above it, and at 64.
    below_zero: [u64; BELOW_ZERO.len()],
}

/// Nothing is added to the gap's total below 0 times N, so no sum tells what is above the
/// limit there.
const BELOW_ZERO: [(Class, &str); 3] = [
    (Class::Within63, "gap's total below 0: 63, within"),
    (Class::Above63, "gap's total below 0: 63, above"),
    (Class::At64, "gap's total below 0: 64"),
];

/// How far certify comes with a case: the rows, the prices and the columns that it values,
/// and whether it values the gap.
struct Reach {
    rows: usize,
    prices: bool,
    columns: usize,
    gap: bool,
}

impl Reach {
    /// None where a refusal comes before every product.
    fn of(answer: Result<(u64, u64), Refusal>) -> Option<Reach> {
        let all = usize::MAX;
        let reach = |rows, prices, columns, gap| Reach {
            rows,
            prices,
            columns,
            gap,
        };
        let Err(refusal) = answer else {
            return Some(reach(all, true, all, true));
        };
        let past = refusal.place as usize + 1;
        match refusal.number {
            ROW_OFF_SCALE | BROKEN => Some(reach(past, false, 0, false)),
            COST_OFF_SCALE | MULTIPLIER_COUNT | MULTIPLIER => Some(reach(all, true, 0, false)),
            COLUMN_OFF_SCALE | UNDERPRICED => Some(reach(all, true, past, false)),
            GAP_OFF_SCALE => Some(reach(all, true, all, true)),
            _ => None,
        }
    }
}

impl ProductCount {
    /// Counts the products of an input up to certify's answer to it.
    pub fn count(&mut self, case: &Case, answer: Result<(u64, u64), Refusal>) {
        let Some(reach) = Reach::of(answer) else {
            return;
        };
        let model = Model::read(&case.data).expect("products come after the data");
        let mut total = SignedSum::default();
        for number in 0..model.rows.count().min(reach.rows) {
            let row = model.row(number);
            self.count_row(case, &row);
            if reach.columns > 0 {
                self.count_columns(case.multipliers[number], &row, reach.columns);
            }
            if reach.gap {
                let multiplier = i128::from(case.multipliers[number]);
                self.add(multiplier, row.constant);
                total.add(multiplier * row.constant);
            }
        }
        if reach.prices {
            for (number, &entry) in case.plan.iter().enumerate() {
                self.add(model.price(number), entry.into());
            }
        }
        if reach.gap && !total.is_off_scale() {
            self.count_gap(total, case.scale.into());
        }
    }

    fn count_row(&mut self, case: &Case, row: &Row) {
        for &(column, coefficient) in &row.terms {
            self.add(coefficient, case.plan[column].into());
        }
        self.add(case.scale.into(), row.constant);
    }

    fn count_columns(&mut self, multiplier: i64, row: &Row, columns: usize) {
        for &(_, coefficient) in row.terms.iter().filter(|(column, _)| *column < columns) {
            self.add(coefficient, multiplier.into());
        }
    }

    fn count_gap(&mut self, total: SignedSum, scale: u128) {
        self.add_class(class_of(total.positive, scale));
        let class = class_of(total.negative, scale);
        self.add_class(class);
        if let Some(at) = BELOW_ZERO.iter().position(|&(counted, _)| counted == class) {
            self.below_zero[at] += 1;
        }
    }

    fn add(&mut self, first: i128, second: i128) {
        self.add_class(class_of(first.unsigned_abs(), second.unsigned_abs()));
    }

    fn add_class(&mut self, class: Class) {
        self.by_class[class as usize] += 1;
    }

    /// Each count with what it counts.
    fn counts(&self) -> Vec<(u64, &'static str)> {
        let words = |classes: &[(Class, &'static str)]| {
            classes.iter().map(|(_, word)| *word).collect::<Vec<_>>()
        };
        let all = self.by_class.iter().zip(words(&CLASSES));
        let below = self.below_zero.iter().zip(words(&BELOW_ZERO));
        all.chain(below)
            .map(|(&count, word)| (count, word))
            .collect()
    }

    /// The counts that are 0, in words.
    pub fn missing(&self) -> Vec<String> {
        absent(&self.counts())
    }
}

impl fmt::Display for ProductCount {
    fn fmt(&self, f: &mut fmt::Formatter<'_>) -> fmt::Result {
        writeln!(f, "products by the lengths of their factors:")?;
        for (count, word) in self.counts() {
            writeln!(f, "  {word:36} {count:9}")?;
        }
        Ok(())
    }
}
