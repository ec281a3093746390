//! The products of a case by the lengths of their factors in bits, so that a reader of
//! the times knows how many products each way of telling a large product meets.
//!
//! They are counted in the second implementation's rows and columns, term by term. The
//! calls group some factors in another way (1000·Σ for one sum, W·Dur·price), so these
//! numbers say what kind of case it is, and not what a call executes.

use epm_reference::generator::draft::Case;
use epm_reference::model::Model;
use epm_reference::product_count::{bit_length, HALF};

/// What is known of a product by its factors alone.
#[derive(Clone, Copy, Debug, PartialEq, Eq)]
pub enum Class {
    /// Both factors are at most 2^31 − 1.
    Small,
    /// A factor is above, and the lengths add up to 62 or less: at most 2^62 − 1.
    Fits,
    /// The lengths add up to 63: above 2^62 − 1 or not.
    Close,
    /// The lengths add up to 64 or more: above 2^62 − 1, unless a factor is 0.
    Large,
}

/// All of them, in the order of the enum.
pub const CLASSES: [Class; 4] = [Class::Small, Class::Fits, Class::Close, Class::Large];

impl Class {
    pub fn of(a: u128, b: u128) -> Class {
        if a <= HALF && b <= HALF {
            return Class::Small;
        }
        match bit_length(a) + bit_length(b) {
            0..=62 => Class::Fits,
            63 => Class::Close,
            _ => Class::Large,
        }
    }

    pub fn title(self) -> &'static str {
        match self {
            Class::Small => "both factors at most 2^31 - 1",
            Class::Fits => "a factor above, lengths add up to 62 or less",
            Class::Close => "lengths add up to 63",
            Class::Large => "lengths add up to 64 or more",
        }
    }
}

/// How many products fall in each class, by place in `CLASSES`.
#[derive(Clone, Copy, Debug, Default, PartialEq, Eq)]
pub struct Counts([u64; CLASSES.len()]);

impl Counts {
    fn add(&mut self, a: i128, b: i128) {
        self.0[Class::of(a.unsigned_abs(), b.unsigned_abs()) as usize] += 1;
    }

    pub fn of(&self, class: Class) -> u64 {
        self.0[class as usize]
    }

    pub fn all(&self) -> u64 {
        self.0.iter().sum()
    }
}

/// The products of check, and those that certify makes after check.
#[derive(Clone, Copy, Debug, Default, PartialEq, Eq)]
pub struct Products {
    /// Coefficient times entry and N times constant of each row, price times entry of
    /// each column.
    pub check: Counts,
    /// Multiplier times coefficient and multiplier times constant of each row.
    pub multipliers: Counts,
}

/// Counts the products of a case with sound data. Terms and constants that are 0 make
/// none; an entry, a price or a multiplier of 0 does.
pub fn count(case: &Case) -> Products {
    let model = Model::read(&case.data).expect("sound data");
    let mut products = Products::default();
    for (number, &multiplier) in case.multipliers.iter().enumerate() {
        let row = model.row(number);
        let m = i128::from(multiplier);
        for &(column, coefficient) in &row.terms {
            let entry = i128::from(case.plan[column]);
            products.check.add(coefficient, entry);
            products.multipliers.add(coefficient, m);
        }
        if row.constant != 0 {
            products.check.add(row.constant, i128::from(case.scale));
            products.multipliers.add(row.constant, m);
        }
    }
    for (number, &entry) in case.plan.iter().enumerate() {
        products.check.add(model.price(number), i128::from(entry));
    }
    products
}
