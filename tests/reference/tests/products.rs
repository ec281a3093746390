//! Request (iii), products by the lengths of their two factors: how lengths are counted,
//! cases worked out by hand, and the seeded cases of `generator::products`.
//! `agreement/tests/products.rs` puts such cases to the proved calls.

use epm_reference::certify;
use epm_reference::generator::products::{edges, Edge, Product, PRODUCTS};
use epm_reference::product_count::{bit_length, class_of, Class, ProductCount, CLASSES};
use epm_reference::refusal::{
    BROKEN, COLUMN_OFF_SCALE, COST_OFF_SCALE, GAP_OFF_SCALE, ROW_OFF_SCALE,
};
use epm_reference::Refusal;

const SEEDS: u64 = 20;

/// The largest entry of a table or plan, and the largest budget.
const WIDEST: i128 = (1 << 32) - 1;
const BUDGET: i128 = 1_000_000_000 * WIDEST;

fn answer(edge: &Edge) -> Result<(u64, u64), Refusal> {
    let case = &edge.case;
    certify(&case.data, case.scale, &case.plan, &case.multipliers)
}

/// The least number of bits that hold a number, on both sides of every power of 2.
#[test]
fn lengths_in_bits() {
    assert_eq!(bit_length(0), 0);
    assert_eq!(bit_length(1), 1);
    for bits in 1..=64 {
        assert_eq!(bit_length((1 << bits) - 1), bits);
        assert_eq!(bit_length(1 << bits), bits + 1);
    }
}

/// Both sides of every border between two classes.
#[test]
fn classes_of_products() {
    let power = |exponent: u32| 1_u128 << exponent;
    let (half, largest) = (power(31) - 1, power(64) - 1);
    for (first, second, class) in [
        (0, 0, Class::Small),
        (0, half, Class::Small),
        (half, half, Class::Small),
        (0, half + 1, Class::FirstZero),
        (half + 1, 0, Class::SecondZero),
        (0, largest, Class::FirstZero),
        (largest, 0, Class::SecondZero),
        (half + 1, 1, Class::FirstLong),
        (1, half + 1, Class::SecondLong),
        // 62 bits together, and 63.
        (half + 1, power(30) - 1, Class::FirstLong),
        (half + 1, power(30), Class::Within63),
        (power(30) - 1, half + 1, Class::SecondLong),
        (power(30), half + 1, Class::Within63),
        (power(61) - 1, 1, Class::FirstLong),
        (power(61), 1, Class::Within63),
        // 2^62 - 1, by two pairs of factors, and 2^62 + 2^31 - 2.
        (power(62) - 1, 1, Class::Within63),
        (half + 2, half, Class::Within63),
        (half + 3, half, Class::Above63),
        // The largest of 63 bits together, and 64.
        (power(32) - 1, half, Class::Above63),
        (power(32) - 1, half + 1, Class::At64),
        (power(62), 1, Class::At64),
        (half + 1, half + 1, Class::At64),
        (power(32) - 1, power(32) - 1, Class::At64),
        // 2^63 and 2^64 - 1, of 65 bits together; 2^64.
        (power(63), 1, Class::Longer),
        (power(32) + 1, power(32) - 1, Class::Longer),
        (power(32), power(32), Class::Truncated),
        // 2^64 + 2^62 - 5 and 2^64 + 2^62.
        (power(62) - 1, 5, Class::Truncated),
        (power(62), 5, Class::Longer),
        (largest, largest, Class::Truncated),
    ] {
        assert_eq!(class_of(first, second), class, "{first}·{second}");
    }
    // The words of the counts stand in the order of the classes.
    for (place, (class, word)) in CLASSES.into_iter().enumerate() {
        assert_eq!(class as usize, place, "{word}");
    }
}

/// One product of each kind, on scale and off it: the factors and what certify has to answer.
#[test]
fn answers_worked_out_by_hand() {
    let off_scale = Refusal::at(GAP_OFF_SCALE, 0);
    let dear = Refusal::at(COST_OFF_SCALE, 0);
    for (product, factors, expected) in [
        // 2^40·2^21, and 2^40·2^22 = 2^62.
        (
            Product::MultiplierAndLink,
            [1 << 40, 1 << 21],
            Ok((0, 1 << 61)),
        ),
        (
            Product::MultiplierAndLink,
            [1 << 40, 1 << 22],
            Err(off_scale),
        ),
        (
            Product::MultiplierAndBudget,
            [1, BUDGET],
            Ok((0, 4_294_967_295_000_000_000)),
        ),
        (Product::MultiplierAndBudget, [2, BUDGET], Err(off_scale)),
        // 3·2^60 is on scale and 3·3·2^59 is not.
        (Product::TotalAboveAndScale, [1 << 60, 3], Ok((0, 3 << 60))),
        (Product::TotalAboveAndScale, [3 << 59, 3], Err(off_scale)),
        // Half of the total below 0 is paid; from 2^63 on that half is off scale itself.
        (Product::TotalBelowAndScale, [1 << 60, 3], Ok((3 << 59, 0))),
        (Product::TotalBelowAndScale, [3 << 59, 3], Err(off_scale)),
        (Product::TotalBelowAndScale, [1 << 61, 4], Err(dear)),
        (
            Product::AnnuityAndMultiplier,
            [1 << 31, 1 << 30],
            Ok((0, 0)),
        ),
        (
            Product::PriceAndCapacity,
            [1 << 31, 1 << 30],
            Ok((1 << 61, 1 << 61)),
        ),
        (Product::PriceAndCapacity, [1 << 31, 1 << 31], Err(dear)),
        (
            Product::PriceAndHours,
            [1 << 44, 1 << 17],
            Ok((1 << 61, 1 << 61)),
        ),
        (Product::PriceAndHours, [1 << 44, 1 << 18], Err(dear)),
        (Product::ScaleAndBudget, [1, BUDGET], Ok((0, 0))),
        (Product::PowerAndLines, [1000 << 20, 1 << 31], Ok((0, 0))),
    ] {
        let edge = product.edge(factors);
        assert_eq!(answer(&edge), expected, "{}", edge.label());
    }
    // Column 0 is the plant's capacity. In one zone and slice each family before 18 has one
    // row; in two zones families 1 and 2 have 2 and 4; in 16 slices those before 17 have 151.
    for (product, factors, number, place) in [
        (
            Product::AnnuityAndMultiplier,
            [1 << 31, 1 << 31],
            COLUMN_OFF_SCALE,
            0,
        ),
        (Product::ScaleAndBudget, [2, BUDGET], ROW_OFF_SCALE, 17),
        (
            Product::PowerAndLines,
            [1000 << 22, 1 << 31],
            ROW_OFF_SCALE,
            2 + 4 + 1,
        ),
        (
            Product::PowerAndLines,
            [1000 << 31, 1 << 31],
            ROW_OFF_SCALE,
            2 + 1,
        ),
        (
            Product::EnergyAndRate,
            [1 << 48, 1 << 14],
            ROW_OFF_SCALE,
            151,
        ),
        (Product::EnergyAndRate, [1 << 48, 1 << 13], BROKEN, 151),
    ] {
        let edge = product.edge(factors);
        let refused = Err(Refusal::at(number, place));
        assert_eq!(answer(&edge), refused, "{}", edge.label());
    }
}

/// Every seeded case has the answer that follows from its two factors.
#[test]
fn seeded_products_answer_by_their_factors() {
    for seed in 0..SEEDS {
        for edge in edges(seed) {
            assert_eq!(answer(&edge), edge.answer, "{}", edge.label());
        }
    }
}

/// Every product is met at 62 bits, at 63 on both sides of the limit and at 64; those whose
/// factors can be so long, also where a word of 64 bits does not hold it. The factors are
/// those of the proved code.
#[test]
fn every_product_is_met_about_its_edges() {
    let edges = (0..SEEDS).flat_map(edges);
    let met: Vec<(Product, Class)> = edges.map(|edge| (edge.product, edge.class())).collect();
    for product in PRODUCTS {
        let meets = |class: Class| met.contains(&(product, class));
        assert!(
            meets(Class::FirstLong) || meets(Class::SecondLong),
            "{product:?}"
        );
        for class in [Class::Within63, Class::Above63, Class::At64] {
            assert!(meets(class), "{product:?}: {class:?}");
        }
        // Two factors of 32 bits are held by 64.
        let long = product != Product::PriceAndCapacity;
        for class in [Class::Longer, Class::Truncated] {
            assert_eq!(meets(class), long, "{product:?}: {class:?}");
        }
    }
}

/// Lengths together from 61 bits to 103, the longest that a call can multiply: 2^40 and
/// 10^9·(2^32 - 1) have 41 and 62.
#[test]
fn every_length_is_met() {
    let length = |edge: &Edge| {
        edge.factors
            .map(|n| bit_length(n.unsigned_abs()))
            .iter()
            .sum()
    };
    let lengths: Vec<u32> = (0..SEEDS)
        .flat_map(edges)
        .map(|edge| length(&edge))
        .collect();
    for bits in 61..=103 {
        assert!(lengths.contains(&bits), "{bits}");
    }
    assert_eq!(lengths.iter().max(), Some(&103));
}

/// The count of an input follows certify up to its answer, and says what it did not meet.
#[test]
fn products_are_counted_up_to_the_answer() {
    let counted = |edge: &Edge, answer| {
        let mut count = ProductCount::default();
        count.count(&edge.case, answer);
        count
    };
    let missing = |count: &ProductCount, word: &str| count.missing().contains(&word.to_string());
    let edge = Product::TotalBelowAndScale.edge([3 << 59, 3]);
    let word = "gap's total below 0: 63, above";
    assert!(!missing(&counted(&edge, edge.answer), word));
    assert!(missing(
        &counted(&edge, Err(Refusal::at(COST_OFF_SCALE, 0))),
        word
    ));
    assert!(missing(
        &counted(&Product::TotalBelowAndScale.edge([1 << 60, 3]), edge.answer),
        word
    ));
    let none = ProductCount::default().missing();
    assert_eq!(none.len(), CLASSES.len() + 3);
}
