//! Request (iii): the proved calls on products whose factors have lengths of 62 bits or less
//! together, of 63, and of 64 or more. The answers are worked out by hand; each test says
//! what a slip would answer.
//!
//! No factor of a call has more than 62 bits: multipliers above 2^40 are refused before any
//! product, and a total that is multiplied by N is within the limit. So a length of 1 for 0
//! leaves every answer as it is, and so does the want of a test for 0 beside 64 bits. The
//! proofs have to refuse these.

use epm_agreement::{certify, Agreement};
use epm_reference::generator::products::{edges, Edge, Product};
use epm_reference::refusal::GAP_OFF_SCALE;
use epm_reference::Refusal;

const SEEDS: u64 = 10;

/// The largest entry of a table or plan, and the largest budget: 62 bits.
const WIDEST: i128 = (1 << 32) - 1;
const BUDGET: i128 = 1_000_000_000 * WIDEST;

const OFF_SCALE: Result<(u64, u64), Refusal> = Err(Refusal {
    number: GAP_OFF_SCALE,
    place: 0,
});

fn answer(edge: &Edge) -> Result<(u64, u64), Refusal> {
    let case = &edge.case;
    certify(&case.data, case.scale, &case.plan, &case.multipliers)
}

fn answers(product: Product, factors: [i128; 2], expected: Result<(u64, u64), Refusal>) {
    let edge = product.edge(factors);
    assert_eq!(answer(&edge), expected, "{}", edge.label());
}

/// 61 and 2 bits. Of the total below 0 times N nothing else tells that it is above the limit:
/// 9·2^59 taken without a comparison is accepted, at cost 9·2^58 and gap 0. Taken as too
/// large without one, 3·2^60 is refused.
#[test]
fn lengths_of_63_are_compared() {
    answers(Product::TotalBelowAndScale, [3 << 59, 3], OFF_SCALE);
    answers(Product::TotalBelowAndScale, [1 << 60, 3], Ok((3 << 59, 0)));
}

/// 32 and 31 bits, 2^62 - 1 itself and 2^31 - 1 above it, with the longer factor on either
/// side.
#[test]
fn lengths_of_63_at_the_limit() {
    let power = 1 << 31;
    let limit = (1 << 62) - 1;
    for factors in [[power - 1, power + 1], [power + 1, power - 1]] {
        answers(Product::MultiplierAndLink, factors, Ok((0, limit)));
        answers(Product::AnnuityAndMultiplier, factors, Ok((0, 0)));
        answers(Product::PriceAndCapacity, factors, Ok((limit, limit)));
    }
    for factors in [[power - 1, power + 2], [power + 2, power - 1]] {
        answers(Product::MultiplierAndLink, factors, OFF_SCALE);
    }
}

/// 62 and 2 bits, 61 and 3, 54 and 10: 2^62 is the least product of 64 bits together. Taken
/// as fitting the first three are accepted, the first at cost 2^61 and gap 0.
#[test]
fn lengths_of_64_are_too_large() {
    answers(Product::TotalBelowAndScale, [1 << 61, 2], OFF_SCALE);
    answers(Product::TotalBelowAndScale, [1 << 60, 4], OFF_SCALE);
    answers(Product::TotalBelowAndScale, [1 << 53, 1000], OFF_SCALE);
    answers(Product::MultiplierAndLink, [1 << 31, 1 << 31], OFF_SCALE);
}

/// 33 and 32 bits: 3·2^31·3·2^30 is 2^64 + 2^61. Compared as if 64 bits held it, it is accepted
/// with gap 2^61.
#[test]
fn lengths_of_65_are_too_large() {
    answers(Product::MultiplierAndLink, [3 << 31, 3 << 30], OFF_SCALE);
    answers(Product::MultiplierAndLink, [3 << 32, 3 << 29], OFF_SCALE);
}

/// The largest factors that fit whatever they are, and one more on either side.
#[test]
fn factors_about_half_the_bits() {
    let half = (1 << 31) - 1;
    answers(
        Product::MultiplierAndLink,
        [half, half],
        Ok((0, 4_611_686_014_132_420_609)),
    );
    for factors in [[half, half + 1], [half + 1, half]] {
        answers(
            Product::MultiplierAndLink,
            factors,
            Ok((0, 4_611_686_016_279_904_256)),
        );
    }
}

/// Twice the length of the shorter factor is 50 and 62: taken straight, both products leave 0
/// in 64 bits, and the gap is 0. 2^40·2^24 is 2^64, and 2^30·(10^9·2^25) is 2^64·5^9.
#[test]
fn a_short_factor_beside_a_long_one_is_not_counted_twice() {
    answers(Product::MultiplierAndLink, [1 << 40, 1 << 24], OFF_SCALE);
    let budget = 1_000_000_000 << 25;
    answers(Product::MultiplierAndBudget, [1 << 30, budget], OFF_SCALE);
}

/// Twice the length of the longer factor is 82, 124 and 122: refused as too large.
#[test]
fn a_long_factor_beside_a_short_one_is_not_counted_twice() {
    answers(
        Product::MultiplierAndLink,
        [1 << 40, 1 << 21],
        Ok((0, 1 << 61)),
    );
    answers(
        Product::MultiplierAndBudget,
        [1, BUDGET],
        Ok((0, 4_294_967_295_000_000_000)),
    );
    answers(Product::TotalAboveAndScale, [3 << 59, 2], Ok((0, 3 << 60)));
}

/// 0 on either side of a factor of 32 bits or more. A length of 64 for 0, without a test for
/// 0, refuses all of these.
#[test]
fn a_product_with_0_is_0() {
    answers(Product::MultiplierAndBudget, [0, BUDGET], Ok((0, 0)));
    answers(Product::MultiplierAndLink, [1 << 40, 0], Ok((0, 0)));
    answers(Product::AnnuityAndMultiplier, [0, 1 << 40], Ok((0, 0)));
    answers(Product::AnnuityAndMultiplier, [WIDEST, 0], Ok((0, 0)));
    answers(Product::PowerAndLines, [1000 * WIDEST, 0], Ok((0, 0)));
    answers(Product::PriceAndHours, [0, WIDEST << 13], Ok((0, 0)));
}

/// Products about 2^62 and 2^64 and of every length, by seeds: certify answers what follows
/// from the two factors, and check and post what the second implementation answers.
#[test]
fn seeded_products_answer_by_their_factors() {
    let mut agreement = Agreement::default();
    for edge in (0..SEEDS).flat_map(edges) {
        assert_eq!(answer(&edge), edge.answer, "{}", edge.label());
        agreement.compare(&edge.label(), &edge.case);
    }
    let first: Vec<_> = agreement.differences.iter().take(3).collect();
    assert!(first.is_empty(), "{first:#?}");
}
