//! A full-sized case with large prices and multipliers: that of a small currency.
//!
//! The case that `bench` times cannot have them, by any factor on its prices and
//! multipliers. Some of its multipliers are at 2^40 already, the most there is. Its cost
//! is on scale up to seven times its prices. And the gap sums up the products of demand
//! and multiplier over the 30,720 rows of family 1: N·Demand·EE is 4.5 million there on
//! average, so that multipliers of one size are at most 2^25. So the case here has small
//! plants and whole MW, and on top of the generator's prices each kWh costs more.

use epm_reference::columns::Column;
use epm_reference::data::Table;
use epm_reference::generator::draft::{Case, Draft};
use epm_reference::generator::random::Random;
use epm_reference::generator::{multipliers, sound};
use epm_reference::generator::{FULL_SIZE_SEED, LARGEST_COUNTS};
use epm_reference::shape::Shape;

/// The largest plant of the full-sized case, in MW.
const LARGEST_PLANT: i128 = 13;

/// What a kWh costs more in it: 250 money units. All multipliers of family 1 that are not
/// 0 are above 2^31 then, 21,888 of 30,720, and the cost is half of what is on scale.
const MORE_MILLS: i128 = 250_000;

/// The full-sized case in a small currency.
pub fn full_size_case() -> Case {
    let shape = Shape::new(LARGEST_COUNTS);
    let case = small_plants(shape, LARGEST_PLANT, FULL_SIZE_SEED);
    dearer_energy(case, MORE_MILLS)
}

/// A sound case in whole MW with plants of at most `size` MW.
pub fn small_plants(shape: Shape, size: i128, seed: u64) -> Case {
    let mut random = Random::new(seed);
    let mut draft = sound::draft_of_size(&mut random, shape, 1, size);
    multipliers::draw(&mut random, &mut draft);
    without_waste(&mut draft);
    draft.case
}

/// Takes what is unmet and surplus at once off both, which leaves (14) as it is. The
/// generator draws as much as a million kW of it, and the cost would leave no room for
/// larger prices.
fn without_waste(draft: &mut Draft) {
    for_zones_and_slices(draft.shape, |place| {
        let unmet = draft.entry(Column::Unmet, &place);
        let surplus = draft.entry(Column::Surplus, &place);
        let both = unmet.min(surplus);
        draft.set_entry(Column::Unmet, &place, unmet - both);
        draft.set_entry(Column::Surplus, &place, surplus - both);
    });
}

/// The same plan where each kWh costs `mills` more: GenCost and VOLL, and with them the
/// price of a kW in every zone, the multiplier of family 1, by W·Dur·`mills`. What certify
/// accepted it accepts, as far as all fits: the loads of gen and unmet rise as their
/// prices do, and those of the other columns with family 1 in them do not rise.
pub fn dearer_energy(case: Case, mills: i128) -> Case {
    let mut draft = Draft::of(case);
    let (years, plants) = (draft.shape.years, draft.shape.plants);
    for (y, g) in (0..years).flat_map(|y| (0..plants).map(move |g| (y, g))) {
        let cost = draft.data(Table::GenCost, &[y, g]);
        draft.set_data(Table::GenCost, &[y, g], cost + 1000 * mills);
    }
    let unmet = draft.data(Table::Voll, &[]);
    draft.set_data(Table::Voll, &[], unmet + mills);
    for_zones_and_slices(draft.shape, |[y, z, s]| {
        let row = draft.rows.index(1, &[y, z, s]);
        let more = weighted_hours(&draft, y, s) * mills;
        draft.case.multipliers[row] += i64::try_from(more).expect("a multiplier in range");
    });
    draft.case
}

/// W·Dur.
pub fn weighted_hours(draft: &Draft, y: usize, s: usize) -> i128 {
    let weight = draft.data(Table::ReturnRate, &[y]) * draft.data(Table::Weight, &[y]);
    weight * draft.data(Table::Duration, &[s])
}

/// Calls `each` with every [y,z,s].
pub fn for_zones_and_slices(shape: Shape, mut each: impl FnMut([usize; 3])) {
    for y in 0..shape.years {
        for z in 0..shape.zones {
            for s in 0..shape.slices() {
                each([y, z, s]);
            }
        }
    }
}
