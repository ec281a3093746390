//! Demand 3 by experiment: no rival that meets all the equations costs less
//! than the certificate allows.

use epm_reference::certify;
use epm_reference::columns::Column;
use epm_reference::generator::draft::Case;
use epm_reference::generator::random::Random;
use epm_reference::generator::{linked, optimal, shape, solved, sound_case};
use epm_reference::model::Model;
use epm_reference::rival::{evaluate, within_certificate};
use epm_reference::rival_count::RivalCount;
use epm_reference::wide::Wide;

const SEEDS: u64 = 250;
const RIVALS_OF_EACH: u64 = 8;

/// Rivals of the cases of all seeds; none is below its certificate.
fn count_rivals(seed: u64, mut case: impl FnMut(&mut Random, u64) -> Case) -> RivalCount {
    let mut random = Random::new(seed);
    let mut count = RivalCount::default();
    for seed in 0..SEEDS {
        let case = case(&mut random, seed);
        let certificate = certify(&case.data, case.scale, &case.plan, &case.multipliers);
        let certificate = certificate.expect("a sound case");
        count.try_rivals(&mut random, &case, certificate, RIVALS_OF_EACH);
    }
    print!("{count}");
    assert!(count.faults.is_empty(), "{:?}", count.faults);
    assert!(count.feasible > SEEDS);
    count
}

#[test]
fn no_rival_is_below_a_drawn_certificate() {
    let count = count_rivals(31, |random, seed| sound_case(shape(random), seed));
    assert!(count.cheaper_than_the_plan > 0);
    assert!(count.charging_otherwise > 0);
    assert!(count.building_lines_otherwise > 0);
    assert!(count.bounded_above_zero > 0);
    assert!(count.wide_entries > 0);
}

/// With gap 0 the bound is the plan's own cost.
#[test]
fn no_rival_is_below_an_optimal_certificate() {
    let count = count_rivals(32, |_, seed| optimal::draft(&mut Random::new(seed)).case);
    assert_eq!(count.cheaper_than_the_plan, 0);
    assert!(count.at_the_bound > 0);
    assert!(count.infeasible > 0);
}

/// The same with a battery, beside rivals whose battery charges as it likes.
#[test]
fn no_rival_is_below_an_optimal_certificate_with_a_battery() {
    let count = count_rivals(34, |_, seed| solved::draft(&mut Random::new(seed)).case);
    assert_eq!(count.cheaper_than_the_plan, 0);
    assert!(count.charging_otherwise > 0);
    assert!(count.at_the_bound > 0);
}

/// The same with lines, beside rivals that build them as they like, in any fractions.
#[test]
fn no_rival_is_below_an_optimal_certificate_with_lines() {
    let count = count_rivals(35, |_, seed| linked::draft(&mut Random::new(seed)).case);
    assert_eq!(count.cheaper_than_the_plan, 0);
    assert!(count.building_lines_otherwise > 0);
    assert!(count.finer_lines > 0);
    assert!(count.at_the_bound > 0);
}

/// A rival with one Mth of a line more in one direction, and none more in the other, is
/// not feasible.
#[test]
fn rival_with_lines_one_way_is_told() {
    for seed in 0..40 {
        let draft = linked::draft(&mut Random::new(seed));
        let case = &draft.case;
        let factor = 1 << 20;
        let finer = |&entry: &u32| u128::from(entry) * u128::from(factor);
        let mut entries: Vec<u128> = case.plan.iter().map(finer).collect();
        let scale = u64::from(case.scale) * factor;
        let found = evaluate(&case.data, scale, &entries).expect("sound data");
        assert_eq!(found.first_broken, None);
        let last_year = draft.shape.years - 1;
        for column in [Column::Built, Column::Total] {
            entries[draft.columns.index(column, &[last_year, 1, 0])] += 1;
        }
        let found = evaluate(&case.data, scale, &entries).expect("sound data");
        let limit = draft.rows.index(27, &[1, 0]);
        let both_ways = draft.rows.index(28, &[last_year, 0, 1]);
        let broken = found.first_broken.expect("a broken row");
        assert!([limit, both_ways].contains(&broken), "seed {seed}");
    }
}

/// A rival whose balance is off by one Mth of a kW is not feasible.
#[test]
fn rival_off_by_one_is_told() {
    let mut random = Random::new(33);
    for seed in 0..100 {
        let shape = shape(&mut random);
        let case = sound_case(shape, seed);
        let model = Model::read(&case.data).expect("sound data");
        let factor = 1_u64 << random.below(40);
        let scale = u64::from(case.scale) * factor;
        let mut entries: Vec<u128> = case
            .plan
            .iter()
            .map(|&entry| u128::from(entry) * u128::from(factor))
            .collect();
        let found = evaluate(&case.data, scale, &entries).expect("sound data");
        assert_eq!(found.first_broken, None);
        let plan_cost = model.cost(&case.plan) * u128::from(factor);
        assert_eq!(found.cost.to_u128(), Some(plan_cost));
        let unmet = model.columns.index(Column::Unmet, &[0, 0, 0]);
        entries[unmet] += 1;
        let found = evaluate(&case.data, scale, &entries).expect("sound data");
        assert_eq!(found.first_broken, Some(0));
    }
}

/// The bound by hand: the station's certificate 40000000000 with gap 8000000000
/// at N = 2 allows 32000000000 / 2 a unit of scale.
#[test]
fn bound_is_compared_across_scales() {
    let certificate = (40_000_000_000, 8_000_000_000);
    let cost = Wide::from_u128;
    assert!(within_certificate(cost(16_000_000_000), 1, certificate, 2));
    assert!(!within_certificate(cost(15_999_999_999), 1, certificate, 2));
    assert!(within_certificate(cost(48_000_000_000), 3, certificate, 2));
    assert!(!within_certificate(cost(47_999_999_999), 3, certificate, 2));
    // Cost less gap below 0 allows everything.
    assert!(within_certificate(Wide::ZERO, 7, (5, 6), 1));
}

/// 256-bit numbers against results worked out by hand.
#[test]
fn wide_numbers_are_exact() {
    let most = u128::MAX;
    let square = Wide::product(most, most);
    // (2^128 − 1)^2 = (2^128 − 2)·2^128 + 1.
    assert_eq!(format!("{square}"), format!("0x{:x}{:032x}", most - 1, 1));
    let shifted = Wide::from_u128(1 << 127).times(6);
    assert_eq!(format!("{shifted}"), format!("0x{:x}{:032x}", 3, 0));
    assert_eq!(Wide::product(7, 6).to_u128(), Some(42));
    assert_eq!(shifted.to_u128(), None);
    assert!(Wide::product(1 << 64, 1 << 64) > Wide::from_u128(most));
    let carried = Wide::from_u128(most).plus(Wide::from_u128(1));
    assert_eq!(carried, Wide::product(1 << 64, 1 << 64));
}
