//! Request (i), batteries: small cases worked out by hand, each of which another
//! reading of the request would answer otherwise.

use epm_reference::columns::Column;
use epm_reference::data::Table;
use epm_reference::generator::draft::{Case, Draft};
use epm_reference::model::Model;
use epm_reference::optimum::optimum;
use epm_reference::program::read_lines;
use epm_reference::refusal::{BROKEN, ENTRY, MULTIPLIER, STORAGE, UNDERPRICED};
use epm_reference::rows::FAMILIES;
use epm_reference::shape::Shape;
use epm_reference::{certify, check, post, Refusal};

const EXAMPLE: &[u8] = include_bytes!("../../../examples/battery.txt");

/// The plants of the small system: an engine of 10 MW and a battery of 4 MW.
const ENGINE: usize = 0;
const BATTERY: usize = 1;

/// The small system, whose slices stand for 365 hours each. Every slice asks for 5 MW.
fn system(days: usize, hours: usize) -> Draft {
    let mut draft = Draft::empty(Shape::new([1, 2, 1, 1, days, hours, 1]), 1);
    draft.set_data(Table::ReturnRate, &[0], 1000);
    draft.set_data(Table::Weight, &[0], 1);
    draft.set_data(Table::Ee, &[0, 0], 1000);
    for (plant, capacity) in [(ENGINE, 10), (BATTERY, 4)] {
        draft.set_data(Table::Year, &[plant], 2);
        draft.set_data(Table::GenCap, &[plant], capacity);
        draft.set_entry(Column::Cap, &[0, plant], capacity);
        draft.set_data(Table::RampDn, &[plant], 1000);
        draft.set_data(Table::RampUp, &[plant], 1000);
        draft.set_data(Table::CapCredit, &[plant], 1000);
        draft.set_data(Table::Availability, &[plant, 0], 1000);
    }
    draft.set_data(Table::Battery, &[BATTERY], 1);
    draft.set_data(Table::Efficiency, &[BATTERY], 800);
    draft.set_data(Table::EnergyCapacity, &[BATTERY], 10_000);
    for s in 0..draft.shape.slices() {
        draft.set_data(Table::Duration, &[s], 365);
        draft.set_data(Table::Demand, &[0, 0, s], 5);
        draft.set_entry(Column::Gen, &[0, ENGINE, s], 5);
    }
    draft
}

/// Charge and gen of a plant, MW by slice, and its level in kWh. The engine makes up
/// for what the battery takes and gives.
fn store(draft: &mut Draft, plant: usize, charge: &[i128], gen: &[i128], level: &[i128]) {
    for s in 0..draft.shape.slices() {
        draft.set_entry(Column::Charge, &[0, plant, s], charge[s]);
        draft.set_entry(Column::Gen, &[0, plant, s], gen[s]);
        draft.set_entry(Column::Level, &[0, plant, s], level[s]);
        draft.set_entry(Column::Gen, &[0, ENGINE, s], 5 + charge[s] - gen[s]);
    }
}

/// The small system with a battery that does this.
fn storing(hours: usize, charge: &[i128], gen: &[i128], level: &[i128]) -> Draft {
    let mut draft = system(charge.len() / hours, hours);
    store(&mut draft, BATTERY, charge, gen, level);
    draft
}

fn answer(draft: &Draft) -> Result<u64, Refusal> {
    check(&draft.case.data, draft.case.scale, &draft.case.plan)
}

fn accepted(draft: &Draft) {
    assert_eq!(answer(draft), Ok(0), "nothing has a price");
}

/// The row of this family, plant and slice is the first that does not hold.
fn broken(draft: &Draft, family: usize, plant: usize, slice: usize) {
    let row = draft.rows.index(family, &[0, plant, slice]);
    assert_eq!(answer(draft), Err(Refusal::at(BROKEN, row)));
}

/// 4 MW charged at 800 ‰ are 3200 kWh, and 3 MW given take 3000 of them. With the loss
/// at the discharge they would be 4000 kWh, of which 3 MW would take 3750.
#[test]
fn the_efficiency_is_that_of_charging() {
    accepted(&storing(2, &[4, 0], &[0, 3], &[3200, 200]));
    broken(&storing(2, &[4, 0], &[0, 3], &[4000, 250]), 21, BATTERY, 0);
    broken(&storing(2, &[4, 0], &[0, 3], &[4000, 1000]), 21, BATTERY, 0);
    // In one slice: what is charged can be given, and no more.
    accepted(&storing(1, &[4], &[3], &[200]));
    broken(&storing(1, &[4], &[4], &[0]), 21, BATTERY, 0);
}

/// A slice counts as one hour in the level, although it stands for 365 hours.
#[test]
fn the_duration_is_not_in_the_level() {
    accepted(&storing(2, &[4, 0], &[0, 0], &[3200, 3200]));
    let mut large = storing(2, &[4, 0], &[0, 0], &[3200 * 365, 3200 * 365]);
    large.set_data(Table::EnergyCapacity, &[BATTERY], 3200 * 365);
    broken(&large, 21, BATTERY, 0);
}

/// Before a day's first slice the level is 0, whatever the day before left.
#[test]
fn no_level_is_carried_over_midnight() {
    let given_next_day = storing(2, &[4, 0, 0, 0], &[0, 0, 3, 0], &[3200, 3200, 200, 200]);
    broken(&given_next_day, 21, BATTERY, 2);
    let kept = storing(2, &[4, 0, 0, 0], &[0, 0, 0, 0], &[3200, 3200, 3200, 3200]);
    broken(&kept, 21, BATTERY, 2);
    accepted(&storing(
        2,
        &[4, 0, 4, 0],
        &[0, 0, 0, 3],
        &[3200, 3200, 3200, 200],
    ));
    // Nor is there a season's first slice alone: with days of one hour each starts at 0.
    accepted(&storing(1, &[4, 4], &[0, 0], &[3200, 3200]));
    broken(&storing(1, &[4, 4], &[0, 0], &[3200, 6400]), 21, BATTERY, 1);
}

/// (47) binds the rise of charge by RampDn, (48) its fall by RampUp.
#[test]
fn the_rise_of_charge_is_bound_by_ramp_down_and_its_fall_by_ramp_up() {
    let rise = |charge: i128| storing(2, &[0, charge], &[0, 0], &[0, 800 * charge]);
    let fall = |charge: i128| {
        let level = 3200 + 800 * charge;
        storing(2, &[4, charge], &[0, 0], &[3200, level])
    };
    let with = |mut draft: Draft, ramp: Table| {
        draft.set_data(ramp, &[BATTERY], 500);
        draft
    };
    broken(&with(rise(4), Table::RampDn), 23, BATTERY, 1);
    broken(&with(rise(3), Table::RampDn), 23, BATTERY, 1);
    accepted(&with(rise(2), Table::RampDn));
    accepted(&with(rise(4), Table::RampUp));
    broken(&with(fall(0), Table::RampUp), 24, BATTERY, 1);
    broken(&with(fall(1), Table::RampUp), 24, BATTERY, 1);
    accepted(&with(fall(2), Table::RampUp));
    accepted(&with(fall(0), Table::RampDn));
}

/// Charge may rise and fall as it likes from one day to the next.
#[test]
fn no_ramp_of_charge_joins_two_days() {
    let mut rising = storing(1, &[0, 4], &[0, 0], &[0, 3200]);
    rising.set_data(Table::RampDn, &[BATTERY], 0);
    rising.set_data(Table::RampUp, &[BATTERY], 0);
    accepted(&rising);
    let mut falling = storing(1, &[4, 0], &[0, 0], &[3200, 0]);
    falling.set_data(Table::RampDn, &[BATTERY], 0);
    falling.set_data(Table::RampUp, &[BATTERY], 0);
    accepted(&falling);
}

/// The charge of the engine, which is no battery, counts in (14): with 1 MW more of
/// output the row holds, and the charge's own limit is the first that does not.
#[test]
fn the_charge_of_every_plant_counts_in_the_balance() {
    let mut balanced = system(1, 1);
    balanced.set_entry(Column::Charge, &[0, ENGINE, 0], 1);
    balanced.set_entry(Column::Gen, &[0, ENGINE, 0], 6);
    broken(&balanced, 22, ENGINE, 0);
    let mut short = balanced.clone();
    short.set_entry(Column::Gen, &[0, ENGINE, 0], 5);
    assert_eq!(answer(&short), Err(Refusal::at(BROKEN, 0)));
}

/// Charge and level of a plant that is no battery are 0, whatever its efficiency and
/// energy capacity are; it has no level's row and no ramps of charge.
#[test]
fn the_two_limits_bind_every_plant() {
    let mut engine = system(1, 2);
    engine.set_data(Table::Efficiency, &[ENGINE], 1000);
    engine.set_data(Table::EnergyCapacity, &[ENGINE], i128::from(u32::MAX));
    accepted(&engine);
    let mut level = engine.clone();
    level.set_entry(Column::Level, &[0, ENGINE, 1], 1);
    broken(&level, 25, ENGINE, 1);
    let mut charge = engine.clone();
    store(&mut charge, ENGINE, &[0, 1], &[5, 5], &[0, 0]);
    charge.set_entry(Column::Gen, &[0, ENGINE, 0], 5);
    charge.set_entry(Column::Gen, &[0, ENGINE, 1], 6);
    charge.set_data(Table::RampDn, &[ENGINE], 200);
    charge.set_data(Table::RampUp, &[ENGINE], 200);
    broken(&charge, 22, ENGINE, 1);
}

/// Charge is at most cap, level at most the energy capacity, both to the last Nth.
#[test]
fn the_two_limits_of_a_battery() {
    let mut at_scale_3 = storing(1, &[4], &[0], &[3200]);
    at_scale_3.case.scale = 3;
    for entry in &mut at_scale_3.case.plan {
        *entry *= 3;
    }
    at_scale_3.set_data(Table::EnergyCapacity, &[BATTERY], 3200);
    accepted(&at_scale_3);
    let mut more = at_scale_3.clone();
    more.set_entry(Column::Charge, &[0, BATTERY, 0], 13);
    more.set_entry(Column::Gen, &[0, ENGINE, 0], 28);
    more.set_entry(Column::Level, &[0, BATTERY, 0], 10_400);
    broken(&more, 22, BATTERY, 0);
    more.set_entry(Column::Charge, &[0, BATTERY, 0], 12);
    more.set_entry(Column::Gen, &[0, ENGINE, 0], 27);
    more.set_entry(Column::Level, &[0, BATTERY, 0], 9600);
    more.set_data(Table::EnergyCapacity, &[BATTERY], 3199);
    broken(&more, 25, BATTERY, 0);
}

/// Both sides of the ends of the new ranges.
#[test]
fn the_ranges_of_the_new_tables() {
    for (table, plant, inside, outside) in [
        (Table::Battery, BATTERY, 1, 2),
        (Table::Efficiency, ENGINE, 1000, 1001),
        (Table::Efficiency, BATTERY, 1000, 1001),
    ] {
        let mut draft = system(1, 1);
        draft.set_data(table, &[plant], inside);
        accepted(&draft);
        draft.set_data(table, &[plant], outside);
        let place = draft.layout.index(table, &[plant]);
        assert_eq!(answer(&draft), Err(Refusal::at(ENTRY, place)), "{table:?}");
    }
    let mut draft = system(1, 1);
    draft.set_data(Table::EnergyCapacity, &[BATTERY], i128::from(u32::MAX));
    accepted(&draft);
}

/// The three calls on a case.
fn answers(case: &Case) -> [Option<Refusal>; 3] {
    let mut board = case.board.clone();
    let (data, scale, plan) = (&case.data, case.scale, &case.plan);
    let posted = post(data, scale, plan, 0, &mut board, 0).err();
    assert!(posted.is_none() || board == case.board);
    let certified = certify(data, scale, plan, &case.multipliers).err();
    [check(data, scale, plan).err(), certified, posted]
}

/// 16 names the lowest battery that has VRE set, after every entry and before the scale.
#[test]
fn a_battery_with_vre_set_is_refused_after_entries_and_before_the_scale() {
    let mut draft = system(1, 1);
    draft.set_data(Table::Vre, &[BATTERY], 1);
    let at = |number, place| [Some(Refusal::at(number, place)); 3];
    assert_eq!(answers(&draft.case), at(STORAGE, BATTERY));
    draft.set_data(Table::Vre, &[ENGINE], 1);
    assert_eq!(answers(&draft.case), at(STORAGE, BATTERY));
    draft.set_data(Table::Battery, &[ENGINE], 1);
    assert_eq!(answers(&draft.case), at(STORAGE, ENGINE));
    for scale in [0, 1001] {
        draft.case.scale = scale;
        assert_eq!(answers(&draft.case), at(STORAGE, ENGINE));
    }
    // An entry of the last table with a range, behind both flags.
    draft.set_data(Table::Efficiency, &[BATTERY], 1001);
    let place = draft.layout.index(Table::Efficiency, &[BATTERY]);
    assert_eq!(answers(&draft.case), at(ENTRY, place));
}

/// The example's plants: wind, gas, diesel, and the battery.
const EXAMPLE_BATTERY: usize = 3;
const EXAMPLE_GAS: usize = 1;
const EXAMPLE_COST: u64 = 595_600_000_000;

/// The example of docs/FORMAT.md as a case.
fn example() -> Draft {
    let input = read_lines(EXAMPLE).expect("no Frame");
    Draft::of(Case {
        scale: input.scale(),
        data: input.data,
        plan: input.plan,
        multipliers: input.multipliers,
        ..Case::default()
    })
}

fn certified(draft: &Draft) -> Result<(u64, u64), Refusal> {
    let case = &draft.case;
    certify(&case.data, case.scale, &case.plan, &case.multipliers)
}

/// The example was worked out by hand; the simplex finds the same least cost and, row
/// by row, the same multipliers.
#[test]
fn the_example_is_of_least_cost() {
    let draft = example();
    assert_eq!(certified(&draft), Ok((EXAMPLE_COST, 0)));
    let model = Model::read(&draft.case.data).expect("sound data");
    let found = optimum(&model).expect("an optimum");
    let mut cost = 0;
    for (column, entry) in found.entries.iter().enumerate() {
        assert_eq!(entry.denominator, 1, "{}", model.columns.name(column));
        cost += model.price(column) * entry.numerator;
    }
    assert_eq!(cost, i128::from(EXAMPLE_COST));
    for (row, worth) in found.multipliers.iter().enumerate() {
        let by_hand = i128::from(draft.case.multipliers[row]);
        let name = model.rows.name(row);
        assert_eq!((worth.numerator, worth.denominator), (by_hand, 1), "{name}");
    }
}

/// Family 21 takes multipliers below 0 in every row, also in those of plants that are
/// no batteries; the other families of batteries in none.
#[test]
fn a_multiplier_below_zero_is_for_the_level_alone() {
    let largest = 1_i128 << 40;
    let draft = example();
    assert!(draft.multiplier(21, &[0, EXAMPLE_BATTERY, 0]) < 0);
    for below_zero in [-1, -largest] {
        let mut empty = draft.clone();
        empty.set_multiplier(21, &[0, EXAMPLE_GAS, 2], below_zero);
        assert_eq!(certified(&empty), Ok((EXAMPLE_COST, 0)));
    }
    for plant in [EXAMPLE_GAS, EXAMPLE_BATTERY] {
        let mut past = draft.clone();
        past.set_multiplier(21, &[0, plant, 2], -largest - 1);
        let row = past.rows.index(21, &[0, plant, 2]);
        assert_eq!(certified(&past), Err(Refusal::at(MULTIPLIER, row)));
        for family in 22..=25 {
            let mut refused = draft.clone();
            refused.set_multiplier(family, &[0, plant, 2], -1);
            let row = refused.rows.index(family, &[0, plant, 2]);
            let name = FAMILIES[family - 1].name;
            assert_eq!(
                certified(&refused),
                Err(Refusal::at(MULTIPLIER, row)),
                "{name}"
            );
        }
    }
}

/// A stored kWh that is worth one more makes the charge underpriced; a level limit that
/// is worth one less the level.
#[test]
fn charge_and_level_are_priced() {
    let draft = example();
    let mut dearer = draft.clone();
    let worth = draft.multiplier(21, &[0, EXAMPLE_BATTERY, 0]);
    dearer.set_multiplier(21, &[0, EXAMPLE_BATTERY, 0], worth - 1);
    let column = draft
        .columns
        .index(Column::Charge, &[0, EXAMPLE_BATTERY, 0]);
    assert_eq!(certified(&dearer), Err(Refusal::at(UNDERPRICED, column)));
    let mut cheaper = draft.clone();
    let worth = draft.multiplier(25, &[0, EXAMPLE_BATTERY, 1]);
    cheaper.set_multiplier(25, &[0, EXAMPLE_BATTERY, 1], worth - 1);
    let column = draft.columns.index(Column::Level, &[0, EXAMPLE_BATTERY, 1]);
    assert_eq!(certified(&cheaper), Err(Refusal::at(UNDERPRICED, column)));
}
