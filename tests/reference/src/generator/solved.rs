//! Small cases with a battery that charges, of least cost: the second implementation's
//! own simplex (`optimum`) gives plan and multipliers, and the gap is 0.
//!
//! The scale is the least at which the plan is whole. The multipliers are made whole by
//! a smaller money unit: every price is multiplied by their common denominator. `linked`
//! solves its cases in the same way.

use super::draft::Draft;
use super::random::Random;
use crate::calls::{certify, LARGEST_SCALE};
use crate::columns::Column;
use crate::data::{Table, TABLES};
use crate::fraction::{common_denominator, Fraction};
use crate::model::Model;
use crate::optimum::{optimum, Optimum};
use crate::shape::Shape;

/// The plants: two that burn fuel, wind, and the battery.
const CHEAP: usize = 0;
const DEAR: usize = 1;
const WIND: usize = 2;
const BATTERY: usize = 3;

/// The prices that are above 0; a smaller money unit multiplies them.
const PRICES: [Table; 8] = [
    Table::Annuity,
    Table::FixedOm,
    Table::GenCost,
    Table::Voll,
    Table::SurplusPenalty,
    Table::ResVoll,
    Table::SresVoll,
    Table::LineAnnuity,
];

/// A case of least cost whose battery charges.
pub fn draft(random: &mut Random) -> Draft {
    loop {
        if let Some(draft) = attempt(random) {
            return draft;
        }
    }
}

fn attempt(random: &mut Random) -> Option<Draft> {
    let hours = random.between(2, 4) as usize;
    let days = random.between(1, 2) as usize;
    let mut draft = Draft::empty(Shape::new([1, 4, 1, 1, days, hours, 1]), 1);
    draw_system(random, &mut draft);
    draw_plants(random, &mut draft);
    draw_battery(random, &mut draft);
    solve(&mut draft)?;
    draft.draw_board(random);
    charges(&draft).then_some(draft)
}

/// Scale, plan, multipliers and money unit of a draft that has its data; none where the
/// optimum does not fit them.
pub(super) fn solve(draft: &mut Draft) -> Option<()> {
    let found = optimum(&Model::read(&draft.case.data).expect("sound data"))?;
    let scale = common_denominator(&found.entries)?;
    if scale > i128::from(LARGEST_SCALE) {
        return None;
    }
    draft.case.scale = scale as u32;
    set_plan(draft, &found)?;
    set_multipliers(draft, &found)?;
    // In a money unit that is too small a multiplier passes its range.
    let case = &draft.case;
    certify(&case.data, case.scale, &case.plan, &case.multipliers).ok()?;
    Some(())
}

fn charges(draft: &Draft) -> bool {
    let charge = |s| draft.entry(Column::Charge, &[0, BATTERY, s]);
    (0..draft.shape.slices()).any(|s| charge(s) > 0)
}

/// The calendar, the demand and the single prices. R is 1000 ‰, so that the price of a
/// MW is a whole number of kW's.
fn draw_system(random: &mut Random, draft: &mut Draft) {
    draft.set_data(Table::ReturnRate, &[0], 1000);
    draft.set_data(Table::Weight, &[0], random.signed(1, 2));
    draft.set_data(Table::Ee, &[0, 0], 1000);
    draft.set_data(Table::Prm, &[0], random.signed(0, 300));
    for s in 0..draft.shape.slices() {
        draft.set_data(Table::Duration, &[s], random.signed(1, 4));
        draft.set_data(Table::Demand, &[0, 0, s], random.signed(2, 20));
    }
    for table in [Table::MaxFuel, Table::ZoneCap] {
        draft.set_data(table, &[0, 0], 1_000_000);
    }
    draft.set_data(Table::SystemCap, &[0], 1_000_000);
    draft.set_data(Table::BuildLimit, &[0], 100);
    draft.set_data(Table::MaxCapital, &[], 1_000_000);
    draft.set_data(Table::Voll, &[], random.signed(200, 500));
    draft.set_data(Table::SurplusPenalty, &[], random.signed(0, 2));
    draft.set_data(Table::ResVoll, &[], random.signed(0, 50));
}

fn draw_plants(random: &mut Random, draft: &mut Draft) {
    for g in [CHEAP, DEAR, WIND, BATTERY] {
        draft.set_data(Table::Year, &[g], 2);
        draft.set_data(Table::GenCap, &[g], random.signed(2, 10));
        draft.set_data(Table::RampDn, &[g], 1000);
        draft.set_data(Table::RampUp, &[g], 1000);
        draft.set_data(Table::CapCredit, &[g], 500);
        draft.set_data(Table::Availability, &[g, 0], 1000);
    }
    draft.set_data(Table::Vre, &[WIND], 1);
    draft.set_data(Table::GenCost, &[0, CHEAP], random.signed(10, 60));
    draft.set_data(Table::GenCost, &[0, DEAR], random.signed(80, 190));
    draft.set_data(Table::HeatRate, &[CHEAP], 10);
    draft.set_data(Table::Emission, &[DEAR], 10);
    for s in 0..draft.shape.slices() {
        draft.set_data(Table::Profile, &[WIND, s], 250 * random.signed(0, 4));
    }
}

/// Often a candidate; its limits are drawn so that each binds in some cases.
fn draw_battery(random: &mut Random, draft: &mut Draft) {
    let some = |random: &mut Random| *random.pick(&[250, 500, 1000]);
    draft.set_data(Table::Battery, &[BATTERY], 1);
    draft.set_data(
        Table::Efficiency,
        &[BATTERY],
        *random.pick(&[500, 800, 900, 1000]),
    );
    draft.set_data(
        Table::EnergyCapacity,
        &[BATTERY],
        500 * random.signed(1, 12),
    );
    draft.set_data(Table::RampDn, &[BATTERY], some(random));
    draft.set_data(Table::RampUp, &[BATTERY], some(random));
    draft.set_data(Table::GenCost, &[0, BATTERY], random.signed(0, 4));
    if random.chance(1, 2) {
        draft.set_data(Table::Kind, &[BATTERY], 1);
        draft.set_data(Table::Year, &[BATTERY], 1);
        draft.set_data(Table::GenCap, &[BATTERY], 0);
        draft.set_data(Table::MaxNewCap, &[BATTERY], random.signed(1, 8));
        draft.set_data(Table::Annuity, &[0, BATTERY], random.signed(1, 60));
    }
}

/// A fraction times a number that its denominator divides.
fn whole(fraction: Fraction, unit: i128) -> Option<i128> {
    fraction.numerator.checked_mul(unit / fraction.denominator)
}

fn set_plan(draft: &mut Draft, found: &Optimum) -> Option<()> {
    let scale = draft.scale();
    for (entry, &amount) in draft.case.plan.iter_mut().zip(&found.entries) {
        *entry = u32::try_from(whole(amount, scale)?).ok()?;
    }
    Some(())
}

fn set_multipliers(draft: &mut Draft, found: &Optimum) -> Option<()> {
    let unit = common_denominator(&found.multipliers)?;
    for (multiplier, &worth) in draft.case.multipliers.iter_mut().zip(&found.multipliers) {
        *multiplier = i64::try_from(whole(worth, unit)?).ok()?;
    }
    for table in PRICES {
        let axes = TABLES[table as usize].axes;
        for place in 0..draft.shape.size(axes) {
            let indices = draft.shape.indices(axes, place);
            raise_price(draft, table, &indices, unit)?;
        }
    }
    Some(())
}

fn raise_price(draft: &mut Draft, table: Table, indices: &[usize], unit: i128) -> Option<()> {
    let price = draft.data(table, indices).checked_mul(unit)?;
    u32::try_from(price).ok()?;
    draft.set_data(table, indices, price);
    Some(())
}
