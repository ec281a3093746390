//! Multipliers that certify accepts, most of them not 0.
//!
//! Most families are drawn freely within a strength. The others repair what is
//! underpriced, in an order in which no repair undoes an earlier one:
//!
//! - family 1 is held down by the price of generation, of unmet and of surplus;
//! - family 21 of a battery is what a stored kWh is worth, about what its output is
//!   paid; family 22 takes what charge is underpriced by, family 25 the same for level;
//! - family 5 takes what generation is still underpriced by, family 6 the same
//!   for reserve, family 2 for transfers;
//! - family 12, year by year from the last, prices capacity and retirement;
//! - family 16 prices builds;
//! - family 28 moves what lines are worth from one direction to the other, family 26,
//!   year by year from the last, prices their totals, and family 27 their builds.
//!
//! The strength is halved until certify accepts, which ends at the latest when
//! every multiplier is 0.

use super::draft::Draft;
use super::random::Random;
use crate::calls::{certify, LARGEST_MULTIPLIER};
use crate::columns::Column;
use crate::data::Table;
use crate::model::Model;

const LARGEST: i128 = LARGEST_MULTIPLIER as i128;

/// What kind of multipliers are drawn.
#[derive(Clone, Copy, Debug, PartialEq, Eq)]
enum Style {
    /// Large in every family, for large sums.
    Strong,
    /// Family 1 as the prices allow, the others small.
    Weak,
    /// One price of energy in all zones of a slice and little else, so that the
    /// bound, cost less gap, is seldom below 0.
    Economic,
}

/// How large multipliers are drawn.
struct Strength {
    style: Style,
    /// What one family may add to a capacity column in a year.
    plant: i128,
    /// A multiplier of one plant and slice.
    slice: i128,
    /// A multiplier of family 1, above or below 0.
    balance: i128,
    /// What one family of limits may add to the gap.
    limits: i128,
}

/// Fills in the draft's multipliers. One draft in sixteen keeps them all 0.
pub fn draw(random: &mut Random, draft: &mut Draft) {
    draft.case.multipliers.fill(0);
    if random.chance(1, 16) {
        return;
    }
    let styles = [Style::Strong, Style::Strong, Style::Weak, Style::Economic];
    let style = *random.pick(&styles);
    let mut last = None;
    for halvings in (0..80).step_by(2) {
        let strength = strength(draft, style, halvings);
        attempt(random, draft, &strength);
        let case = &draft.case;
        match certify(&case.data, case.scale, &case.plan, &case.multipliers) {
            Ok(_) => return,
            Err(refusal) => last = Some(refusal),
        }
    }
    panic!("certify accepts no strength of multipliers: {last:?}");
}

fn strength(draft: &Draft, style: Style, halvings: u32) -> Strength {
    let years = draft.shape.years as i128;
    let slices = draft.shape.slices() as i128;
    let largest_plant = match style {
        Style::Strong => 1 << 36,
        Style::Weak => 1 << 28,
        Style::Economic => 0,
    };
    let largest_limits: i128 = match style {
        Style::Strong => 1 << 58,
        Style::Weak => 1 << 50,
        Style::Economic => 0,
    };
    // A transfer row and a charge row have coefficient 1 against 1000 in family 1,
    // so between zones and beside batteries family 1 is held 2^12 below the largest
    // multiplier.
    let storing = (0..draft.shape.plants).any(|g| draft.is_battery(g));
    let largest_balance = match draft.shape.zones {
        1 if !storing => 1 << 36,
        _ => (1 << 28) / line_hours(draft),
    };
    let plant = (largest_plant / years) >> halvings;
    Strength {
        style,
        plant,
        slice: plant / (2000 * slices),
        balance: largest_balance >> halvings,
        limits: largest_limits >> halvings,
    }
}

/// What one unit of family 1 or 3 in every slice of all years may come to in a line's
/// total, against the 2^12 that the largest multiplier has above those families: at
/// least 1, and 1 without lines.
fn line_hours(draft: &Draft) -> i128 {
    let links = draft
        .pairs()
        .into_iter()
        .flat_map(|[z, z2]| [[z, z2], [z2, z]]);
    let widest = links.map(|link| draft.data(Table::LineMw, &link)).max();
    let slices = (draft.shape.years * draft.shape.slices()) as i128;
    (widest.unwrap_or(0) * slices).max(1)
}

/// The draft's rows by column, so that a column's Σ m·a is found from its own
/// terms while the multipliers are being filled in.
pub(super) struct Ledger<'a> {
    pub model: Model<'a>,
    columns: Vec<Vec<(u32, i64)>>,
}

impl<'a> Ledger<'a> {
    pub fn new(data: &'a [u32]) -> Ledger<'a> {
        let model = Model::read(data).expect("sound data");
        let mut columns = vec![Vec::new(); model.columns.count()];
        for number in 0..model.rows.count() {
            for (column, coefficient) in model.row(number).terms {
                columns[column].push((number as u32, coefficient as i64));
            }
        }
        Ledger { model, columns }
    }

    /// c − Σ m·a: how much more the column could carry. Below 0 where it is
    /// underpriced.
    pub fn slack(&self, multipliers: &[i64], column: Column, indices: &[usize]) -> i128 {
        let number = self.model.columns.index(column, indices);
        let load: i128 = self.columns[number]
            .iter()
            .map(|&(row, coefficient)| {
                i128::from(coefficient) * i128::from(multipliers[row as usize])
            })
            .sum();
        self.model.price(number) - load
    }
}

fn attempt(random: &mut Random, draft: &mut Draft, strength: &Strength) {
    let data = draft.case.data.clone();
    let ledger = Ledger::new(&data);
    draft.case.multipliers.fill(0);
    draw_plant_rows(random, draft, strength);
    draw_limit_rows(random, draft, strength);
    draw_reserve_rows(random, draft, strength, &ledger);
    draw_balance(random, draft, strength, &ledger);
    draw_storage(random, draft, strength, &ledger);
    repair_output(random, draft, strength, &ledger);
    repair_transfers(random, draft, strength, &ledger);
    price_capacity(random, draft, strength, &ledger);
    price_builds(random, draft, strength, &ledger);
    price_lines(random, draft, strength, &ledger);
}

/// Often 0 is as good a multiplier as any; mostly it is something else.
fn some(random: &mut Random, largest: i128) -> i128 {
    match random.below(8) {
        0 => 0,
        _ => random.magnitude(largest.min(LARGEST)),
    }
}

/// A multiplier of a row that reads 0 ≥ 0, or whose constant is 0 and whose
/// coefficients are all below 0: it neither underprices a column nor adds to the
/// gap, so it may be as large as any.
fn idle(random: &mut Random) -> i128 {
    match random.below(6) {
        0 => LARGEST,
        1 => 0,
        _ => random.magnitude(LARGEST),
    }
}

/// A multiplier of an equality whose row is empty.
fn idle_of_both_signs(random: &mut Random) -> i128 {
    let sign = *random.pick(&[-1, 1]);
    sign * idle(random)
}

/// Families 7 to 11, 13, 14, 23 and 24.
fn draw_plant_rows(random: &mut Random, draft: &mut Draft, strength: &Strength) {
    let shape = draft.shape;
    for y in 0..shape.years {
        for g in 0..shape.plants {
            for s in 0..shape.slices() {
                let bound = [
                    (7, shape.hour_of(s) > 0),
                    (8, shape.hour_of(s) > 0),
                    (9, draft.is_minimum_load_day(s)),
                    (11, draft.is_vre(g)),
                    (23, draft.is_battery(g) && shape.hour_of(s) > 0),
                    (24, draft.is_battery(g) && shape.hour_of(s) > 0),
                ];
                for (family, bound) in bound {
                    let value = match bound {
                        true => some(random, strength.slice),
                        false => idle(random),
                    };
                    draft.set_multiplier(family, &[y, g, s], value);
                }
            }
            for q in 0..shape.seasons {
                let hours: i128 = shape
                    .slices_of_season(q)
                    .map(|s| draft.data(Table::Duration, &[s]))
                    .sum();
                let most = strength.plant / (1000 * hours.max(1) * shape.seasons as i128);
                let value = some(random, most);
                draft.set_multiplier(10, &[y, g, q], value);
            }
            let shut = idle(random);
            draft.set_multiplier(13, &[y, g], shut);
            let kind = idle(random);
            draft.set_multiplier(14, &[y, g], kind);
        }
    }
}

/// Families 15 and 17 to 20, held down by what they add to the gap.
fn draw_limit_rows(random: &mut Random, draft: &mut Draft, strength: &Strength) {
    let shape = draft.shape;
    let within = |limit: i128, rows: usize| strength.limits / (limit * rows as i128 + 1);
    for g in 0..shape.plants {
        let value = match draft.is_candidate(g) {
            true => {
                let limit = draft.scale() * draft.data(Table::MaxNewCap, &[g]);
                some(random, within(limit, shape.plants).min(strength.plant))
            }
            false => idle(random),
        };
        draft.set_multiplier(15, &[g], value);
    }
    let unit = 1000 * draft.scale();
    for y in 0..shape.years {
        for z in 0..shape.zones {
            for f in 0..shape.fuels {
                let limit = unit * draft.data(Table::MaxFuel, &[y, f]);
                let rows = shape.years * shape.zones * shape.fuels;
                let value = some(random, within(limit, rows).min(1 << 20));
                draft.set_multiplier(17, &[y, z, f], value);
            }
            let limit = unit * draft.data(Table::ZoneCap, &[y, z]);
            let most = within(limit, shape.years * shape.zones).min(1 << 20);
            let value = some(random, most);
            draft.set_multiplier(19, &[y, z], value);
        }
        let limit = unit * draft.data(Table::SystemCap, &[y]);
        let value = some(random, within(limit, shape.years).min(1 << 20));
        draft.set_multiplier(20, &[y], value);
    }
    let capital = 1_000_000_000 * draft.scale() * draft.data(Table::MaxCapital, &[]);
    let steepest = steepest_annuity(draft);
    let value = some(random, within(capital, 1).min(within(steepest, 1)));
    draft.set_multiplier(18, &[], value);
}

/// The largest coefficient of family 18.
fn steepest_annuity(draft: &Draft) -> i128 {
    let mut steepest = 0;
    for y in 0..draft.shape.years {
        let weight = draft.data(Table::ReturnRate, &[y]) * draft.data(Table::Weight, &[y]);
        for g in 0..draft.shape.plants {
            steepest = steepest.max(weight * draft.data(Table::Annuity, &[y, g]));
        }
    }
    steepest
}

/// Families 3 and 4, held down by the prices of the two short columns and, where
/// the zone has plants, by what reserve costs. In economic draws only rows that
/// ask for more than the links bring are worth a multiplier.
fn draw_reserve_rows(random: &mut Random, draft: &mut Draft, strength: &Strength, ledger: &Ledger) {
    let shape = draft.shape;
    let model = &ledger.model;
    let economic = strength.style == Style::Economic;
    let worth =
        |family: usize, indices: &[usize]| !economic || model.row_of(family, indices).constant < 0;
    let firm_strength = match economic {
        true => strength.balance / shape.years as i128,
        false => strength.plant / 1000,
    };
    for y in 0..shape.years {
        for z in 0..shape.zones {
            let plants = draft.plants_in(z);
            for s in (0..shape.slices()).filter(|&s| worth(3, &[y, z, s])) {
                let mut most = model.price_of(Column::SpinShort, &[y, z, s]);
                for &g in &plants {
                    let price = model.price_of(Column::Reserve, &[y, g, s]);
                    most = most.min(price / 1000 + strength.slice);
                }
                let value = tight_or_some(random, most.min(strength.balance));
                draft.set_multiplier(3, &[y, z, s], value);
            }
            if worth(4, &[y, z]) {
                let most = model.price_of(Column::FirmShort, &[y, z]);
                let value = tight_or_some(random, most.min(firm_strength));
                draft.set_multiplier(4, &[y, z], value);
            }
        }
    }
}

/// A bound itself half of the time, otherwise something below it.
fn tight_or_some(random: &mut Random, most: i128) -> i128 {
    match random.below(2) {
        0 => most.clamp(0, LARGEST),
        _ => some(random, most),
    }
}

/// Family 1: between what surplus and what unmet and generation allow.
fn draw_balance(random: &mut Random, draft: &mut Draft, strength: &Strength, ledger: &Ledger) {
    let shape = draft.shape;
    let plants: Vec<Vec<usize>> = (0..shape.zones).map(|z| draft.plants_in(z)).collect();
    for y in 0..shape.years {
        for s in 0..shape.slices() {
            let bounds: Vec<(i128, i128)> = (0..shape.zones)
                .map(|z| balance_bounds(draft, strength, ledger, [y, z, s], &plants[z]))
                .collect();
            let common = bounds.iter().map(|bound| bound.1).min();
            let common = common.expect("at least one zone");
            for (z, &(least, most)) in bounds.iter().enumerate() {
                let value = match random.below(8) {
                    _ if strength.style == Style::Economic => common,
                    0 => least,
                    1 => random.signed(least, most),
                    2 => 0,
                    3 => -random.magnitude(-least),
                    _ => most,
                };
                draft.set_multiplier(1, &[y, z, s], value.clamp(least, most));
            }
        }
    }
}

/// The least and the largest multiplier of a row of family 1. Family 5 can take
/// a little more than the price of generation, family 21 what a battery is paid.
/// Below 0 a charge is paid too, and family 22 has to take that.
fn balance_bounds(
    draft: &Draft,
    strength: &Strength,
    ledger: &Ledger,
    row: [usize; 3],
    plants: &[usize],
) -> (i128, i128) {
    let [y, _, s] = row;
    let surplus = ledger.model.price_of(Column::Surplus, &row);
    let mut most = ledger.model.price_of(Column::Unmet, &row);
    for &g in plants.iter().filter(|&&g| !draft.is_battery(g)) {
        let slack = ledger.slack(&draft.case.multipliers, Column::Gen, &[y, g, s]);
        most = most.min(slack.div_euclid(1000) + strength.slice);
    }
    let least = -surplus.min(strength.balance).min(LARGEST / 1000);
    (least, most.min(strength.balance).max(least))
}

/// Family 21, and what charge and level then ask of families 22 and 25.
fn draw_storage(random: &mut Random, draft: &mut Draft, strength: &Strength, ledger: &Ledger) {
    for y in 0..draft.shape.years {
        for g in 0..draft.shape.plants {
            match draft.is_battery(g) {
                true => draw_level_rows(random, draft, strength, ledger, [y, g]),
                false => draw_empty_level_rows(random, draft, [y, g]),
            }
            for s in 0..draft.shape.slices() {
                repair_storage(random, draft, strength, ledger, [y, g, s]);
            }
        }
    }
}

/// Family 21 of a battery, day by day. At `paid` its output is priced exactly; one
/// value through the day asks nothing of the level but in its last hour.
fn draw_level_rows(
    random: &mut Random,
    draft: &mut Draft,
    strength: &Strength,
    ledger: &Ledger,
    [y, g]: [usize; 2],
) {
    let hours = draft.shape.hours;
    for day in 0..draft.shape.slices() / hours {
        let slices = day * hours..(day + 1) * hours;
        let paid: Vec<i128> = slices
            .clone()
            .map(|s| ledger.slack(&draft.case.multipliers, Column::Gen, &[y, g, s]))
            .map(|slack| slack.div_euclid(1000))
            .collect();
        let least = *paid.iter().min().expect("at least one hour");
        let even = strength.style == Style::Economic || random.chance(1, 4);
        for (s, &paid) in slices.zip(&paid) {
            let value = match random.below(4) {
                _ if even => least.min(0),
                0 => paid - random.magnitude(strength.slice),
                1 => random.signed(-strength.slice, strength.slice),
                _ => paid,
            };
            let value = value.clamp(-strength.balance, strength.slice);
            draft.set_multiplier(21, &[y, g, s], value);
        }
    }
}

/// Family 21 of a plant that is no battery.
fn draw_empty_level_rows(random: &mut Random, draft: &mut Draft, [y, g]: [usize; 2]) {
    for s in 0..draft.shape.slices() {
        let value = idle_of_both_signs(random);
        draft.set_multiplier(21, &[y, g, s], value);
    }
}

/// Families 22 and 25: what charge and level are underpriced by, or more.
fn repair_storage(
    random: &mut Random,
    draft: &mut Draft,
    strength: &Strength,
    ledger: &Ledger,
    place: [usize; 3],
) {
    let battery = draft.is_battery(place[1]);
    let rows = draft.shape.years * draft.shape.plants * draft.shape.slices();
    let store = draft.scale() * draft.data(Table::EnergyCapacity, &[place[1]]);
    let more_level = strength.limits / (store * rows as i128 + 1);
    for (family, column, more) in [
        (22, Column::Charge, strength.slice),
        (25, Column::Level, more_level.min(strength.slice)),
    ] {
        let slack = ledger.slack(&draft.case.multipliers, column, &place);
        let needed = (-slack).max(0);
        let value = match battery {
            true => needed + random.slack(more),
            false => needed.max(idle(random)),
        };
        draft.set_multiplier(family, &place, value.min(LARGEST));
    }
}

/// Families 5 and 6: what generation and reserve are underpriced by, or more.
fn repair_output(random: &mut Random, draft: &mut Draft, strength: &Strength, ledger: &Ledger) {
    for y in 0..draft.shape.years {
        for g in 0..draft.shape.plants {
            for s in 0..draft.shape.slices() {
                for (family, column) in [(5, Column::Gen), (6, Column::Reserve)] {
                    let slack = ledger.slack(&draft.case.multipliers, column, &[y, g, s]);
                    let needed = (-slack.div_euclid(1000)).max(0);
                    let drawn = some(random, strength.slice);
                    draft.set_multiplier(family, &[y, g, s], needed.max(drawn));
                }
            }
        }
    }
}

/// Family 2: what a transfer is underpriced by, at times more. Its rows within a
/// zone have constant 0.
fn repair_transfers(random: &mut Random, draft: &mut Draft, strength: &Strength, ledger: &Ledger) {
    for y in 0..draft.shape.years {
        for z in 0..draft.shape.zones {
            for z2 in 0..draft.shape.zones {
                for s in 0..draft.shape.slices() {
                    let link = [y, z, z2, s];
                    let slack = ledger.slack(&draft.case.multipliers, Column::Trans, &link);
                    let value = match z == z2 {
                        true => idle(random),
                        false => (-slack).max(0) + random.slack(strength.slice),
                    };
                    draft.set_multiplier(2, &link, value.min(LARGEST));
                }
            }
        }
    }
}

/// Family 12 from the last year back: the largest that capacity and, for an
/// existing plant after the first year, retirement allow, or somewhat less.
fn price_capacity(random: &mut Random, draft: &mut Draft, strength: &Strength, ledger: &Ledger) {
    for g in 0..draft.shape.plants {
        for y in (0..draft.shape.years).rev() {
            let slack = ledger.slack(&draft.case.multipliers, Column::Cap, &[y, g]);
            let retires = !draft.is_candidate(g) && y > 0;
            let most = slack.min(if retires { 0 } else { LARGEST });
            let value = match random.below(4) {
                0 => most - random.magnitude(strength.plant),
                1 if most > 0 => random.magnitude(most),
                _ => most,
            };
            draft.set_multiplier(12, &[y, g], value.max(-LARGEST));
        }
    }
}

/// Family 16: what a build is underpriced by, at times more.
fn price_builds(random: &mut Random, draft: &mut Draft, strength: &Strength, ledger: &Ledger) {
    for y in 0..draft.shape.years {
        for g in 0..draft.shape.plants {
            let slack = ledger.slack(&draft.case.multipliers, Column::Build, &[y, g]);
            let value = match draft.is_candidate(g) {
                true => (-slack).max(0) + random.slack(strength.plant),
                false => idle(random),
            };
            draft.set_multiplier(16, &[y, g], value.min(LARGEST));
        }
    }
}

/// Families 26, 27 and 28, each pair of zones by itself. The rows of 28 that are empty take
/// anything.
fn price_lines(random: &mut Random, draft: &mut Draft, strength: &Strength, ledger: &Ledger) {
    for z in 0..draft.shape.zones {
        for z2 in 0..draft.shape.zones {
            for y in (0..draft.shape.years).rev() {
                match z < z2 {
                    true => price_totals(random, draft, strength, ledger, [y, z, z2]),
                    false => {
                        let value = idle_of_both_signs(random);
                        draft.set_multiplier(28, &[y, z, z2], value);
                    }
                }
                if z == z2 {
                    price_total_within_zone(random, draft, ledger, [y, z]);
                }
            }
        }
    }
    for z in 0..draft.shape.zones {
        for z2 in 0..draft.shape.zones {
            price_new_lines(random, draft, strength, [z, z2]);
        }
    }
}

/// Families 28 and 26 of a year and of both directions, the lower zone first: 28 as it makes
/// one of the two totals priced exactly, or as drawn; then 26 the largest that a total
/// allows, or somewhat less.
fn price_totals(
    random: &mut Random,
    draft: &mut Draft,
    strength: &Strength,
    ledger: &Ledger,
    [y, z, z2]: [usize; 3],
) {
    let slack = |draft: &Draft, link: [usize; 3]| {
        ledger.slack(&draft.case.multipliers, Column::Total, &link)
    };
    let value = match random.below(4) {
        0 => slack(draft, [y, z, z2]),
        1 => random.signed(-strength.slice, strength.slice),
        _ => -slack(draft, [y, z2, z]),
    };
    draft.set_multiplier(28, &[y, z, z2], value.clamp(-LARGEST, LARGEST));
    for link in [[y, z, z2], [y, z2, z]] {
        let most = slack(draft, link);
        let value = match random.below(4) {
            0 => most - random.magnitude(strength.slice),
            1 if most > 0 => random.magnitude(most),
            _ => most,
        };
        draft.set_multiplier(26, &link, value.clamp(-LARGEST, LARGEST));
    }
}

/// Family 26 within one zone, where the limit of 27 is 0, so that neither adds to the gap.
fn price_total_within_zone(
    random: &mut Random,
    draft: &mut Draft,
    ledger: &Ledger,
    [y, z]: [usize; 2],
) {
    let most = ledger.slack(&draft.case.multipliers, Column::Total, &[y, z, z]);
    let value = most - idle(random) / draft.shape.years as i128;
    draft.set_multiplier(26, &[y, z, z], value.max(-LARGEST));
}

/// Family 27: what the dearest of a pair's builds is underpriced by, at times more.
fn price_new_lines(
    random: &mut Random,
    draft: &mut Draft,
    strength: &Strength,
    [z, z2]: [usize; 2],
) {
    let years = 0..draft.shape.years;
    let least = years.map(|y| draft.multiplier(26, &[y, z, z2])).min();
    let needed = (-least.expect("at least one year")).max(0);
    let value = match z == z2 {
        true => needed.max(idle(random)),
        false => needed + random.slack(strength.slice),
    };
    draft.set_multiplier(27, &[z, z2], value.min(LARGEST));
}
