//! Plans of least cost with multipliers whose gap is 0.
//!
//! No zone trades, ramps and availability do not bind, and so each zone and
//! slice is dispatched in merit order: the cheapest plants first, then unmet. The
//! price of the last megawatt is the multiplier of family 1, what other plants
//! earn above their own price goes to their output limit (family 5, or 11 for
//! VRE) and from there to capacity (family 12), new capacity (family 15) or
//! years outside a plant's life (family 13). Every row with a multiplier is met
//! exactly and every column in use is priced exactly, so the gap is 0.

use super::draft::Draft;
use super::multipliers::Ledger;
use super::needed;
use super::random::Random;
use crate::calls::certify;
use crate::columns::Column;
use crate::data::Table;
use crate::shape::Shape;

/// A plan of least cost whose certificate has gap 0.
pub fn draft(random: &mut Random) -> Draft {
    let mut level = 200_000;
    loop {
        let draft = attempt(random, level);
        let case = &draft.case;
        // Rents of many slices may pass the largest multiplier; lower prices
        // make smaller rents.
        if certify(&case.data, case.scale, &case.plan, &case.multipliers).is_ok() {
            return draft;
        }
        level /= 2;
        assert!(level > 0, "no optimal case at any price level");
    }
}

fn attempt(random: &mut Random, level: i128) -> Draft {
    let largest = [3, 5, 2, 2, 2, 3, 4];
    let shape = Shape::new(largest.map(|count| random.between(1, count) as usize));
    let scale = super::scale(random);
    let mut draft = Draft::empty(shape, scale);
    draw_calendar(random, &mut draft);
    draw_fleet(random, &mut draft);
    draw_prices(random, &mut draft, level);
    plan_capacity(random, &mut draft);
    draw_demand(random, &mut draft);
    // What follows up to the limits changes plan and multipliers alone.
    let data = draft.case.data.clone();
    let ledger = Ledger::new(&data);
    for y in 0..shape.years {
        for z in 0..shape.zones {
            for s in 0..shape.slices() {
                dispatch(&mut draft, &ledger, y, z, s);
            }
            plan_reserves(&mut draft, &ledger, y, z);
        }
    }
    set_limits(random, &mut draft);
    set_annuities(random, &mut draft);
    price_capacity(&mut draft);
    let capital = needed::capital(&draft).min(i128::from(u32::MAX));
    draft.set_data(Table::MaxCapital, &[], capital);
    draft.draw_board(random);
    draft
}

/// R is 1000 ‰, so that every price of generation is a multiple of 1000.
fn draw_calendar(random: &mut Random, draft: &mut Draft) {
    for y in 0..draft.shape.years {
        draft.set_data(Table::ReturnRate, &[y], 1000);
        draft.set_data(Table::Weight, &[y], random.signed(1, 3));
    }
    for s in 0..draft.shape.slices() {
        draft.set_data(Table::Duration, &[s], random.signed(1, 200));
    }
    for q in 0..draft.shape.seasons {
        for d in 0..draft.shape.days {
            draft.set_data(Table::MinimumLoadDay, &[q, d], random.signed(0, 1));
        }
    }
}

fn draw_fleet(random: &mut Random, draft: &mut Draft) {
    let shape = draft.shape;
    let years = shape.years as i128;
    for g in 0..shape.plants {
        let candidate = random.chance(1, 2);
        let vre = random.chance(1, 3);
        let zone = random.signed(0, shape.zones as i128 - 1);
        let fuel = random.signed(0, shape.fuels as i128 - 1);
        let capacity = 10 * random.signed(1, 12);
        draft.set_data(Table::Zone, &[g], zone);
        draft.set_data(Table::Fuel, &[g], fuel);
        draft.set_data(Table::Kind, &[g], i128::from(candidate));
        draft.set_data(Table::Vre, &[g], i128::from(vre));
        if candidate {
            draft.set_data(Table::Year, &[g], random.signed(1, years));
            draft.set_data(Table::MaxNewCap, &[g], capacity);
        } else {
            draft.set_data(Table::Year, &[g], random.signed(2, years + 1));
            draft.set_data(Table::GenCap, &[g], capacity);
        }
        draft.set_data(Table::RampDn, &[g], 1000);
        draft.set_data(Table::RampUp, &[g], 1000);
        draft.set_data(Table::CapCredit, &[g], random.signed(0, 1000));
        draft.set_data(Table::HeatRate, &[g], random.signed(0, 15_000));
        draft.set_data(Table::Emission, &[g], random.signed(0, 1200));
        for q in 0..shape.seasons {
            draft.set_data(Table::Availability, &[g, q], 1000);
        }
        for s in 0..shape.slices() {
            // With capacities in tens of MW, tenths give whole Nths of a MW.
            let tenths = random.signed(0, 10);
            draft.set_data(Table::Profile, &[g, s], 100 * tenths);
        }
    }
}

/// Fixed O&M after the first year would be saved by retiring; it is 0 there.
fn draw_prices(random: &mut Random, draft: &mut Draft, level: i128) {
    for g in 0..draft.shape.plants {
        for y in 0..draft.shape.years {
            draft.set_data(Table::GenCost, &[y, g], random.signed(0, level));
        }
        if !draft.is_candidate(g) {
            draft.set_data(Table::FixedOm, &[0, g], random.magnitude(level));
        }
        draft.set_data(Table::ResCost, &[g], random.magnitude(level));
    }
    for y in 0..draft.shape.years {
        draft.set_data(Table::Tax, &[y], random.magnitude(level / 1000));
    }
    draft.set_data(Table::Voll, &[], random.signed(0, level / 500));
    draft.set_data(Table::SurplusPenalty, &[], random.magnitude(level / 500));
    draft.set_data(Table::ResVoll, &[], random.magnitude(level));
    draft.set_data(Table::SresVoll, &[], random.magnitude(level / 1000));
}

/// Existing plants stay until their retirement year. Half of the candidates are
/// built whole in their commission year, the others not at all.
fn plan_capacity(random: &mut Random, draft: &mut Draft) {
    let years = draft.shape.years;
    for g in 0..draft.shape.plants {
        let year = draft.data(Table::Year, &[g]) as usize;
        if !draft.is_candidate(g) {
            let cap = draft.scale() * draft.data(Table::GenCap, &[g]);
            for y in 0..years.min(year - 1) {
                draft.set_entry(Column::Cap, &[y, g], cap);
            }
            if year <= years {
                draft.set_entry(Column::Retire, &[year - 1, g], cap);
            }
        } else if random.chance(1, 2) {
            let cap = draft.scale() * draft.data(Table::MaxNewCap, &[g]);
            draft.set_entry(Column::Build, &[year - 1, g], cap);
            for y in year - 1..years {
                draft.set_entry(Column::Cap, &[y, g], cap);
            }
        }
    }
}

fn draw_demand(random: &mut Random, draft: &mut Draft) {
    for y in 0..draft.shape.years {
        for z in 0..draft.shape.zones {
            let ee = 1000 * random.signed(0, 3);
            draft.set_data(Table::Ee, &[y, z], ee);
            draft.set_data(Table::SRes, &[y, z], random.signed(0, 20));
            draft.set_data(Table::Prm, &[z], random.signed(0, 300));
            for s in 0..draft.shape.slices() {
                draft.set_data(Table::Demand, &[y, z, s], random.signed(0, 120));
            }
        }
    }
}

/// Merit order in one zone and slice, with its multipliers.
fn dispatch(draft: &mut Draft, ledger: &Ledger, y: usize, z: usize, s: usize) {
    let model = &ledger.model;
    let mut offers: Vec<(i128, usize)> = draft
        .plants_in(z)
        .into_iter()
        .map(|g| (model.price_of(Column::Gen, &[y, g, s]) / 1000, g))
        .collect();
    offers.sort_unstable();
    let unmet_price = model.price_of(Column::Unmet, &[y, z, s]);
    let ee = draft.data(Table::Ee, &[y, z]);
    let demand = draft.data(Table::Demand, &[y, z, s]);
    // In Nths of a MW; EE is a multiple of 1000 ‰.
    let mut rest = draft.scale() * demand * ee / 1000;
    let mut marginal = 0;
    for &(price, g) in offers.iter().filter(|offer| offer.0 <= unmet_price) {
        let gen = rest.min(output_limit(draft, y, g, s));
        if gen > 0 {
            draft.set_entry(Column::Gen, &[y, g, s], gen);
            marginal = price;
            rest -= gen;
        }
    }
    if rest > 0 {
        draft.set_entry(Column::Unmet, &[y, z, s], 1000 * rest);
        marginal = unmet_price;
    }
    draft.set_multiplier(1, &[y, z, s], marginal);
    for (price, g) in offers {
        let rent = (marginal - price).max(0);
        let family = if draft.is_vre(g) { 11 } else { 5 };
        draft.set_multiplier(family, &[y, g, s], rent);
    }
}

fn output_limit(draft: &Draft, y: usize, g: usize, s: usize) -> i128 {
    match draft.is_vre(g) {
        true => draft.data(Table::Profile, &[g, s]) * draft.cap(y, g) / 1000,
        false => draft.cap(y, g),
    }
}

/// No plant offers reserve (ResOffer is 0), so spinshort covers all of it and its
/// price is the multiplier; the same for firmshort where capacity falls short.
fn plan_reserves(draft: &mut Draft, ledger: &Ledger, y: usize, z: usize) {
    let reserve = draft.data(Table::SRes, &[y, z]);
    for s in 0..draft.shape.slices() {
        let price = ledger.model.price_of(Column::SpinShort, &[y, z, s]);
        let short = 1000 * draft.scale() * reserve;
        draft.set_entry(Column::SpinShort, &[y, z, s], short);
        draft.set_multiplier(3, &[y, z, s], price);
        for g in draft.plants_in(z) {
            let slack = ledger.slack(&draft.case.multipliers, Column::Reserve, &[y, g, s]);
            let offer = (-slack.div_euclid(1000)).max(0);
            draft.set_multiplier(6, &[y, g, s], offer);
        }
    }
    let margin = 1000 + draft.data(Table::Prm, &[z]);
    let asked = draft.scale() * margin * needed::peak(draft, y, z);
    let short = asked - needed::firm_supply(draft, y, z);
    if short > 0 {
        let price = ledger.model.price_of(Column::FirmShort, &[y, z]);
        draft.set_entry(Column::FirmShort, &[y, z], short);
        draft.set_multiplier(4, &[y, z], price);
    }
}

/// Limits whose multipliers are 0.
fn set_limits(random: &mut Random, draft: &mut Draft) {
    for y in 0..draft.shape.years {
        let build = needed::yearly_build(draft, y) + random.slack(50);
        draft.set_data(Table::BuildLimit, &[y], build);
        for f in 0..draft.shape.fuels {
            let limit = needed::fuel(draft, y, f) + random.slack(50);
            draft.set_data(Table::MaxFuel, &[y, f], limit);
        }
        for z in 0..draft.shape.zones {
            let limit = needed::zone_emissions(draft, y, z) + random.slack(50);
            draft.set_data(Table::ZoneCap, &[y, z], limit);
        }
        let limit = needed::system_emissions(draft, y) + random.slack(50);
        draft.set_data(Table::SystemCap, &[y], limit);
    }
}

/// A candidate that is built pays at most what it earns, one that is not built
/// would pay at least that. An annuity that does not fit 32 bits is replaced by
/// MaxNewCap 0.
fn set_annuities(random: &mut Random, draft: &mut Draft) {
    let data = draft.case.data.clone();
    let ledger = Ledger::new(&data);
    for g in 0..draft.shape.plants {
        if !draft.is_candidate(g) {
            continue;
        }
        let built = (0..draft.shape.years).any(|y| draft.cap(y, g) > 0);
        let mut dear = true;
        for y in 0..draft.shape.years {
            let rent = -ledger.slack(&draft.case.multipliers, Column::Cap, &[y, g]);
            let weight = ledger.model.data.year_weight(y);
            let even = (rent / weight).min(i128::from(u32::MAX));
            let annuity = match built {
                true => random.signed(0, even),
                false => (even + 1 + random.slack(1000)).min(i128::from(u32::MAX)),
            };
            dear = dear && weight * annuity >= rent;
            draft.set_data(Table::Annuity, &[y, g], annuity);
        }
        if !built && !dear {
            draft.set_data(Table::MaxNewCap, &[g], 0);
        }
    }
}

/// Families 12, 13 and 15.
fn price_capacity(draft: &mut Draft) {
    let data = draft.case.data.clone();
    let ledger = Ledger::new(&data);
    for g in 0..draft.shape.plants {
        let candidate = draft.is_candidate(g);
        let year = draft.data(Table::Year, &[g]) as usize;
        let mut later = 0;
        for y in (0..draft.shape.years).rev() {
            let slack = |draft: &Draft| ledger.slack(&draft.case.multipliers, Column::Cap, &[y, g]);
            let shut = if candidate {
                y + 1 < year
            } else {
                y + 1 >= year
            };
            let value = match (shut, candidate) {
                (true, true) => later,
                (true, false) => 0,
                (false, true) => slack(draft).min(0),
                (false, false) => slack(draft),
            };
            draft.set_multiplier(12, &[y, g], value);
            if shut {
                let rent = (-slack(draft)).max(0);
                draft.set_multiplier(13, &[y, g], rent);
            }
            later = value;
        }
        if candidate {
            let least = (0..draft.shape.years)
                .map(|y| draft.multiplier(12, &[y, g]))
                .min();
            draft.set_multiplier(15, &[g], (-least.unwrap_or(0)).max(0));
        }
    }
}
