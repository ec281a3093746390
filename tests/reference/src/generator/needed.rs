//! For each limit in the data, the value that a plan just meets. The sound
//! generator sets limits from these, and the damages put a limit one past
//! them, so they are worked out here from the equations of documents 01 and 02 and
//! not through the rows of the implementation.

use super::draft::Draft;
use crate::columns::Column;
use crate::data::Table;

/// The least whole number whose product with `unit` is at least `amount`.
pub fn quotient_up(amount: i128, unit: i128) -> i128 {
    -(-amount).div_euclid(unit)
}

fn years(draft: &Draft) -> std::ops::Range<usize> {
    0..draft.shape.years
}

fn slices(draft: &Draft) -> std::ops::Range<usize> {
    0..draft.shape.slices()
}

/// The largest of `amount` over all years and slices in which the plant has
/// capacity, in thousandths of that capacity, rounded up.
fn largest_share(draft: &Draft, g: usize, amount: impl Fn(usize, usize) -> i128) -> i128 {
    let mut largest = 0;
    for y in years(draft).filter(|&y| draft.cap(y, g) > 0) {
        for s in slices(draft) {
            let share = quotient_up(1000 * amount(y, s), draft.cap(y, g));
            largest = largest.max(share);
        }
    }
    largest
}

/// (15): the least TL[y,z,z2,q] beside the lines that are built.
pub fn transfer_limit(draft: &Draft, y: usize, z: usize, z2: usize, q: usize) -> i128 {
    let season = draft.shape.slices_of_season(q);
    let most = season.map(|s| draft.entry(Column::Trans, &[y, z, z2, s]));
    let rest = most.max().unwrap_or(0) - draft.line_capacity(y, z, z2);
    quotient_up(rest, draft.scale()).max(0)
}

/// (15): the least MW per line[z,z2] beside TL.
pub fn line_mw(draft: &Draft, z: usize, z2: usize) -> i128 {
    let mut largest = 0;
    for y in years(draft) {
        let total = draft.entry(Column::Total, &[y, z, z2]);
        for s in slices(draft).filter(|_| total > 0) {
            let q = draft.shape.season_of(s);
            let limit = draft.scale() * draft.data(Table::Tl, &[y, z, z2, q]);
            let rest = draft.entry(Column::Trans, &[y, z, z2, s]) - limit;
            largest = largest.max(quotient_up(rest, total));
        }
    }
    largest
}

/// (19) without SRes, in Nths of a kW.
pub fn spinning_supply(draft: &Draft, y: usize, z: usize, s: usize) -> i128 {
    let q = draft.shape.season_of(s);
    let error = draft.data(Table::Err, &[]);
    let mut supply = draft.entry(Column::SpinShort, &[y, z, s]);
    for g in draft.plants_in(z) {
        supply += 1000 * draft.entry(Column::Reserve, &[y, g, s]);
        if draft.is_vre(g) {
            supply -= error * draft.gen(y, g, s);
        }
    }
    for z2 in draft.zones_beside(z) {
        let limit = draft.scale() * draft.data(Table::Tl, &[y, z2, z, q]);
        let free = limit + draft.line_capacity(y, z2, z);
        supply += 1000 * (free - draft.entry(Column::Trans, &[y, z2, z, s]));
    }
    supply
}

/// (19): the largest SRes[y,z].
pub fn spinning_reserve(draft: &Draft, y: usize, z: usize) -> i128 {
    let least = slices(draft).map(|s| spinning_supply(draft, y, z, s)).min();
    least.unwrap_or(0).div_euclid(1000 * draft.scale())
}

pub fn peak(draft: &Draft, y: usize, z: usize) -> i128 {
    let demand = slices(draft).map(|s| draft.data(Table::Demand, &[y, z, s]));
    demand.max().unwrap_or(0)
}

/// (21): what the links into a zone count together, in MW, each with the lowest of its
/// season limits.
pub fn firm_links(draft: &Draft, y: usize, z: usize) -> i128 {
    let mut counted = 0;
    for z2 in draft.zones_beside(z) {
        let mut lowest = draft.data(Table::Tl, &[y, z2, z, 0]);
        for q in 1..draft.shape.seasons {
            lowest = lowest.min(draft.data(Table::Tl, &[y, z2, z, q]));
        }
        counted += lowest;
    }
    counted
}

/// (21) without the peak, in Nths of a kW.
pub fn firm_supply(draft: &Draft, y: usize, z: usize) -> i128 {
    let mut supply = draft.entry(Column::FirmShort, &[y, z]);
    for g in draft.plants_in(z) {
        supply += draft.data(Table::CapCredit, &[g]) * draft.cap(y, g);
    }
    supply + 1000 * draft.scale() * firm_links(draft, y, z)
}

/// (21): the largest PRM[z]; none where every peak is 0.
pub fn margin(draft: &Draft, z: usize) -> Option<i128> {
    years(draft)
        .filter(|&y| peak(draft, y, z) > 0)
        .map(|y| firm_supply(draft, y, z) / (draft.scale() * peak(draft, y, z)) - 1000)
        .min()
}

/// (22): the least OverLoad[g].
pub fn over_load(draft: &Draft, g: usize) -> i128 {
    let used = |y, s| draft.gen(y, g, s) + draft.entry(Column::Reserve, &[y, g, s]);
    (largest_share(draft, g, used) - 1000).max(0)
}

/// (23): the least ResOffer[g].
pub fn reserve_offer(draft: &Draft, g: usize) -> i128 {
    largest_share(draft, g, |y, s| draft.entry(Column::Reserve, &[y, g, s]))
}

/// (24): the least RampDn[g].
pub fn ramp_down(draft: &Draft, g: usize) -> i128 {
    largest_share(draft, g, |y, s| match draft.shape.hour_of(s) {
        0 => 0,
        _ => draft.gen(y, g, s - 1) - draft.gen(y, g, s),
    })
}

/// (25): the least RampUp[g].
pub fn ramp_up(draft: &Draft, g: usize) -> i128 {
    largest_share(draft, g, |y, s| match draft.shape.hour_of(s) {
        0 => 0,
        _ => draft.gen(y, g, s) - draft.gen(y, g, s - 1),
    })
}

/// (47): the least RampDn[g] that a battery's charge needs.
pub fn charge_rise(draft: &Draft, g: usize) -> i128 {
    largest_share(draft, g, |y, s| charge_step(draft, y, g, s))
}

/// (48): the least RampUp[g] that a battery's charge needs.
pub fn charge_fall(draft: &Draft, g: usize) -> i128 {
    largest_share(draft, g, |y, s| -charge_step(draft, y, g, s))
}

/// How much more a battery charges than in the hour before; 0 in a day's first hour.
fn charge_step(draft: &Draft, y: usize, g: usize, s: usize) -> i128 {
    let charge = |s| draft.entry(Column::Charge, &[y, g, s]);
    match draft.shape.hour_of(s) {
        0 => 0,
        _ => charge(s) - charge(s - 1),
    }
}

/// (46): the least energy capacity of a battery.
pub fn energy_capacity(draft: &Draft, g: usize) -> i128 {
    let levels = |y| slices(draft).map(move |s| draft.entry(Column::Level, &[y, g, s]));
    let most = years(draft).flat_map(levels).max();
    quotient_up(most.unwrap_or(0), draft.scale())
}

/// (26): the largest MinCapFac[g]; none where no minimum-load day meets
/// capacity.
pub fn minimum_load(draft: &Draft, g: usize) -> Option<i128> {
    let mut least: Option<i128> = None;
    for y in years(draft).filter(|&y| draft.cap(y, g) > 0) {
        for s in slices(draft).filter(|&s| draft.is_minimum_load_day(s)) {
            let share = 1000 * draft.gen(y, g, s) / draft.cap(y, g);
            least = Some(least.map_or(share, |least| least.min(share)));
        }
    }
    least
}

/// (27): the least Availability[g,q].
pub fn availability(draft: &Draft, g: usize, q: usize) -> i128 {
    let season = || draft.shape.slices_of_season(q);
    let hours: i128 = season().map(|s| draft.data(Table::Duration, &[s])).sum();
    let mut largest = 0;
    for y in years(draft).filter(|&y| draft.cap(y, g) > 0 && hours > 0) {
        let energy: i128 = season()
            .map(|s| draft.data(Table::Duration, &[s]) * draft.gen(y, g, s))
            .sum();
        largest = largest.max(quotient_up(1000 * energy, hours * draft.cap(y, g)));
    }
    largest
}

/// (28): the least Profile[g,s] of a VRE plant.
pub fn profile(draft: &Draft, g: usize, s: usize) -> i128 {
    let mut largest = 0;
    for y in years(draft).filter(|&y| draft.cap(y, g) > 0) {
        let share = quotient_up(1000 * draft.gen(y, g, s), draft.cap(y, g));
        largest = largest.max(share);
    }
    largest
}

/// (55): the least MaxNewCap[g] of a candidate.
pub fn new_capacity(draft: &Draft, g: usize) -> i128 {
    let built: i128 = years(draft)
        .map(|y| draft.entry(Column::Build, &[y, g]))
        .sum();
    quotient_up(built, draft.scale())
}

/// Family 27: the least line limit[z,z2].
pub fn line_limit(draft: &Draft, z: usize, z2: usize) -> i128 {
    quotient_up(lines_built(draft, z, z2), draft.scale())
}

/// The builds of a pair in all years, in Nths of a line.
pub fn lines_built(draft: &Draft, z: usize, z2: usize) -> i128 {
    years(draft)
        .map(|y| draft.entry(Column::Built, &[y, z, z2]))
        .sum()
}

/// (58): the least BuildLimit[y].
pub fn yearly_build(draft: &Draft, y: usize) -> i128 {
    let largest = (0..draft.shape.plants)
        .filter(|&g| draft.is_candidate(g))
        .map(|g| draft.entry(Column::Build, &[y, g]))
        .max();
    let unit = draft.scale() * draft.data(Table::Weight, &[y]);
    quotient_up(largest.unwrap_or(0), unit)
}

/// Σ Dur·gen of a plant and year, in Nths of a MWh.
pub fn energy(draft: &Draft, y: usize, g: usize) -> i128 {
    slices(draft)
        .map(|s| draft.data(Table::Duration, &[s]) * draft.gen(y, g, s))
        .sum()
}

/// (62): the least MaxFuel[y,f], which every zone has to itself.
pub fn fuel(draft: &Draft, y: usize, f: usize) -> i128 {
    let use_of_zone = |z| -> i128 {
        let plants = draft.plants_in(z).into_iter();
        plants
            .filter(|&g| draft.data(Table::Fuel, &[g]) == f as i128)
            .map(|g| draft.data(Table::HeatRate, &[g]) * energy(draft, y, g))
            .sum()
    };
    let largest = (0..draft.shape.zones).map(use_of_zone).max();
    quotient_up(largest.unwrap_or(0), 1000 * draft.scale())
}

/// (64) in millionths of a money unit, in Nths.
pub fn capital_used(draft: &Draft) -> i128 {
    let mut used = 0;
    for y in years(draft) {
        let weight = draft.data(Table::ReturnRate, &[y]) * draft.data(Table::Weight, &[y]);
        for g in (0..draft.shape.plants).filter(|&g| draft.is_candidate(g)) {
            used += weight * draft.data(Table::Annuity, &[y, g]) * draft.cap(y, g);
        }
    }
    used
}

/// (64): the least MaxCapital.
pub fn capital(draft: &Draft) -> i128 {
    quotient_up(capital_used(draft), 1_000_000_000 * draft.scale())
}

fn emissions(draft: &Draft, y: usize, plants: impl Iterator<Item = usize>) -> i128 {
    plants
        .map(|g| draft.data(Table::Emission, &[g]) * energy(draft, y, g))
        .sum()
}

/// (66): the least zone cap [y,z].
pub fn zone_emissions(draft: &Draft, y: usize, z: usize) -> i128 {
    let emitted = emissions(draft, y, draft.plants_in(z).into_iter());
    quotient_up(emitted, 1000 * draft.scale())
}

/// (68): the least system cap [y].
pub fn system_emissions(draft: &Draft, y: usize) -> i128 {
    let emitted = emissions(draft, y, 0..draft.shape.plants);
    quotient_up(emitted, 1000 * draft.scale())
}
