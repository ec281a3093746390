//! Data and a plan that check accepts.
//!
//! The plan comes first: capacity, dispatch, storage, reserve, lines and transfers
//! are drawn freely, and the limits in the data are then set to what the plan uses,
//! often exactly. Demand follows from the supply, and unmet, surplus and the two
//! short columns take up what is left.

use super::draft::Draft;
use super::needed;
use super::random::Random;
use crate::columns::Column;
use crate::data::Table;
use crate::model::Model;
use crate::shape::Shape;
use crate::sums::LIMIT;

const LARGEST: i128 = u32::MAX as i128;

/// Draws data and plan of a shape at scale N.
pub fn draft(random: &mut Random, shape: Shape, scale: u32) -> Draft {
    draft_of_size(random, shape, scale, plant_size(shape, scale))
}

/// The same with plants of at most `size` MW, which is at most `plant_size`.
pub fn draft_of_size(random: &mut Random, shape: Shape, scale: u32, size: i128) -> Draft {
    let mut draft = Draft::empty(shape, scale);
    draw_calendar(random, &mut draft);
    draw_fleet(random, &mut draft, size);
    plan_capacity(random, &mut draft, size);
    plan_dispatch(random, &mut draft);
    set_dispatch_limits(random, &mut draft);
    plan_lines(random, &mut draft, size);
    plan_transfers(random, &mut draft, size);
    balance_demand(random, &mut draft, size);
    plan_spinning_reserve(random, &mut draft);
    plan_firm_capacity(random, &mut draft);
    set_build_limits(random, &mut draft);
    set_fuel_and_emissions(random, &mut draft);
    draw_prices(random, &mut draft);
    fit_prices(random, &mut draft);
    draft
}

/// The largest plant in MW. All supply of a zone, in Nths of a kW, stays below
/// 2^30, so that unmet, surplus and the short columns fit 32 bits.
fn plant_size(shape: Shape, scale: u32) -> i128 {
    let members = (shape.plants + shape.zones) as i128;
    let size = (1 << 30) / (2000 * i128::from(scale) * members);
    size.clamp(1, 20_000)
}

/// R, V, Dur and the minimum-load days; the durations add up to about a year.
fn draw_calendar(random: &mut Random, draft: &mut Draft) {
    for y in 0..draft.shape.years {
        let rate = match random.below(12) {
            0 => 0,
            1 => 1000,
            _ => random.signed(300, 1000),
        };
        let weight = match random.below(6) {
            0 => random.signed(1, 20),
            _ => random.signed(1, 5),
        };
        draft.set_data(Table::ReturnRate, &[y], rate);
        draft.set_data(Table::Weight, &[y], weight);
    }
    let typical = 8760 / draft.shape.slices() as i128;
    for s in 0..draft.shape.slices() {
        let hours = match random.below(10) {
            0 => 0,
            1 => typical,
            _ => random.signed(typical / 2, typical + typical / 2),
        };
        draft.set_data(Table::Duration, &[s], hours.min(8784));
    }
    for q in 0..draft.shape.seasons {
        for d in 0..draft.shape.days {
            let flag = random.chance(1, 2);
            draft.set_data(Table::MinimumLoadDay, &[q, d], i128::from(flag));
        }
    }
}

/// Zone, fuel, kind, VRE, GenCap, year, battery and efficiency of each plant.
fn draw_fleet(random: &mut Random, draft: &mut Draft, size: i128) {
    let years = draft.shape.years as i128;
    for g in 0..draft.shape.plants {
        let zone = random.below(draft.shape.zones as u64);
        let fuel = random.below(draft.shape.fuels as u64);
        let candidate = random.chance(2, 5);
        let vre = random.chance(2, 5);
        let battery = !vre && random.chance(2, 5);
        draft.set_data(Table::Zone, &[g], i128::from(zone));
        draft.set_data(Table::Fuel, &[g], i128::from(fuel));
        draft.set_data(Table::Kind, &[g], i128::from(candidate));
        draft.set_data(Table::Vre, &[g], i128::from(vre));
        draft.set_data(Table::Battery, &[g], i128::from(battery));
        draft.set_data(Table::Efficiency, &[g], draw_efficiency(random));
        if candidate {
            let year = random.signed(1, years);
            draft.set_data(Table::Year, &[g], year);
        } else {
            let year = random.signed(2, years + 1);
            let capacity = match random.below(12) {
                0 => 0,
                _ => random.signed(1, size),
            };
            draft.set_data(Table::Year, &[g], year);
            draft.set_data(Table::GenCap, &[g], capacity);
        }
    }
}

/// Mostly that of a battery that is for sale; a plant that is none may have any.
fn draw_efficiency(random: &mut Random) -> i128 {
    match random.below(6) {
        0 => 1000,
        1 => random.signed(0, 1000),
        _ => random.signed(700, 980),
    }
}

/// Cap, build and retire: families 12, 13 and 14.
fn plan_capacity(random: &mut Random, draft: &mut Draft, size: i128) {
    for g in 0..draft.shape.plants {
        if draft.is_candidate(g) {
            plan_builds(random, draft, g, size);
        } else {
            plan_retirements(random, draft, g);
        }
    }
}

fn plan_builds(random: &mut Random, draft: &mut Draft, g: usize, size: i128) {
    let years = draft.shape.years;
    let commission = draft.data(Table::Year, &[g]);
    let largest = (size * draft.scale() / years as i128).max(1);
    let mut cap = 0;
    for y in 0..years {
        let open = y as i128 + 1 >= commission;
        let build = match open && random.chance(2, 3) {
            true => random.signed(0, largest),
            false => 0,
        };
        cap += build;
        draft.set_entry(Column::Build, &[y, g], build);
        draft.set_entry(Column::Cap, &[y, g], cap);
    }
}

fn plan_retirements(random: &mut Random, draft: &mut Draft, g: usize) {
    let retirement = draft.data(Table::Year, &[g]);
    let mut cap = draft.scale() * draft.data(Table::GenCap, &[g]);
    draft.set_entry(Column::Cap, &[0, g], cap);
    for y in 1..draft.shape.years {
        let retire = if y as i128 + 1 >= retirement {
            cap
        } else if random.chance(1, 4) {
            random.signed(0, cap)
        } else {
            0
        };
        cap -= retire;
        draft.set_entry(Column::Retire, &[y, g], retire);
        draft.set_entry(Column::Cap, &[y, g], cap);
    }
}

/// Gen, reserve, charge and level. Output stays within the capacity but for some overloaded
/// slices, the changes between hours within the capacity too, so that ramps and
/// seasonal availability of at most 1000 ‰ can allow them.
fn plan_dispatch(random: &mut Random, draft: &mut Draft) {
    for g in 0..draft.shape.plants {
        let must_run = random.chance(1, 2);
        for y in 0..draft.shape.years {
            let cap = draft.cap(y, g);
            let floor = match must_run {
                true => random.signed(0, cap / 2),
                false => 0,
            };
            if draft.is_battery(g) {
                plan_storage(random, draft, y, g);
            } else {
                plan_output(random, draft, y, g, floor);
                if !draft.is_vre(g) {
                    overload(random, draft, y, g);
                }
            }
            plan_offers(random, draft, y, g);
        }
    }
}

fn plan_output(random: &mut Random, draft: &mut Draft, y: usize, g: usize, floor: i128) {
    let cap = draft.cap(y, g);
    let mut level = 0;
    for s in 0..draft.shape.slices() {
        let step = cap / 4;
        level = match random.below(10) {
            _ if draft.shape.hour_of(s) == 0 => random.signed(floor, cap),
            0 => random.signed(floor, cap),
            1..=3 => level,
            4 => cap,
            _ => (level + random.signed(-step, step)).clamp(floor, cap),
        };
        draft.set_entry(Column::Gen, &[y, g, s], level);
    }
}

/// The largest level in hours of a battery's whole capacity. All supply of a zone
/// in Nths of a kW is below 2^30, so that such a level fits 32 bits.
const LARGEST_STORE: i128 = 3;

/// A battery's charge, gen and level, each day from level 0. It charges or gives,
/// in some slices both, as far as the level and a store drawn for the year allow.
fn plan_storage(random: &mut Random, draft: &mut Draft, y: usize, g: usize) {
    let cap = draft.cap(y, g);
    let efficiency = draft.data(Table::Efficiency, &[g]);
    let store = random.signed(0, 1000 * LARGEST_STORE * cap);
    let mut level = 0;
    for s in 0..draft.shape.slices() {
        if draft.shape.hour_of(s) == 0 {
            level = 0;
        }
        let (charges, gives) = *random.pick(&[(true, false), (false, true), (true, true)]);
        let mut charge = 0;
        if charges {
            let fitting = (store - level) / efficiency.max(1);
            charge = part_or_whole(random, cap.min(fitting));
            level += efficiency * charge;
        }
        let mut gen = 0;
        if gives {
            gen = part_or_whole(random, cap.min(level / 1000));
            level -= 1000 * gen;
        }
        draft.set_entry(Column::Charge, &[y, g, s], charge);
        draft.set_entry(Column::Gen, &[y, g, s], gen);
        draft.set_entry(Column::Level, &[y, g, s], level);
    }
}

/// The most itself half of the time, otherwise anything up to it.
fn part_or_whole(random: &mut Random, most: i128) -> i128 {
    match random.below(2) {
        0 => most,
        _ => random.signed(0, most),
    }
}

fn overload(random: &mut Random, draft: &mut Draft, y: usize, g: usize) {
    let cap = draft.cap(y, g);
    for q in 0..draft.shape.seasons {
        let season = draft.shape.slices_of_season(q);
        let mut room: i128 = season
            .clone()
            .map(|s| draft.data(Table::Duration, &[s]) * (cap - draft.gen(y, g, s)))
            .sum();
        for s in season {
            if !random.chance(1, 6) {
                continue;
            }
            let raised = random.signed(cap, cap + cap / 2);
            let hours = draft.data(Table::Duration, &[s]);
            let energy = hours * (raised - draft.gen(y, g, s));
            let last_hour = draft.shape.hour_of(s) + 1 == draft.shape.hours;
            let before = draft.shape.hour_of(s) == 0 || raised - draft.gen(y, g, s - 1) <= cap;
            let after = last_hour || raised - draft.gen(y, g, s + 1) <= cap;
            if energy <= room && before && after {
                room -= energy;
                draft.set_entry(Column::Gen, &[y, g, s], raised);
            }
        }
    }
}

fn plan_offers(random: &mut Random, draft: &mut Draft, y: usize, g: usize) {
    let cap = draft.cap(y, g);
    for s in 0..draft.shape.slices() {
        if random.chance(1, 2) {
            let reserve = random.signed(0, cap / 4);
            draft.set_entry(Column::Reserve, &[y, g, s], reserve);
        }
    }
}

/// OverLoad, ResOffer, RampDn, RampUp, MinCapFac, Availability, Profile and energy
/// capacity from what the plan uses; CapCredit freely.
fn set_dispatch_limits(random: &mut Random, draft: &mut Draft) {
    for g in 0..draft.shape.plants {
        let least = [
            (Table::OverLoad, needed::over_load(draft, g)),
            (Table::ResOffer, needed::reserve_offer(draft, g)),
            (
                Table::RampDn,
                needed::ramp_down(draft, g).max(needed::charge_rise(draft, g)),
            ),
            (
                Table::RampUp,
                needed::ramp_up(draft, g).max(needed::charge_fall(draft, g)),
            ),
        ];
        for (table, needed) in least {
            let limit = needed + random.slack(1000 - needed);
            draft.set_data(table, &[g], limit);
        }
        let most = needed::minimum_load(draft, g).unwrap_or(1000).min(1000);
        let factor = most - random.slack(most);
        draft.set_data(Table::MinCapFac, &[g], factor);
        draft.set_data(Table::CapCredit, &[g], random.signed(0, 1000));
        for q in 0..draft.shape.seasons {
            let needed = needed::availability(draft, g, q);
            let limit = needed + random.slack(1000 - needed);
            draft.set_data(Table::Availability, &[g, q], limit);
        }
        for s in 0..draft.shape.slices() {
            let limit = match draft.is_vre(g) {
                true => {
                    let needed = needed::profile(draft, g, s);
                    needed + random.slack(1000 - needed)
                }
                false => random.signed(0, 1000),
            };
            draft.set_data(Table::Profile, &[g, s], limit);
        }
        let capacity = match draft.is_battery(g) {
            true => needed::energy_capacity(draft, g) + random.slack(1000),
            false => random.magnitude(LARGEST),
        };
        draft.set_data(Table::EnergyCapacity, &[g], capacity);
    }
}

/// The most lines of a pair of zones; together they carry about what a plant gives.
const LARGEST_LINES: i128 = 4;

/// Built, total, MW per line and line limit. One draft in three has no lines at all.
fn plan_lines(random: &mut Random, draft: &mut Draft, size: i128) {
    if random.chance(1, 3) {
        return;
    }
    for pair in draft.pairs() {
        plan_builds_of_lines(random, draft, pair);
        let [z, z2] = pair;
        for (from, to) in [(z, z2), (z2, z)] {
            let mw = random.signed(0, (size / LARGEST_LINES).max(1));
            draft.set_data(Table::LineMw, &[from, to], mw);
            let limit = needed::line_limit(draft, from, to) + random.slack(100);
            draft.set_data(Table::LineLimit, &[from, to], limit);
        }
    }
}

/// A pair's lines, year by year, in Nths of a line: as many in both directions.
fn plan_builds_of_lines(random: &mut Random, draft: &mut Draft, [z, z2]: [usize; 2]) {
    let largest = (LARGEST_LINES * draft.scale() / draft.shape.years as i128).max(1);
    if random.chance(1, 3) {
        return;
    }
    for y in 0..draft.shape.years {
        if random.chance(2, 3) {
            let built = part_or_whole(random, largest);
            for link in [[y, z, z2], [y, z2, z]] {
                draft.build_lines(link, built).expect("a small number");
            }
        }
    }
}

/// Trans, TL and Loss. Within a zone trans and TL are 0, Loss is not used.
fn plan_transfers(random: &mut Random, draft: &mut Draft, size: i128) {
    for y in 0..draft.shape.years {
        for z in 0..draft.shape.zones {
            for z2 in 0..draft.shape.zones {
                let loss = match random.below(8) {
                    0 => random.signed(0, 1000),
                    1 => 0,
                    _ => random.signed(1, 100),
                };
                draft.set_data(Table::Loss, &[y, z, z2], loss);
                if z != z2 {
                    plan_link(random, draft, [y, z, z2], size);
                }
            }
        }
    }
}

fn plan_link(random: &mut Random, draft: &mut Draft, link: [usize; 3], size: i128) {
    let [y, z, z2] = link;
    if random.chance(2, 3) {
        let largest = random.signed(0, size * draft.scale());
        for s in 0..draft.shape.slices() {
            if random.chance(2, 3) {
                let flow = random.signed(0, largest);
                draft.set_entry(Column::Trans, &[y, z, z2, s], flow);
            }
        }
    }
    for q in 0..draft.shape.seasons {
        let limit = needed::transfer_limit(draft, y, z, z2, q) + random.slack(size / 4);
        draft.set_data(Table::Tl, &[y, z, z2, q], limit);
    }
}

/// Supply of a zone before unmet and surplus, in Nths of a kW: (14).
pub fn net_supply(draft: &Draft, y: usize, z: usize, s: usize) -> i128 {
    let mut supply = 0;
    for g in draft.plants_in(z) {
        supply += 1000 * draft.gen(y, g, s);
        supply -= 1000 * draft.entry(Column::Charge, &[y, g, s]);
    }
    for z2 in draft.zones_beside(z) {
        let received = 1000 - draft.data(Table::Loss, &[y, z2, z]);
        supply -= 1000 * draft.entry(Column::Trans, &[y, z, z2, s]);
        supply += received * draft.entry(Column::Trans, &[y, z2, z, s]);
    }
    supply
}

/// Demand, EE, unmet and surplus. Demand is set beside the supply and the rest
/// is unmet or surplus. An EE far below 1000 ‰ may ask for a demand whose
/// planning reserve does not fit; EE is 1000 ‰ then.
fn balance_demand(random: &mut Random, draft: &mut Draft, size: i128) {
    for y in 0..draft.shape.years {
        for z in 0..draft.shape.zones {
            let supply: Vec<i128> = (0..draft.shape.slices())
                .map(|s| net_supply(draft, y, z, s))
                .collect();
            let drawn = match random.below(8) {
                0 => 0,
                1 => random.signed(1, 300),
                2 => 5000,
                _ => random.signed(500, 1500),
            };
            let unit = draft.scale() * drawn;
            let peak = supply.iter().max().map_or(0, |most| most / unit.max(1));
            let fits = drawn == 0 || (peak + 2) * 2000 * draft.scale() < LARGEST;
            let ee = if fits { drawn } else { 1000 };
            draft.set_data(Table::Ee, &[y, z], ee);
            for (s, &net) in supply.iter().enumerate() {
                let demand = match ee {
                    0 => random.signed(0, size),
                    _ => demand_beside(random, net, draft.scale() * ee),
                };
                draft.set_data(Table::Demand, &[y, z, s], demand);
                let short = draft.scale() * demand * ee - net;
                set_shortfall(random, draft, [y, z, s], short);
            }
        }
    }
}

/// The demand just below or just above the supply, and not below 0.
fn demand_beside(random: &mut Random, net: i128, unit: i128) -> i128 {
    let below = net.div_euclid(unit);
    (below + random.signed(0, 1)).max(0)
}

/// Unmet for a shortfall, surplus for an excess; at times both are raised.
fn set_shortfall(random: &mut Random, draft: &mut Draft, place: [usize; 3], short: i128) {
    let both = match random.below(5) {
        0 => random.magnitude(1 << 20),
        _ => 0,
    };
    draft.set_entry(Column::Unmet, &place, short.max(0) + both);
    draft.set_entry(Column::Surplus, &place, (-short).max(0) + both);
}

/// Err, SRes and spinshort: SRes is what the least supplied slice allows, or
/// what another one does, and spinshort covers the rest.
fn plan_spinning_reserve(random: &mut Random, draft: &mut Draft) {
    let error = match random.below(4) {
        0 => 0,
        _ => random.signed(0, 1000),
    };
    draft.set_data(Table::Err, &[], error);
    for y in 0..draft.shape.years {
        for z in 0..draft.shape.zones {
            let supply: Vec<i128> = (0..draft.shape.slices())
                .map(|s| needed::spinning_supply(draft, y, z, s))
                .collect();
            let met = match random.below(3) {
                0 => *random.pick(&supply),
                _ => *supply.iter().min().expect("at least one slice"),
            };
            let unit = 1000 * draft.scale();
            let reserve = met.div_euclid(unit).max(0);
            draft.set_data(Table::SRes, &[y, z], reserve);
            for (s, &supplied) in supply.iter().enumerate() {
                let short = (unit * reserve - supplied).max(0);
                let extra = random.slack(1000);
                draft.set_entry(Column::SpinShort, &[y, z, s], short + extra);
            }
        }
    }
}

/// PRM and firmshort: PRM is the largest that capacity and links carry alone, or
/// drawn, and firmshort covers the rest.
fn plan_firm_capacity(random: &mut Random, draft: &mut Draft) {
    for z in 0..draft.shape.zones {
        let carried = needed::margin(draft, z).unwrap_or(0);
        let margin = match random.below(2) {
            0 => carried.clamp(0, 1000),
            _ => random.signed(0, 300),
        };
        draft.set_data(Table::Prm, &[z], margin);
        for y in 0..draft.shape.years {
            let asked = draft.scale() * (1000 + margin) * needed::peak(draft, y, z);
            let short = (asked - needed::firm_supply(draft, y, z)).max(0);
            let extra = random.slack(1000);
            draft.set_entry(Column::FirmShort, &[y, z], short + extra);
        }
    }
}

/// MaxNewCap and BuildLimit.
fn set_build_limits(random: &mut Random, draft: &mut Draft) {
    for g in 0..draft.shape.plants {
        if draft.is_candidate(g) {
            let limit = needed::new_capacity(draft, g) + random.slack(100);
            draft.set_data(Table::MaxNewCap, &[g], limit);
        }
    }
    for y in 0..draft.shape.years {
        let limit = needed::yearly_build(draft, y) + random.slack(100);
        draft.set_data(Table::BuildLimit, &[y], limit);
    }
}

/// HeatRate, E, MaxFuel and the two emission caps. The rates are held down so
/// far that the limits fit 32 bits.
fn set_fuel_and_emissions(random: &mut Random, draft: &mut Draft) {
    let (years, plants) = (draft.shape.years, draft.shape.plants);
    let total: i128 = (0..years)
        .map(|y| (0..plants).map(|g| needed::energy(draft, y, g)).sum())
        .max()
        .unwrap_or(0);
    let largest_rate = (LARGEST / 2) * 1000 * draft.scale() / total.max(1);
    for g in 0..plants {
        let rate = match random.below(6) {
            0 => 0,
            1 => 100_000,
            _ => random.signed(3000, 15_000),
        };
        let emission = match random.below(6) {
            0 => 0,
            1 => 10_000,
            _ => random.signed(200, 1200),
        };
        draft.set_data(Table::HeatRate, &[g], rate.min(largest_rate));
        draft.set_data(Table::Emission, &[g], emission.min(largest_rate));
    }
    for y in 0..years {
        for f in 0..draft.shape.fuels {
            let limit = needed::fuel(draft, y, f) + random.slack(1000);
            draft.set_data(Table::MaxFuel, &[y, f], limit);
        }
        for z in 0..draft.shape.zones {
            let limit = needed::zone_emissions(draft, y, z) + random.slack(1000);
            draft.set_data(Table::ZoneCap, &[y, z], limit);
        }
        let limit = needed::system_emissions(draft, y) + random.slack(1000);
        draft.set_data(Table::SystemCap, &[y], limit);
    }
}

/// Tables that hold prices, for drawing and for fitting.
const PRICES_BY_YEAR_AND_PLANT: [(Table, i128); 3] = [
    (Table::Annuity, 200_000_000),
    (Table::FixedOm, 50_000_000),
    (Table::GenCost, 200_000),
];
const SINGLE_PRICES: [(Table, i128); 4] = [
    (Table::Voll, 10_000),
    (Table::SurplusPenalty, 500),
    (Table::ResVoll, 1_000_000),
    (Table::SresVoll, 500),
];
const LARGEST_RESERVE_PRICE: i128 = 20_000;
const LARGEST_LINE_PRICE: i128 = 200_000_000;
const LARGEST_TAX: i128 = 100;

fn draw_prices(random: &mut Random, draft: &mut Draft) {
    let price = |random: &mut Random, largest: i128| match random.below(8) {
        0 => 0,
        1 => random.magnitude(largest),
        _ => random.signed(largest / 10, largest),
    };
    for (table, largest) in SINGLE_PRICES {
        draft.set_data(table, &[], price(random, largest));
    }
    for g in 0..draft.shape.plants {
        draft.set_data(Table::ResCost, &[g], price(random, LARGEST_RESERVE_PRICE));
        for y in 0..draft.shape.years {
            for (table, largest) in PRICES_BY_YEAR_AND_PLANT {
                draft.set_data(table, &[y, g], price(random, largest));
            }
        }
    }
    for y in 0..draft.shape.years {
        draft.set_data(Table::Tax, &[y], price(random, LARGEST_TAX));
    }
    // Both directions have an annuity, and only that of the lower zone is paid.
    for [z, z2] in draft.pairs() {
        for link in [[z, z2], [z2, z]] {
            draft.set_data(Table::LineAnnuity, &link, price(random, LARGEST_LINE_PRICE));
        }
    }
}

/// Halves all prices until the capital row and the cost are on scale with room
/// to spare, and sets MaxCapital.
fn fit_prices(random: &mut Random, draft: &mut Draft) {
    let room = LIMIT / 4;
    while needed::capital_used(draft).unsigned_abs() > room || cost(draft) > room {
        halve_prices(draft);
    }
    let unit = 1_000_000_000 * draft.scale();
    let most = (LIMIT as i128 / unit).min(LARGEST);
    let limit = needed::capital(draft) + random.slack(1000);
    draft.set_data(Table::MaxCapital, &[], limit.min(most));
}

fn cost(draft: &Draft) -> u128 {
    let model = Model::read(&draft.case.data).expect("sound data");
    model.cost(&draft.case.plan)
}

fn halve_prices(draft: &mut Draft) {
    for (table, _) in SINGLE_PRICES {
        halve(draft, table, &[]);
    }
    for g in 0..draft.shape.plants {
        halve(draft, Table::ResCost, &[g]);
        for y in 0..draft.shape.years {
            for (table, _) in PRICES_BY_YEAR_AND_PLANT {
                halve(draft, table, &[y, g]);
            }
        }
    }
    for y in 0..draft.shape.years {
        halve(draft, Table::Tax, &[y]);
    }
    for [z, z2] in draft.pairs() {
        halve(draft, Table::LineAnnuity, &[z, z2]);
        halve(draft, Table::LineAnnuity, &[z2, z]);
    }
}

fn halve(draft: &mut Draft, table: Table, indices: &[usize]) {
    let price = draft.data(table, indices);
    draft.set_data(table, indices, price / 2);
}
