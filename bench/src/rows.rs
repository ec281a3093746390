//! The families of rows, and the cost.
//!
//! With entries of 32 bits only families 2, 3 and 17 to 19 have sums that can pass
//! 2^62 − 1, so only these are tested for it. The value of every other row fits `i64`.

use crate::view::View;
use epm_reference::columns::{Column, COLUMN_TABLES};
use epm_reference::data::Table;
use epm_reference::refusal::{BROKEN, ROW_OFF_SCALE};
use epm_reference::rows::{FAMILIES, FAMILY_COUNT};
use epm_reference::sums::LIMIT;
use epm_reference::Refusal;

pub struct Rows<'v> {
    view: &'v View<'v>,
    /// N.
    scale: u64,
    plan: [&'v [u32]; COLUMN_TABLES],
    /// Σ Dur·gen [y,g,q].
    energies: Vec<u64>,
    /// What the lines of a pair add to TL, in Nths of a MW: MW per line·total [y,z,z2].
    lines: Vec<u64>,
}

/// The refusal and the place within the family of the first row not met.
type Test = Result<(), (u32, usize)>;

/// Tests the rows of a family in order: `value` gives each row's value, and `met`
/// says whether the row holds at it.
fn each(rows: usize, met: impl Fn(i64) -> bool, mut value: impl FnMut(usize) -> i64) -> Test {
    match (0..rows).find(|&row| !met(value(row))) {
        Some(row) => Err((BROKEN, row)),
        None => Ok(()),
    }
}

/// The MW that lines add to TL. A product of two numbers of 32 bits fits `u64`.
fn line_capacity(view: &View, total: &[u32]) -> Vec<u64> {
    let each = view.table(Table::LineMw);
    let years = total.chunks(each.len());
    years
        .flat_map(|total| each.iter().zip(total))
        .map(|(&each, &total)| u64::from(each) * u64::from(total))
        .collect()
}

/// A row of large sums: 6 before 7.
fn verdict(row: usize, positive: u128, negative: u128) -> Test {
    if positive > LIMIT || negative > LIMIT {
        return Err((ROW_OFF_SCALE, row));
    }
    match positive < negative {
        true => Err((BROKEN, row)),
        false => Ok(()),
    }
}

fn is_zero(value: i64) -> bool {
    value == 0
}

fn not_below(value: i64) -> bool {
    value >= 0
}

impl<'v> Rows<'v> {
    pub fn new(view: &'v View<'v>, scale: u32, plan: [&'v [u32]; COLUMN_TABLES]) -> Rows<'v> {
        let hours = view.table(Table::Duration);
        let gen = plan[Column::Gen as usize];
        let mut energies = Vec::with_capacity(view.y * view.g * view.q);
        for part in gen.chunks(view.s) {
            for (hours, gen) in hours.chunks(view.season).zip(part.chunks(view.season)) {
                let terms = hours.iter().zip(gen);
                energies.push(terms.map(|(&h, &e)| u64::from(h) * u64::from(e)).sum());
            }
        }
        Rows {
            view,
            scale: u64::from(scale),
            plan,
            energies,
            lines: line_capacity(view, plan[Column::Total as usize]),
        }
    }

    /// Refusals 6 and 7.
    pub fn test(&self) -> Result<(), Refusal> {
        let families: [fn(&Self) -> Test; FAMILY_COUNT] = [
            Self::demand_balance,
            Self::transfer_limit,
            Self::spinning_reserve,
            Self::planning_reserve,
            Self::output_and_reserve,
            Self::reserve_offer,
            |rows| rows.ramp(Table::RampDn, 1),
            |rows| rows.ramp(Table::RampUp, -1),
            Self::minimum_load,
            Self::availability,
            Self::vre_profile,
            Self::capacity_balance,
            Self::capacity_years,
            Self::build_and_retirement,
            Self::new_capacity,
            Self::yearly_build,
            Self::fuel,
            Self::capital,
            Self::zone_emissions,
            Self::system_emissions,
            Self::battery_level,
            Self::charge_limit,
            |rows| rows.charge_ramp(Table::RampDn, 1),
            |rows| rows.charge_ramp(Table::RampUp, -1),
            Self::level_limit,
            Self::line_balance,
            Self::new_lines,
            Self::lines_both_ways,
        ];
        for (family, test) in FAMILIES.iter().zip(families) {
            if let Err((number, place)) = test(self) {
                let first = self
                    .view
                    .rows
                    .index(family.number, &vec![0; family.axes.len()]);
                return Err(Refusal::at(number, first + place));
            }
        }
        Ok(())
    }

    fn column(&self, column: Column) -> &'v [u32] {
        self.plan[column as usize]
    }

    /// 1 (14).
    fn demand_balance(&self) -> Test {
        let v = self.view;
        let (gen, charge) = (self.column(Column::Gen), self.column(Column::Charge));
        let trans = self.column(Column::Trans);
        let (unmet, surplus) = (self.column(Column::Unmet), self.column(Column::Surplus));
        let (demand, ee) = (v.table(Table::Demand), v.table(Table::Ee));
        let loss = v.table(Table::Loss);
        each(v.y * v.z * v.s, is_zero, |row| {
            let (zone, s) = (row / v.s, row % v.s);
            let (y, z) = (zone / v.z, zone % v.z);
            let mut value = 0;
            for &g in &v.plants[z] {
                let place = (y * v.g + g) * v.s + s;
                value += 1000 * (i64::from(gen[place]) - i64::from(charge[place]));
            }
            for z2 in (0..v.z).filter(|&z2| z2 != z) {
                let (out, into) = (v.pair(y, z, z2), v.pair(y, z2, z));
                value -= 1000 * i64::from(trans[out * v.s + s]);
                value += (1000 - i64::from(loss[into])) * i64::from(trans[into * v.s + s]);
            }
            value += i64::from(unmet[row]) - i64::from(surplus[row]);
            value - self.scale as i64 * i64::from(demand[row]) * i64::from(ee[zone])
        })
    }

    /// 2 (15). What a pair may carry is one number for the slices of a season.
    fn transfer_limit(&self) -> Test {
        let v = self.view;
        let (trans, limit) = (self.column(Column::Trans), v.table(Table::Tl));
        for (season, flows) in trans.chunks(v.season).enumerate() {
            let (first, lines) = (season * v.season, self.lines[season / v.q]);
            let most = u128::from(self.scale * u64::from(limit[season])) + u128::from(lines);
            if most > LIMIT {
                return Err((ROW_OFF_SCALE, first));
            }
            let most = most as u64;
            if let Some(s) = flows.iter().position(|&flow| u64::from(flow) > most) {
                return Err((BROKEN, first + s));
            }
        }
        Ok(())
    }

    /// 1000·Σ MW per line[z2,z]·total[y,z2,z] over z2 other than z.
    fn lines_into(&self, y: usize, z: usize) -> u128 {
        let v = self.view;
        let others = (0..v.z).filter(|&z2| z2 != z);
        let lines = others.map(|z2| u128::from(self.lines[v.pair(y, z2, z)]));
        1000 * lines.sum::<u128>()
    }

    /// 3 (19).
    fn spinning_reserve(&self) -> Test {
        let v = self.view;
        for zone in 0..v.y * v.z {
            let lines = self.lines_into(zone / v.z, zone % v.z);
            if lines > LIMIT {
                return Err((ROW_OFF_SCALE, zone * v.s));
            }
            for q in 0..v.q {
                self.season_reserve(zone, q, lines as u64)?;
            }
        }
        Ok(())
    }

    /// The rows of family 3 in one zone and season, where `lines` is on scale. All
    /// other terms of a sign are below 2^56 together, so the sums fit `u64`.
    fn season_reserve(&self, zone: usize, q: usize, lines: u64) -> Test {
        let v = self.view;
        let (y, z) = (zone / v.z, zone % v.z);
        let (gen, reserve) = (self.column(Column::Gen), self.column(Column::Reserve));
        let (trans, short) = (self.column(Column::Trans), self.column(Column::SpinShort));
        let error = v.single(Table::Err);
        let links = 1000 * self.scale * v.links_into(y, z, q);
        let asked = 1000 * self.scale * u64::from(v.table(Table::SRes)[zone]);
        // The constant is one number, so it counts on one side.
        let given = lines + links.saturating_sub(asked);
        let missing = asked.saturating_sub(links);
        for s in q * v.season..(q + 1) * v.season {
            let row = zone * v.s + s;
            let (mut positive, mut negative) = (given + u64::from(short[row]), missing);
            for &g in &v.plants[z] {
                let place = (y * v.g + g) * v.s + s;
                positive += 1000 * u64::from(reserve[place]);
                if v.is_vre(g) {
                    negative += error * u64::from(gen[place]);
                }
            }
            for z2 in (0..v.z).filter(|&z2| z2 != z) {
                negative += 1000 * u64::from(trans[v.pair(y, z2, z) * v.s + s]);
            }
            verdict(row, u128::from(positive), u128::from(negative))?;
        }
        Ok(())
    }

    /// 4 (21).
    fn planning_reserve(&self) -> Test {
        let v = self.view;
        let (cap, short) = (self.column(Column::Cap), self.column(Column::FirmShort));
        let (credit, margin) = (v.table(Table::CapCredit), v.table(Table::Prm));
        each(v.y * v.z, not_below, |row| {
            let (y, z) = (row / v.z, row % v.z);
            let mut value = i64::from(short[row]);
            for &g in &v.plants[z] {
                value += i64::from(credit[g]) * i64::from(cap[y * v.g + g]);
            }
            let links = v.lowest_links_into(y, z);
            let asked = (1000 + u64::from(margin[z])) * v.peak(y, z);
            value + self.scale as i64 * (1000 * links as i64 - asked as i64)
        })
    }

    /// Rows [y,g,s]: `value` of year and plant, slice and the row itself.
    fn dispatch(&self, value: impl Fn(usize, usize, usize, i64) -> i64) -> Test {
        let v = self.view;
        let cap = self.column(Column::Cap);
        for (plant, &cap) in cap.iter().enumerate() {
            let first = plant * v.s;
            for s in 0..v.s {
                if value(plant % v.g, s, first + s, i64::from(cap)) < 0 {
                    return Err((BROKEN, first + s));
                }
            }
        }
        Ok(())
    }

    /// 5 (22).
    fn output_and_reserve(&self) -> Test {
        let (gen, reserve) = (self.column(Column::Gen), self.column(Column::Reserve));
        let over = self.view.table(Table::OverLoad);
        self.dispatch(|g, _, row, cap| {
            let output = i64::from(gen[row]) + i64::from(reserve[row]);
            (1000 + i64::from(over[g])) * cap - 1000 * output
        })
    }

    /// 6 (23).
    fn reserve_offer(&self) -> Test {
        let reserve = self.column(Column::Reserve);
        let offer = self.view.table(Table::ResOffer);
        self.dispatch(|g, _, row, cap| i64::from(offer[g]) * cap - 1000 * i64::from(reserve[row]))
    }

    /// 7 (24) with sign 1, 8 (25) with sign −1.
    fn ramp(&self, table: Table, sign: i64) -> Test {
        let v = self.view;
        let (gen, ramp) = (self.column(Column::Gen), v.table(table));
        self.dispatch(|g, s, row, cap| {
            if s % v.day == 0 {
                return 0;
            }
            let fall = i64::from(gen[row - 1]) - i64::from(gen[row]);
            i64::from(ramp[g]) * cap - 1000 * sign * fall
        })
    }

    /// 9 (26).
    fn minimum_load(&self) -> Test {
        let v = self.view;
        let (gen, least) = (self.column(Column::Gen), v.table(Table::MinCapFac));
        self.dispatch(|g, s, row, cap| match v.is_minimum_load_day(s) {
            true => 1000 * i64::from(gen[row]) - i64::from(least[g]) * cap,
            false => 0,
        })
    }

    /// 10 (27).
    fn availability(&self) -> Test {
        let v = self.view;
        let (cap, share) = (self.column(Column::Cap), v.table(Table::Availability));
        let hours: Vec<u64> = (0..v.q).map(|q| v.season_hours(q)).collect();
        each(self.energies.len(), not_below, |row| {
            let (plant, q) = (row / v.q, row % v.q);
            let share = u64::from(share[plant % v.g * v.q + q]) * hours[q];
            (share * u64::from(cap[plant])) as i64 - (1000 * self.energies[row]) as i64
        })
    }

    /// 11 (28).
    fn vre_profile(&self) -> Test {
        let v = self.view;
        let (gen, profile) = (self.column(Column::Gen), v.table(Table::Profile));
        self.dispatch(|g, s, row, cap| match v.is_vre(g) {
            true => i64::from(profile[g * v.s + s]) * cap - 1000 * i64::from(gen[row]),
            false => 0,
        })
    }

    /// 12 (34).
    fn capacity_balance(&self) -> Test {
        let v = self.view;
        let cap = self.column(Column::Cap);
        let (build, retire) = (self.column(Column::Build), self.column(Column::Retire));
        let first = v.table(Table::GenCap);
        each(cap.len(), is_zero, |row| {
            let g = row % v.g;
            let earlier = match row.checked_sub(v.g) {
                Some(earlier) => i64::from(cap[earlier]),
                None => 0,
            };
            let change = i64::from(cap[row]) - earlier;
            match v.is_candidate(g) {
                true => change - i64::from(build[row]),
                false if row < v.g => change - self.scale as i64 * i64::from(first[g]),
                false => change + i64::from(retire[row]),
            }
        })
    }

    /// 13 (37).
    fn capacity_years(&self) -> Test {
        let v = self.view;
        let cap = self.column(Column::Cap);
        each(cap.len(), not_below, |row| {
            match v.is_shut(row / v.g, row % v.g) {
                true => -i64::from(cap[row]),
                false => 0,
            }
        })
    }

    /// 14 (61).
    fn build_and_retirement(&self) -> Test {
        let v = self.view;
        let (build, retire) = (self.column(Column::Build), self.column(Column::Retire));
        each(build.len(), not_below, |row| {
            match v.is_candidate(row % v.g) {
                true => -i64::from(retire[row]),
                false if row < v.g => -i64::from(build[row]) - i64::from(retire[row]),
                false => -i64::from(build[row]),
            }
        })
    }

    /// 15 (55).
    fn new_capacity(&self) -> Test {
        let v = self.view;
        let (build, most) = (self.column(Column::Build), v.table(Table::MaxNewCap));
        each(v.g, not_below, |g| {
            if !v.is_candidate(g) {
                return 0;
            }
            let built: i64 = (0..v.y).map(|y| i64::from(build[y * v.g + g])).sum();
            self.scale as i64 * i64::from(most[g]) - built
        })
    }

    /// 16 (58).
    fn yearly_build(&self) -> Test {
        let v = self.view;
        let (build, limit) = (self.column(Column::Build), v.table(Table::BuildLimit));
        let weight = v.table(Table::Weight);
        each(build.len(), not_below, |row| {
            if !v.is_candidate(row % v.g) {
                return 0;
            }
            let limit = i64::from(limit[row / v.g]) * i64::from(weight[row / v.g]);
            self.scale as i64 * limit - i64::from(build[row])
        })
    }

    /// Σ Dur·gen of a plant and year.
    fn energy(&self, y: usize, g: usize) -> u128 {
        let first = (y * self.view.g + g) * self.view.q;
        let energies = &self.energies[first..first + self.view.q];
        energies.iter().map(|&energy| u128::from(energy)).sum()
    }

    /// 17 (62).
    fn fuel(&self) -> Test {
        let v = self.view;
        let (rate, fuel) = (v.table(Table::HeatRate), v.table(Table::Fuel));
        let most = v.table(Table::MaxFuel);
        for row in 0..v.y * v.z * v.f {
            let (y, z, f) = (row / v.f / v.z, row / v.f % v.z, row % v.f);
            let plants = v.plants[z].iter().filter(|&&g| fuel[g] as usize == f);
            let burnt = plants
                .map(|&g| u128::from(rate[g]) * self.energy(y, g))
                .sum();
            let limit = 1000 * self.scale * u64::from(most[y * v.f + f]);
            verdict(row, u128::from(limit), burnt)?;
        }
        Ok(())
    }

    /// 18 (64).
    fn capital(&self) -> Test {
        let v = self.view;
        let (cap, annuity) = (self.column(Column::Cap), v.table(Table::Annuity));
        let mut paid = 0;
        for y in 0..v.y {
            for g in (0..v.g).filter(|&g| v.is_candidate(g)) {
                let place = y * v.g + g;
                let rate = v.weight(y) * u64::from(annuity[place]);
                paid += u128::from(rate) * u128::from(cap[place]);
            }
        }
        let budget = 1_000_000_000 * u128::from(v.single(Table::MaxCapital));
        verdict(0, u128::from(self.scale) * budget, paid)
    }

    fn emitted(&self, y: usize, g: usize) -> u128 {
        u128::from(self.view.table(Table::Emission)[g]) * self.energy(y, g)
    }

    /// 19 (66).
    fn zone_emissions(&self) -> Test {
        let v = self.view;
        for (row, &cap) in v.table(Table::ZoneCap).iter().enumerate() {
            let plants = v.plants[row % v.z].iter();
            let emitted = plants.map(|&g| self.emitted(row / v.z, g)).sum();
            verdict(row, u128::from(1000 * self.scale * u64::from(cap)), emitted)?;
        }
        Ok(())
    }

    /// 20 (68).
    fn system_emissions(&self) -> Test {
        let v = self.view;
        for (y, &cap) in v.table(Table::SystemCap).iter().enumerate() {
            let emitted = (0..v.g).map(|g| self.emitted(y, g)).sum();
            verdict(y, u128::from(1000 * self.scale * u64::from(cap)), emitted)?;
        }
        Ok(())
    }

    /// 21 (42) and (43).
    fn battery_level(&self) -> Test {
        let v = self.view;
        let (gen, charge) = (self.column(Column::Gen), self.column(Column::Charge));
        let level = self.column(Column::Level);
        let efficiency = v.table(Table::Efficiency);
        for plant in (0..v.y * v.g).filter(|plant| v.is_battery(plant % v.g)) {
            let efficiency = i64::from(efficiency[plant % v.g]);
            for row in plant * v.s..(plant + 1) * v.s {
                let earlier = match row % v.s % v.day {
                    0 => 0,
                    _ => i64::from(level[row - 1]),
                };
                let stored = efficiency * i64::from(charge[row]) - 1000 * i64::from(gen[row]);
                if i64::from(level[row]) != earlier + stored {
                    return Err((BROKEN, row));
                }
            }
        }
        Ok(())
    }

    /// 22 (45).
    fn charge_limit(&self) -> Test {
        let v = self.view;
        let charge = self.column(Column::Charge);
        self.dispatch(|g, _, row, cap| {
            let most = if v.is_battery(g) { cap } else { 0 };
            most - i64::from(charge[row])
        })
    }

    /// 23 (47) with sign 1, 24 (48) with sign −1.
    fn charge_ramp(&self, table: Table, sign: i64) -> Test {
        let v = self.view;
        let (charge, ramp) = (self.column(Column::Charge), v.table(table));
        self.dispatch(|g, s, row, cap| {
            if s % v.day == 0 || !v.is_battery(g) {
                return 0;
            }
            let rise = i64::from(charge[row]) - i64::from(charge[row - 1]);
            i64::from(ramp[g]) * cap - 1000 * sign * rise
        })
    }

    /// 25 (46).
    fn level_limit(&self) -> Test {
        let v = self.view;
        let (level, most) = (self.column(Column::Level), v.table(Table::EnergyCapacity));
        self.dispatch(|g, _, row, _| {
            let most = if v.is_battery(g) { most[g] } else { 0 };
            self.scale as i64 * i64::from(most) - i64::from(level[row])
        })
    }

    /// 26.
    fn line_balance(&self) -> Test {
        let v = self.view;
        let (built, total) = (self.column(Column::Built), self.column(Column::Total));
        each(total.len(), is_zero, |row| {
            let earlier = match row.checked_sub(v.z * v.z) {
                Some(earlier) => i64::from(total[earlier]),
                None => 0,
            };
            i64::from(total[row]) - earlier - i64::from(built[row])
        })
    }

    /// 27.
    fn new_lines(&self) -> Test {
        let v = self.view;
        let (built, most) = (self.column(Column::Built), v.table(Table::LineLimit));
        each(most.len(), not_below, |pair| {
            let built = built[pair..].iter().step_by(most.len());
            let built: i64 = built.map(|&built| i64::from(built)).sum();
            self.scale as i64 * i64::from(most[pair]) - built
        })
    }

    /// 28.
    fn lines_both_ways(&self) -> Test {
        let v = self.view;
        let total = self.column(Column::Total);
        each(total.len(), is_zero, |row| {
            let (z, z2) = v.zones_of(row);
            match z < z2 {
                true => i64::from(total[row]) - i64::from(total[v.pair(row / v.z / v.z, z2, z)]),
                false => 0,
            }
        })
    }

    /// Σ c·entry.
    pub fn cost(&self) -> u128 {
        let v = self.view;
        (0..v.y)
            .map(|y| u128::from(v.weight(y)) * self.year_cost(y))
            .sum()
    }

    /// A year's cost over W.
    fn year_cost(&self, y: usize) -> u128 {
        let v = self.view;
        let (cap, reserve) = (self.column(Column::Cap), self.column(Column::Reserve));
        let (fixed, annuity) = (v.table(Table::FixedOm), v.table(Table::Annuity));
        let (price, reserve_price) = (v.table(Table::GenCost), v.table(Table::ResCost));
        let (tax, emission) = (v.table(Table::Tax)[y], v.table(Table::Emission));
        let mut cost = 0;
        for g in 0..v.g {
            let place = y * v.g + g;
            let annuity = u64::from(v.is_candidate(g)) * u64::from(annuity[place]);
            cost += u128::from(u64::from(fixed[place]) + annuity) * u128::from(cap[place]);
            let taxed = u64::from(price[place]) + u64::from(tax) * u64::from(emission[g]);
            cost += u128::from(taxed) * self.energy(y, g);
            let offered = self.weighted_hours(&reserve[place * v.s..(place + 1) * v.s]);
            cost += u128::from(reserve_price[g]) * u128::from(offered);
        }
        for z in y * v.z..(y + 1) * v.z {
            for (column, price) in [
                (Column::Unmet, Table::Voll),
                (Column::Surplus, Table::SurplusPenalty),
                (Column::SpinShort, Table::SresVoll),
            ] {
                let entries = &self.column(column)[z * v.s..(z + 1) * v.s];
                let hours = self.weighted_hours(entries);
                cost += u128::from(v.single(price)) * u128::from(hours);
            }
            let short = self.column(Column::FirmShort)[z];
            cost += u128::from(v.single(Table::ResVoll)) * u128::from(short);
        }
        cost + self.lines_cost(y)
    }

    /// A year's annuities over W, those of the pairs with the lower zone first.
    fn lines_cost(&self, y: usize) -> u128 {
        let v = self.view;
        let annuities = v.table(Table::LineAnnuity);
        let total = &self.column(Column::Total)[y * annuities.len()..];
        let pairs = annuities.iter().zip(total).enumerate();
        pairs
            .filter(|&(pair, _)| v.is_paid(pair))
            .map(|(_, (&annuity, &total))| u128::from(annuity) * u128::from(total))
            .sum()
    }

    /// Σ Dur·entry over a year's slices.
    fn weighted_hours(&self, entries: &[u32]) -> u64 {
        let terms = self.view.table(Table::Duration).iter().zip(entries);
        terms
            .map(|(&hours, &entry)| u64::from(hours) * u64::from(entry))
            .sum()
    }
}
