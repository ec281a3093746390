//! The multipliers, each column over its own rows, and the gap.
//!
//! The sums of capacity, generation and the lines' total are taken in 128 bits by
//! sign; those of the other columns cannot pass 2^62 − 1.

use crate::view::View;
use epm_reference::calls::LARGEST_MULTIPLIER;
use epm_reference::data::Table;
use epm_reference::refusal::{
    COLUMN_OFF_SCALE, GAP_OFF_SCALE, MULTIPLIER, MULTIPLIER_COUNT, UNDERPRICED,
};
use epm_reference::rows::{FAMILIES, FAMILY_COUNT};
use epm_reference::sums::{SignedSum, LIMIT};
use epm_reference::Refusal;

struct Columns<'v> {
    view: &'v View<'v>,
    /// The multipliers of family f at f − 1.
    m: [&'v [i64]; FAMILY_COUNT],
    /// The number of the column that is looked at.
    number: usize,
}

/// Refusals 9 to 13, then the gap.
pub fn gap(view: &View, scale: u32, cost: u64, multipliers: &[i64]) -> Result<u64, Refusal> {
    let Some(m) = view.split_multipliers(multipliers) else {
        return Err(Refusal::at(MULTIPLIER_COUNT, view.rows.count()));
    };
    test_multipliers(&m)?;
    let mut columns = Columns { view, m, number: 0 };
    columns.test()?;
    columns.gap(scale, cost)
}

fn test_multipliers(m: &[&[i64]; FAMILY_COUNT]) -> Result<(), Refusal> {
    let mut row = 0;
    for (family, part) in FAMILIES.iter().zip(m) {
        let least = -LARGEST_MULTIPLIER * i64::from(family.equality);
        let good = |m: &i64| (least..=LARGEST_MULTIPLIER).contains(m);
        if let Some(place) = part.iter().position(|m| !good(m)) {
            return Err(Refusal::at(MULTIPLIER, row + place));
        }
        row += part.len();
    }
    Ok(())
}

/// A product a·m that fits `i64`.
fn times(a: u32, m: i64) -> i64 {
    i64::from(a) * m
}

fn add_wide(sum: &mut SignedSum, a: u64, m: i64) {
    sum.add(i128::from(a) * i128::from(m));
}

impl Columns<'_> {
    fn m(&self, family: usize) -> &[i64] {
        self.m[family - 1]
    }

    /// Refusals 11 and 12 of the next column, 11 before 12.
    fn wide(&mut self, price: u64, sum: SignedSum) -> Result<(), Refusal> {
        if sum.is_off_scale() {
            return Err(Refusal::at(COLUMN_OFF_SCALE, self.number));
        }
        if i128::from(price) < sum.value() {
            return Err(Refusal::at(UNDERPRICED, self.number));
        }
        self.number += 1;
        Ok(())
    }

    /// Refusal 12 of the next column, whose sums are on scale.
    fn narrow(&mut self, price: u64, load: i64) -> Result<(), Refusal> {
        // A price is below 2^60.
        if (price as i64) < load {
            return Err(Refusal::at(UNDERPRICED, self.number));
        }
        self.number += 1;
        Ok(())
    }

    fn test(&mut self) -> Result<(), Refusal> {
        let v = self.view;
        for (y, g) in pairs(v.y, v.g) {
            let (price, sum) = self.cap(y, g);
            self.wide(price, sum)?;
        }
        for (y, g) in pairs(v.y, v.g) {
            let load = self.build(y, g);
            self.narrow(0, load)?;
        }
        for (y, g) in pairs(v.y, v.g) {
            let load = self.retire(y, g);
            self.narrow(0, load)?;
        }
        for (y, g) in pairs(v.y, v.g) {
            self.gen(y, g)?;
        }
        for (y, g) in pairs(v.y, v.g) {
            self.reserve(y, g)?;
        }
        for pair in 0..v.y * v.z * v.z {
            self.trans(pair / v.z / v.z, pair / v.z % v.z, pair % v.z)?;
        }
        self.by_zone_and_slice(Table::Voll, 1, 1)?;
        self.by_zone_and_slice(Table::SurplusPenalty, 1, -1)?;
        self.by_zone_and_slice(Table::SresVoll, 3, 1)?;
        for (y, z) in pairs(v.y, v.z) {
            let price = v.weight(y) * v.single(Table::ResVoll);
            let load = self.m(4)[y * v.z + z];
            self.narrow(price, load)?;
        }
        for (y, g) in pairs(v.y, v.g) {
            self.charge(y, g)?;
        }
        for (y, g) in pairs(v.y, v.g) {
            self.level(y, g)?;
        }
        for (y, pair) in pairs(v.y, v.z * v.z) {
            let load = self.built(y, pair);
            self.narrow(0, load)?;
        }
        for (y, pair) in pairs(v.y, v.z * v.z) {
            let (price, sum) = self.total(y, pair);
            self.wide(price, sum)?;
        }
        Ok(())
    }

    /// Families 4 to 13, 18 and 22 to 24. The terms of the slices fit `i64` by sign.
    fn cap(&self, y: usize, g: usize) -> (u64, SignedSum) {
        let v = self.view;
        let plant = y * v.g + g;
        let mut sum = SignedSum::default();
        let by_plant = |table: Table| v.table(table)[g];
        let (over, offer) = (1000 + by_plant(Table::OverLoad), by_plant(Table::ResOffer));
        let (down, up) = (by_plant(Table::RampDn), by_plant(Table::RampUp));
        let least = by_plant(Table::MinCapFac);
        let profile = &v.table(Table::Profile)[g * v.s..(g + 1) * v.s];
        let slices = plant * v.s..(plant + 1) * v.s;
        let [m5, m6, m7, m8, m9, m11, m22, m23, m24] =
            [5, 6, 7, 8, 9, 11, 22, 23, 24].map(|family| &self.m(family)[slices.clone()]);
        let (mut positive, mut negative) = (0, 0);
        for s in 0..v.s {
            positive += times(over, m5[s]) + times(offer, m6[s]);
            if s % v.day > 0 {
                positive += times(down, m7[s]) + times(up, m8[s]);
            }
            if v.is_minimum_load_day(s) {
                negative += times(least, m9[s]);
            }
            if v.is_vre(g) {
                positive += times(profile[s], m11[s]);
            }
            if v.is_battery(g) {
                positive += m22[s];
                if s % v.day > 0 {
                    positive += times(down, m23[s]) + times(up, m24[s]);
                }
            }
        }
        sum.add(i128::from(positive));
        sum.add(-i128::from(negative));
        for q in 0..v.q {
            let share = u64::from(v.table(Table::Availability)[g * v.q + q]) * v.season_hours(q);
            add_wide(&mut sum, share, self.m(10)[plant * v.q + q]);
        }
        let zone = y * v.z + v.zone_of(g);
        add_wide(
            &mut sum,
            u64::from(by_plant(Table::CapCredit)),
            self.m(4)[zone],
        );
        add_wide(&mut sum, 1, self.m(12)[plant]);
        if y + 1 < v.y {
            add_wide(&mut sum, 1, -self.m(12)[plant + v.g]);
        }
        if v.is_shut(y, g) {
            add_wide(&mut sum, 1, -self.m(13)[plant]);
        }
        let mut price = u64::from(v.table(Table::FixedOm)[plant]);
        if v.is_candidate(g) {
            let annuity = u64::from(v.table(Table::Annuity)[plant]);
            price += annuity;
            add_wide(&mut sum, v.weight(y) * annuity, -self.m(18)[0]);
        }
        (v.weight(y) * price, sum)
    }

    /// Families 12, 15 and 16, or 14.
    fn build(&self, y: usize, g: usize) -> i64 {
        let plant = y * self.view.g + g;
        match self.view.is_candidate(g) {
            true => -self.m(12)[plant] - self.m(15)[g] - self.m(16)[plant],
            false => -self.m(14)[plant],
        }
    }

    /// Family 12 or 14.
    fn retire(&self, y: usize, g: usize) -> i64 {
        let plant = y * self.view.g + g;
        match !self.view.is_candidate(g) && y > 0 {
            true => self.m(12)[plant],
            false => -self.m(14)[plant],
        }
    }

    /// Families 1, 3, 5, 7 to 11, 17 and 19 to 21, slice by slice.
    fn gen(&mut self, y: usize, g: usize) -> Result<(), Refusal> {
        let v = self.view;
        let (plant, z) = (y * v.g + g, v.zone_of(g));
        let zone = y * v.z + z;
        let fuel = v.table(Table::Fuel)[g] as usize;
        let (rate, emission) = (v.table(Table::HeatRate)[g], v.table(Table::Emission)[g]);
        let taxed = u64::from(v.table(Table::Tax)[y]) * u64::from(emission);
        let price = v.weight(y) * (u64::from(v.table(Table::GenCost)[plant]) + taxed);
        let error = v.table(Table::Err)[0];
        let burnt = self.m(17)[zone * v.f + fuel];
        let emitted = self.m(19)[zone] + self.m(20)[y];
        for s in 0..v.s {
            let (row, hours) = (plant * v.s + s, v.table(Table::Duration)[s]);
            let mut sum = SignedSum::default();
            sum.add(i128::from(1000 * self.m(1)[zone * v.s + s]));
            if v.is_battery(g) {
                sum.add(i128::from(1000 * self.m(21)[row]));
            }
            let mut negative = 1000 * self.m(5)[row];
            let mut positive = 0;
            if v.is_vre(g) {
                negative += times(error, self.m(3)[zone * v.s + s]) + 1000 * self.m(11)[row];
            }
            if s % v.day > 0 {
                positive += 1000 * self.m(7)[row];
                negative += 1000 * self.m(8)[row];
            }
            if s % v.day + 1 < v.day {
                positive += 1000 * self.m(8)[row + 1];
                negative += 1000 * self.m(7)[row + 1];
            }
            if v.is_minimum_load_day(s) {
                positive += 1000 * self.m(9)[row];
            }
            sum.add(i128::from(positive));
            sum.add(-i128::from(negative));
            let season = self.m(10)[plant * v.q + s / v.season];
            add_wide(&mut sum, 1000 * u64::from(hours), -season);
            add_wide(&mut sum, u64::from(hours) * u64::from(rate), -burnt);
            add_wide(&mut sum, u64::from(hours) * u64::from(emission), -emitted);
            self.wide(u64::from(hours) * price, sum)?;
        }
        Ok(())
    }

    /// Families 3, 5 and 6, slice by slice.
    fn reserve(&mut self, y: usize, g: usize) -> Result<(), Refusal> {
        let v = self.view;
        let (plant, zone) = (y * v.g + g, y * v.z + v.zone_of(g));
        let price = v.weight(y) * u64::from(v.table(Table::ResCost)[g]);
        for s in 0..v.s {
            let row = plant * v.s + s;
            let load = self.m(3)[zone * v.s + s] - self.m(5)[row] - self.m(6)[row];
            let hours = u64::from(v.table(Table::Duration)[s]);
            self.narrow(hours * price, 1000 * load)?;
        }
        Ok(())
    }

    /// Family 2; between zones also 1 of both zones and 3 of the receiving one.
    fn trans(&mut self, y: usize, z: usize, z2: usize) -> Result<(), Refusal> {
        let v = self.view;
        let (pair, from, to) = (v.pair(y, z, z2), y * v.z + z, y * v.z + z2);
        let received = 1000 - v.table(Table::Loss)[pair];
        for s in 0..v.s {
            let mut load = -self.m(2)[pair * v.s + s];
            if z != z2 {
                load += times(received, self.m(1)[to * v.s + s]);
                load -= 1000 * (self.m(1)[from * v.s + s] + self.m(3)[to * v.s + s]);
            }
            self.narrow(0, load)?;
        }
        Ok(())
    }

    /// Unmet, surplus and spinshort: one row each.
    fn by_zone_and_slice(&mut self, table: Table, family: usize, sign: i64) -> Result<(), Refusal> {
        let v = self.view;
        for zone in 0..v.y * v.z {
            let price = v.weight(zone / v.z) * v.single(table);
            for s in 0..v.s {
                let hours = u64::from(v.table(Table::Duration)[s]);
                let load = sign * self.m(family)[zone * v.s + s];
                self.narrow(hours * price, load)?;
            }
        }
        Ok(())
    }

    /// Families 1 and 22; of a battery also 21, 23 and 24, slice by slice.
    fn charge(&mut self, y: usize, g: usize) -> Result<(), Refusal> {
        let v = self.view;
        let (plant, zone) = (y * v.g + g, y * v.z + v.zone_of(g));
        let efficiency = v.table(Table::Efficiency)[g];
        for s in 0..v.s {
            let row = plant * v.s + s;
            let mut load = -1000 * self.m(1)[zone * v.s + s] - self.m(22)[row];
            if v.is_battery(g) {
                load -= times(efficiency, self.m(21)[row]);
                if s % v.day > 0 {
                    load += 1000 * (self.m(24)[row] - self.m(23)[row]);
                }
                if s % v.day + 1 < v.day {
                    load += 1000 * (self.m(23)[row + 1] - self.m(24)[row + 1]);
                }
            }
            self.narrow(0, load)?;
        }
        Ok(())
    }

    /// Family 25; of a battery also 21 of the slice and of the day's next, slice by
    /// slice.
    fn level(&mut self, y: usize, g: usize) -> Result<(), Refusal> {
        let v = self.view;
        let plant = y * v.g + g;
        for s in 0..v.s {
            let row = plant * v.s + s;
            let mut load = -self.m(25)[row];
            if v.is_battery(g) {
                load += self.m(21)[row];
                if s % v.day + 1 < v.day {
                    load -= self.m(21)[row + 1];
                }
            }
            self.narrow(0, load)?;
        }
        Ok(())
    }

    /// Families 26 and 27.
    fn built(&self, y: usize, pair: usize) -> i64 {
        let v = self.view;
        -self.m(26)[y * v.z * v.z + pair] - self.m(27)[pair]
    }

    /// Families 2, 26 and 28; between zones also 3 of the receiving one. The
    /// multipliers of a year's slices are summed first: they have one coefficient.
    fn total(&self, y: usize, pair: usize) -> (u64, SignedSum) {
        let v = self.view;
        let (z, z2) = v.zones_of(pair);
        let slices = |family: usize, part: usize| -> i64 {
            self.m(family)[part * v.s..(part + 1) * v.s].iter().sum()
        };
        let (row, each) = (v.pair(y, z, z2), u64::from(v.table(Table::LineMw)[pair]));
        let mut sum = SignedSum::default();
        add_wide(&mut sum, each, slices(2, row));
        if z != z2 {
            add_wide(&mut sum, 1000 * each, slices(3, y * v.z + z2));
        }
        add_wide(&mut sum, 1, self.m(26)[row]);
        if y + 1 < v.y {
            add_wide(&mut sum, 1, -self.m(26)[row + v.z * v.z]);
        }
        if z < z2 {
            add_wide(&mut sum, 1, self.m(28)[row]);
        }
        if z > z2 {
            add_wide(&mut sum, 1, -self.m(28)[v.pair(y, z2, z)]);
        }
        let annuity = u64::from(v.is_paid(pair)) * u64::from(v.table(Table::LineAnnuity)[pair]);
        (v.weight(y) * annuity, sum)
    }

    /// Refusal 13, then cost + N·Σ m·k. Families 5 to 11, 13, 14, 21 to 24, 26 and 28
    /// have no constant.
    fn gap(&self, scale: u32, cost: u64) -> Result<u64, Refusal> {
        let v = self.view;
        let mut sum = SignedSum::default();
        let mut add = |m: i64, k: i128| sum.add(i128::from(m) * k);
        let of = |table: Table, place: usize| i128::from(v.table(table)[place]);
        for (row, &m) in self.m(1).iter().enumerate() {
            add(m, -of(Table::Demand, row) * of(Table::Ee, row / v.s));
        }
        for (row, &m) in self.m(2).iter().enumerate() {
            let (pair, q) = (row / v.s, row % v.s / v.season);
            add(m, of(Table::Tl, pair * v.q + q));
        }
        for (row, &m) in self.m(3).iter().enumerate() {
            let (zone, q) = (row / v.s, row % v.s / v.season);
            let links = v.links_into(zone / v.z, zone % v.z, q);
            add(m, 1000 * (i128::from(links) - of(Table::SRes, zone)));
        }
        for (row, &m) in self.m(4).iter().enumerate() {
            let (y, z) = (row / v.z, row % v.z);
            let links = v.lowest_links_into(y, z);
            let asked = (1000 + of(Table::Prm, z)) * i128::from(v.peak(y, z));
            add(m, 1000 * i128::from(links) - asked);
        }
        for (g, &m) in self.m(12)[..v.g].iter().enumerate() {
            add(m, -of(Table::GenCap, g));
        }
        for (g, &m) in self.m(15).iter().enumerate() {
            add(m, of(Table::MaxNewCap, g));
        }
        for (row, &m) in self.m(16).iter().enumerate() {
            if v.is_candidate(row % v.g) {
                let y = row / v.g;
                add(m, of(Table::BuildLimit, y) * of(Table::Weight, y));
            }
        }
        for (row, &m) in self.m(17).iter().enumerate() {
            let fuel = row / v.f / v.z * v.f + row % v.f;
            add(m, 1000 * of(Table::MaxFuel, fuel));
        }
        add(self.m(18)[0], 1_000_000_000 * of(Table::MaxCapital, 0));
        for (row, &m) in self.m(19).iter().enumerate() {
            add(m, 1000 * of(Table::ZoneCap, row));
        }
        for (y, &m) in self.m(20).iter().enumerate() {
            add(m, 1000 * of(Table::SystemCap, y));
        }
        for (row, &m) in self.m(25).iter().enumerate() {
            let g = row / v.s % v.g;
            if v.is_battery(g) {
                add(m, of(Table::EnergyCapacity, g));
            }
        }
        for (pair, &m) in self.m(27).iter().enumerate() {
            add(m, of(Table::LineLimit, pair));
        }
        let (positive, negative) = (sum.positive, sum.negative);
        let scale = u128::from(scale);
        if scale * positive > LIMIT || scale * negative > LIMIT {
            return Err(Refusal::at(GAP_OFF_SCALE, 0));
        }
        let gap = u128::from(cost) + scale * positive - scale * negative;
        Ok(gap as u64)
    }
}

fn pairs(first: usize, second: usize) -> impl Iterator<Item = (usize, usize)> {
    (0..first).flat_map(move |i| (0..second).map(move |j| (i, j)))
}
