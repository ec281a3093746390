//! The rows of documents 01 and 02 as lists of terms: one coefficient a per column and
//! one constant k. "L ≤ R" is read as R − L ≥ 0, the others as L − R.

use crate::columns::{Column, ColumnLayout};
use crate::data::{Data, Table};
use crate::refusal::Refusal;
use crate::rows::{RowLayout, FAMILIES};

/// A row's terms (column number, coefficient), its constant k and whether it
/// is an equality. No column stands in a row twice, and no coefficient is 0.
#[derive(Clone, Debug, Default, PartialEq, Eq)]
pub struct Row {
    pub terms: Vec<(usize, i128)>,
    pub constant: i128,
    pub equality: bool,
}

impl Row {
    /// Whether a row value meets the row.
    pub fn holds_at(&self, value: i128) -> bool {
        if self.equality {
            value == 0
        } else {
            value >= 0
        }
    }
}

/// Data that passed its tests, with the numbers of columns and rows.
#[derive(Clone, Debug)]
pub struct Model<'a> {
    pub data: Data<'a>,
    pub columns: ColumnLayout,
    pub rows: RowLayout,
}

impl<'a> Model<'a> {
    pub fn read(list: &'a [u32]) -> Result<Model<'a>, Refusal> {
        let data = Data::read(list)?;
        Ok(Model {
            columns: ColumnLayout::new(data.shape),
            rows: RowLayout::new(data.shape),
            data,
        })
    }

    /// The row of a number below `rows.count()`.
    pub fn row(&self, number: usize) -> Row {
        let (family, indices) = self.rows.locate(number).expect("a row number");
        self.row_of(family, &indices)
    }

    /// The row of a family, from 1. "A row whose condition fails .. reads 0 ≥ 0": it
    /// has no terms and constant 0. A sum without members leaves the constant
    /// (docs/DECISIONS.md, "Rows": "A condition that fails", "A sum without members").
    pub fn row_of(&self, family: usize, i: &[usize]) -> Row {
        let mut row = RowBuilder::new(self);
        match family {
            1 => self.demand_balance(&mut row, i[0], i[1], i[2]),
            2 => self.transfer_limit(&mut row, i[0], i[1], i[2], i[3]),
            3 => self.spinning_reserve(&mut row, i[0], i[1], i[2]),
            4 => self.planning_reserve(&mut row, i[0], i[1]),
            5 => self.output_and_reserve(&mut row, i[0], i[1], i[2]),
            6 => self.reserve_offer(&mut row, i[0], i[1], i[2]),
            7 => self.ramp_down(&mut row, i[0], i[1], i[2]),
            8 => self.ramp_up(&mut row, i[0], i[1], i[2]),
            9 => self.minimum_load(&mut row, i[0], i[1], i[2]),
            10 => self.availability(&mut row, i[0], i[1], i[2]),
            11 => self.vre_profile(&mut row, i[0], i[1], i[2]),
            12 => self.capacity_balance(&mut row, i[0], i[1]),
            13 => self.capacity_years(&mut row, i[0], i[1]),
            14 => self.build_and_retirement(&mut row, i[0], i[1]),
            15 => self.new_capacity(&mut row, i[0]),
            16 => self.yearly_build(&mut row, i[0], i[1]),
            17 => self.fuel(&mut row, i[0], i[1], i[2]),
            18 => self.capital(&mut row),
            19 => self.zone_emissions(&mut row, i[0], i[1]),
            20 => self.system_emissions(&mut row, i[0]),
            21 => self.battery_level(&mut row, i[0], i[1], i[2]),
            22 => self.charge_limit(&mut row, i[0], i[1], i[2]),
            23 => self.charge_rise(&mut row, i[0], i[1], i[2]),
            24 => self.charge_fall(&mut row, i[0], i[1], i[2]),
            25 => self.level_limit(&mut row, i[0], i[1], i[2]),
            26 => self.line_balance(&mut row, i[0], i[1], i[2]),
            27 => self.new_lines(&mut row, i[0], i[1]),
            28 => self.lines_both_ways(&mut row, i[0], i[1], i[2]),
            _ => panic!("no family {family}"),
        }
        Row {
            terms: row.terms,
            constant: row.constant,
            equality: FAMILIES[family - 1].equality,
        }
    }

    /// 1 (14): 1000·Σ gen in z − 1000·Σ charge in z − 1000·Σ trans[z,z2]
    /// + Σ (1000 − Loss[z2,z])·trans[z2,z] + unmet − surplus = Demand·EE.
    ///
    /// The charge of every plant counts, whether it is a battery or not.
    fn demand_balance(&self, row: &mut RowBuilder, y: usize, z: usize, s: usize) {
        let data = &self.data;
        for g in data.plants_in(z) {
            row.add(1000, Column::Gen, &[y, g, s]);
            row.add(-1000, Column::Charge, &[y, g, s]);
        }
        for z2 in data.zones_beside(z) {
            let received = 1000 - data.at(Table::Loss, &[y, z2, z]);
            row.add(-1000, Column::Trans, &[y, z, z2, s]);
            row.add(received, Column::Trans, &[y, z2, z, s]);
        }
        row.add(1, Column::Unmet, &[y, z, s]);
        row.add(-1, Column::Surplus, &[y, z, s]);
        row.constant = -data.at(Table::Demand, &[y, z, s]) * data.at(Table::Ee, &[y, z]);
    }

    /// 2 (15): trans ≤ TL + MW per line·total, each from z to z2, for z = z2 too, since
    /// the family has no condition (docs/DECISIONS.md, "Rows": "Family 2 where z = z2").
    fn transfer_limit(&self, row: &mut RowBuilder, y: usize, z: usize, z2: usize, s: usize) {
        let q = self.data.shape.season_of(s);
        row.add(-1, Column::Trans, &[y, z, z2, s]);
        row.add(self.line_mw(z, z2), Column::Total, &[y, z, z2]);
        row.constant = self.data.at(Table::Tl, &[y, z, z2, q]);
    }

    /// 3 (19): 1000·Σ reserve in z + spinshort + 1000·Σ (TL[z2,z]
    /// + MW per line[z2,z]·total[z2,z] − trans[z2,z]) ≥ 1000·SRes + Err·Σ gen of VRE in z.
    fn spinning_reserve(&self, row: &mut RowBuilder, y: usize, z: usize, s: usize) {
        let data = &self.data;
        let q = data.shape.season_of(s);
        let mut links_in = 0;
        for g in data.plants_in(z) {
            row.add(1000, Column::Reserve, &[y, g, s]);
            if data.is_vre(g) {
                row.add(-data.single(Table::Err), Column::Gen, &[y, g, s]);
            }
        }
        for z2 in data.zones_beside(z) {
            row.add(-1000, Column::Trans, &[y, z2, z, s]);
            row.add(1000 * self.line_mw(z2, z), Column::Total, &[y, z2, z]);
            links_in += data.at(Table::Tl, &[y, z2, z, q]);
        }
        row.add(1, Column::SpinShort, &[y, z, s]);
        row.constant = 1000 * links_in - 1000 * data.at(Table::SRes, &[y, z]);
    }

    /// 4 (21): Σ CapCredit·cap in z + firmshort + 1000·Σ over z2 of the lowest TL[z2,z]
    /// of all seasons ≥ (1000 + PRM)·peak. Lines that are built do not count.
    fn planning_reserve(&self, row: &mut RowBuilder, y: usize, z: usize) {
        let data = &self.data;
        let mut links_in = 0;
        for g in data.plants_in(z) {
            row.add(data.at(Table::CapCredit, &[g]), Column::Cap, &[y, g]);
        }
        row.add(1, Column::FirmShort, &[y, z]);
        for z2 in data.zones_beside(z) {
            links_in += self.lowest_season_limit(y, z2, z);
        }
        let margin = 1000 + data.at(Table::Prm, &[z]);
        row.constant = 1000 * links_in - margin * self.peak(y, z);
    }

    /// The least TL[y,z,z2,·]: each link has its own season in which it carries least.
    fn lowest_season_limit(&self, y: usize, z: usize, z2: usize) -> i128 {
        (0..self.data.shape.seasons)
            .map(|q| self.data.at(Table::Tl, &[y, z, z2, q]))
            .min()
            .expect("at least one season")
    }

    /// The largest Demand[y,z,·]. EE does not scale it.
    pub fn peak(&self, y: usize, z: usize) -> i128 {
        (0..self.data.shape.slices())
            .map(|s| self.data.at(Table::Demand, &[y, z, s]))
            .max()
            .expect("at least one slice")
    }

    /// 5 (22): 1000·(gen + reserve) ≤ (1000 + OverLoad)·cap.
    fn output_and_reserve(&self, row: &mut RowBuilder, y: usize, g: usize, s: usize) {
        let limit = 1000 + self.data.at(Table::OverLoad, &[g]);
        row.add(limit, Column::Cap, &[y, g]);
        row.add(-1000, Column::Gen, &[y, g, s]);
        row.add(-1000, Column::Reserve, &[y, g, s]);
    }

    /// 6 (23): 1000·reserve ≤ ResOffer·cap.
    fn reserve_offer(&self, row: &mut RowBuilder, y: usize, g: usize, s: usize) {
        let offer = self.data.at(Table::ResOffer, &[g]);
        row.add(offer, Column::Cap, &[y, g]);
        row.add(-1000, Column::Reserve, &[y, g, s]);
    }

    /// 7 (24), t > 0: 1000·(gen[s−1] − gen[s]) ≤ RampDn·cap. A day's first hour
    /// has no earlier hour, so no row joins two days.
    fn ramp_down(&self, row: &mut RowBuilder, y: usize, g: usize, s: usize) {
        if self.data.shape.hour_of(s) == 0 {
            return;
        }
        let ramp = self.data.at(Table::RampDn, &[g]);
        row.add(ramp, Column::Cap, &[y, g]);
        row.add(-1000, Column::Gen, &[y, g, s - 1]);
        row.add(1000, Column::Gen, &[y, g, s]);
    }

    /// 8 (25), t > 0: 1000·(gen[s] − gen[s−1]) ≤ RampUp·cap.
    fn ramp_up(&self, row: &mut RowBuilder, y: usize, g: usize, s: usize) {
        if self.data.shape.hour_of(s) == 0 {
            return;
        }
        let ramp = self.data.at(Table::RampUp, &[g]);
        row.add(ramp, Column::Cap, &[y, g]);
        row.add(1000, Column::Gen, &[y, g, s - 1]);
        row.add(-1000, Column::Gen, &[y, g, s]);
    }

    /// 9 (26), on minimum-load days: 1000·gen ≥ MinCapFac·cap.
    fn minimum_load(&self, row: &mut RowBuilder, y: usize, g: usize, s: usize) {
        if !self.data.is_minimum_load_day(s) {
            return;
        }
        let least = self.data.at(Table::MinCapFac, &[g]);
        row.add(1000, Column::Gen, &[y, g, s]);
        row.add(-least, Column::Cap, &[y, g]);
    }

    /// 10 (27): 1000·Σ Dur·gen ≤ Availability·(Σ Dur)·cap, over the season.
    fn availability(&self, row: &mut RowBuilder, y: usize, g: usize, q: usize) {
        let data = &self.data;
        let mut hours = 0;
        for s in data.shape.slices_of_season(q) {
            row.add(-1000 * data.duration(s), Column::Gen, &[y, g, s]);
            hours += data.duration(s);
        }
        let available = data.at(Table::Availability, &[g, q]);
        row.add(available * hours, Column::Cap, &[y, g]);
    }

    /// 11 (28), VRE: 1000·gen ≤ Profile·cap.
    fn vre_profile(&self, row: &mut RowBuilder, y: usize, g: usize, s: usize) {
        if !self.data.is_vre(g) {
            return;
        }
        let profile = self.data.at(Table::Profile, &[g, s]);
        row.add(profile, Column::Cap, &[y, g]);
        row.add(-1000, Column::Gen, &[y, g, s]);
    }

    /// 12 (34): existing, first year: cap = GenCap; later: cap = earlier cap −
    /// retire. Candidate: cap = earlier cap (0 in the first year) + build.
    fn capacity_balance(&self, row: &mut RowBuilder, y: usize, g: usize) {
        row.add(1, Column::Cap, &[y, g]);
        if y > 0 {
            row.add(-1, Column::Cap, &[y - 1, g]);
        }
        if self.data.is_candidate(g) {
            row.add(-1, Column::Build, &[y, g]);
        } else if y > 0 {
            row.add(1, Column::Retire, &[y, g]);
        } else {
            row.constant = -self.data.at(Table::GenCap, &[g]);
        }
    }

    /// 13 (37): cap ≤ 0 for an existing plant from its retirement year on, for a
    /// candidate before its commission year.
    fn capacity_years(&self, row: &mut RowBuilder, y: usize, g: usize) {
        if self.is_outside_years(y, g) {
            row.add(-1, Column::Cap, &[y, g]);
        }
    }

    /// Whether the plant is not in service in the year: retired, or not commissioned
    /// yet. Years count from 1.
    pub fn is_outside_years(&self, y: usize, g: usize) -> bool {
        let this_year = y as i128 + 1;
        let year = self.data.at(Table::Year, &[g]);
        if self.data.is_candidate(g) {
            this_year < year
        } else {
            this_year >= year
        }
    }

    /// 14 (61): existing: in the first year build + retire ≤ 0, later build ≤ 0;
    /// candidate: retire ≤ 0.
    fn build_and_retirement(&self, row: &mut RowBuilder, y: usize, g: usize) {
        let candidate = self.data.is_candidate(g);
        if !candidate {
            row.add(-1, Column::Build, &[y, g]);
        }
        if candidate || y == 0 {
            row.add(-1, Column::Retire, &[y, g]);
        }
    }

    /// 15 (55), candidate: Σ build ≤ MaxNewCap.
    fn new_capacity(&self, row: &mut RowBuilder, g: usize) {
        if !self.data.is_candidate(g) {
            return;
        }
        for y in 0..self.data.shape.years {
            row.add(-1, Column::Build, &[y, g]);
        }
        row.constant = self.data.at(Table::MaxNewCap, &[g]);
    }

    /// 16 (58), candidate: build ≤ BuildLimit·V.
    fn yearly_build(&self, row: &mut RowBuilder, y: usize, g: usize) {
        if !self.data.is_candidate(g) {
            return;
        }
        row.add(-1, Column::Build, &[y, g]);
        row.constant = self.data.at(Table::BuildLimit, &[y]) * self.data.at(Table::Weight, &[y]);
    }

    /// 17 (62): Σ Dur·HeatRate·gen of that zone and fuel ≤ 1000·MaxFuel.
    fn fuel(&self, row: &mut RowBuilder, y: usize, z: usize, f: usize) {
        let data = &self.data;
        for g in data.plants_in(z).filter(|&g| data.fuel_of(g) == f) {
            let rate = data.at(Table::HeatRate, &[g]);
            for s in 0..data.shape.slices() {
                row.add(-data.duration(s) * rate, Column::Gen, &[y, g, s]);
            }
        }
        row.constant = 1000 * data.at(Table::MaxFuel, &[y, f]);
    }

    /// 18 (64): Σ R·V·Annuity·cap of candidates ≤ 10⁹·MaxCapital. Lines do not count.
    fn capital(&self, row: &mut RowBuilder) {
        let data = &self.data;
        for y in 0..data.shape.years {
            for g in (0..data.shape.plants).filter(|&g| data.is_candidate(g)) {
                let annuity = data.year_weight(y) * data.at(Table::Annuity, &[y, g]);
                row.add(-annuity, Column::Cap, &[y, g]);
            }
        }
        row.constant = 1_000_000_000 * data.single(Table::MaxCapital);
    }

    /// 19 (66): Σ Dur·E·gen in z ≤ 1000·zone cap.
    fn zone_emissions(&self, row: &mut RowBuilder, y: usize, z: usize) {
        for g in self.data.plants_in(z) {
            self.emissions_of(row, y, g);
        }
        row.constant = 1000 * self.data.at(Table::ZoneCap, &[y, z]);
    }

    /// 20 (68): Σ Dur·E·gen ≤ 1000·system cap.
    fn system_emissions(&self, row: &mut RowBuilder, y: usize) {
        for g in 0..self.data.shape.plants {
            self.emissions_of(row, y, g);
        }
        row.constant = 1000 * self.data.at(Table::SystemCap, &[y]);
    }

    /// 21 (42) and (43), batteries: level = earlier level (0 before a day's first
    /// slice) + efficiency·charge − 1000·gen, all of the same slice, which counts as
    /// one hour: Dur also carries a typical day's repeats.
    fn battery_level(&self, row: &mut RowBuilder, y: usize, g: usize, s: usize) {
        if !self.data.is_battery(g) {
            return;
        }
        let efficiency = self.data.at(Table::Efficiency, &[g]);
        row.add(1, Column::Level, &[y, g, s]);
        if self.data.shape.hour_of(s) > 0 {
            row.add(-1, Column::Level, &[y, g, s - 1]);
        }
        row.add(-efficiency, Column::Charge, &[y, g, s]);
        row.add(1000, Column::Gen, &[y, g, s]);
    }

    /// 22 (45): charge ≤ cap, and ≤ 0 where the plant is no battery.
    fn charge_limit(&self, row: &mut RowBuilder, y: usize, g: usize, s: usize) {
        if self.data.is_battery(g) {
            row.add(1, Column::Cap, &[y, g]);
        }
        row.add(-1, Column::Charge, &[y, g, s]);
    }

    /// 23 (47), batteries, t > 0: 1000·(charge[s] − charge[s−1]) ≤ RampDn·cap.
    fn charge_rise(&self, row: &mut RowBuilder, y: usize, g: usize, s: usize) {
        if !self.data.is_battery(g) || self.data.shape.hour_of(s) == 0 {
            return;
        }
        row.add(self.data.at(Table::RampDn, &[g]), Column::Cap, &[y, g]);
        row.add(-1000, Column::Charge, &[y, g, s]);
        row.add(1000, Column::Charge, &[y, g, s - 1]);
    }

    /// 24 (48), batteries, t > 0: 1000·(charge[s−1] − charge[s]) ≤ RampUp·cap.
    fn charge_fall(&self, row: &mut RowBuilder, y: usize, g: usize, s: usize) {
        if !self.data.is_battery(g) || self.data.shape.hour_of(s) == 0 {
            return;
        }
        row.add(self.data.at(Table::RampUp, &[g]), Column::Cap, &[y, g]);
        row.add(-1000, Column::Charge, &[y, g, s - 1]);
        row.add(1000, Column::Charge, &[y, g, s]);
    }

    /// 25 (46): level ≤ energy capacity, and ≤ 0 where the plant is no battery.
    fn level_limit(&self, row: &mut RowBuilder, y: usize, g: usize, s: usize) {
        row.add(-1, Column::Level, &[y, g, s]);
        if self.data.is_battery(g) {
            row.constant = self.data.at(Table::EnergyCapacity, &[g]);
        }
    }

    /// 26: total = earlier total (0 in the first year) + built, for z = z2 too, since the
    /// family has no condition.
    fn line_balance(&self, row: &mut RowBuilder, y: usize, z: usize, z2: usize) {
        row.add(1, Column::Total, &[y, z, z2]);
        if y > 0 {
            row.add(-1, Column::Total, &[y - 1, z, z2]);
        }
        row.add(-1, Column::Built, &[y, z, z2]);
    }

    /// 27: Σ built over the years ≤ line limit, for z = z2 too, where the limit is 0.
    fn new_lines(&self, row: &mut RowBuilder, z: usize, z2: usize) {
        for y in 0..self.data.shape.years {
            row.add(-1, Column::Built, &[y, z, z2]);
        }
        row.constant = self.data.at(Table::LineLimit, &[z, z2]);
    }

    /// 28, z below z2: total[z,z2] = total[z2,z].
    fn lines_both_ways(&self, row: &mut RowBuilder, y: usize, z: usize, z2: usize) {
        if z < z2 {
            row.add(1, Column::Total, &[y, z, z2]);
            row.add(-1, Column::Total, &[y, z2, z]);
        }
    }

    fn line_mw(&self, z: usize, z2: usize) -> i128 {
        self.data.at(Table::LineMw, &[z, z2])
    }

    fn emissions_of(&self, row: &mut RowBuilder, y: usize, g: usize) {
        let emission = self.data.at(Table::Emission, &[g]);
        for s in 0..self.data.shape.slices() {
            let coefficient = -self.data.duration(s) * emission;
            row.add(coefficient, Column::Gen, &[y, g, s]);
        }
    }
}

/// Collects a row's terms.
struct RowBuilder<'m> {
    columns: &'m ColumnLayout,
    terms: Vec<(usize, i128)>,
    constant: i128,
}

impl<'m> RowBuilder<'m> {
    fn new(model: &'m Model) -> RowBuilder<'m> {
        RowBuilder {
            columns: &model.columns,
            terms: Vec::new(),
            constant: 0,
        }
    }

    /// A term with coefficient 0 is 0 whatever its entry, so it is left out.
    fn add(&mut self, coefficient: i128, column: Column, indices: &[usize]) {
        if coefficient != 0 {
            self.terms
                .push((self.columns.index(column, indices), coefficient));
        }
    }
}
