//! docs/FORMAT.md, "From a solver": the page's steps from a solver's answer to a
//! plan in whole Nths and to whole multipliers, in its order and with its
//! numbers. The worked example (`tests/rounding.rs`) says what each step gains.

use crate::calls::{column_loads, row_value, LARGEST_MULTIPLIER};
use crate::columns::Column;
use crate::data::Table;
use crate::model::{Model, Row};
use crate::mps::MILLIONTHS;

/// A solver's answer: the entry of each column in the column's own unit, and the
/// multiplier of each row in millionths of a money unit.
#[derive(Clone, Debug)]
pub struct Solution {
    pub entries: Vec<f64>,
    pub multipliers: Vec<f64>,
}

impl Solution {
    /// The answer of `glpsol -w` to `mps`: lines `i row status value dual` and
    /// `j column status value dual`, numbered from 1. A figure of 0 may be
    /// left out, so columns and rows that the model has gained since are 0 too.
    pub fn read(model: &Model, text: &str) -> Solution {
        let mut solution = Solution {
            entries: vec![0.0; model.columns.count()],
            multipliers: vec![0.0; model.rows.count()],
        };
        for line in text.lines() {
            let words: Vec<&str> = line.split_whitespace().collect();
            let place = || words[1].parse::<usize>().expect("a number from 1") - 1;
            let figure = |word: usize| words[word].parse::<f64>().expect("a figure");
            match words.first() {
                Some(&"i") => solution.multipliers[place()] = figure(4) * MILLIONTHS,
                Some(&"j") => solution.entries[place()] = figure(3),
                _ => (),
            }
        }
        solution
    }
}

/// How far from a whole number a solver's figure is still meant to be one.
const NOISE: f64 = 1e-6;

/// A solver's figure as a whole number, downward or upward; never below 0.
fn whole(figure: f64, upward: bool) -> i128 {
    let nearest = figure.round();
    let rounded = if (figure - nearest).abs() < NOISE {
        nearest
    } else if upward {
        figure.ceil()
    } else {
        figure.floor()
    };
    rounded.max(0.0) as i128
}

/// A plan as it is rounded, with every row at hand.
struct Rounding<'m> {
    model: &'m Model<'m>,
    scale: u32,
    rows: Vec<Row>,
    plan: Vec<u32>,
}

/// "Rounding the plan". Without `raising`, step 3 takes every shortage as unmet,
/// and step 4 every shortage of reserve as spinshort.
pub fn plan(model: &Model, scale: u32, entries: &[f64], raising: bool) -> Vec<u32> {
    let rows = (0..model.rows.count()).map(|i| model.row(i)).collect();
    let plan = vec![0; model.columns.count()];
    let mut rounding = Rounding {
        model,
        scale,
        rows,
        plan,
    };
    rounding.capacity(entries);
    rounding.lines(entries);
    rounding.store(entries);
    rounding.dispatch(entries);
    rounding.balance(entries, raising);
    rounding.reserves(raising);
    rounding.plan
}

impl Rounding<'_> {
    fn number(&self, column: Column, indices: &[usize]) -> usize {
        self.model.columns.index(column, indices)
    }

    fn at(&self, column: Column, indices: &[usize]) -> i128 {
        i128::from(self.plan[self.number(column, indices)])
    }

    fn set(&mut self, column: Column, indices: &[usize], entry: i128) {
        let number = self.number(column, indices);
        self.plan[number] = u32::try_from(entry).expect("an entry of 32 bits");
    }

    fn value(&self, family: usize, indices: &[usize]) -> i128 {
        let row = &self.rows[self.model.rows.index(family, indices)];
        row_value(row, self.scale, &self.plan).value()
    }

    /// Whether every row that limits the column holds. Families 1, 3 and 4 do not count:
    /// unmet, surplus, spinshort and firmshort make them good. Nor does family 9, which asks
    /// for more and not for less.
    fn is_within_limits(&self, column: usize) -> bool {
        self.rows.iter().enumerate().all(|(number, row)| {
            let family = self.model.rows.family(number).expect("a row");
            let stands = row.terms.iter().any(|&(j, _)| j == column);
            !stands
                || matches!(family, 1 | 3 | 4 | 9)
                || row.holds_at(row_value(row, self.scale, &self.plan).value())
        })
    }

    /// One Nth more of a column, where it has that much headroom.
    fn raise(&mut self, column: Column, indices: &[usize]) -> bool {
        let number = self.number(column, indices);
        self.plan[number] += 1;
        let fits = self.is_within_limits(number);
        if !fits {
            self.plan[number] -= 1;
        }
        fits
    }

    /// Sets an entry to the solver's figure in whole Nths.
    fn round(&mut self, entries: &[f64], column: Column, indices: &[usize], upward: bool) {
        let figure = entries[self.number(column, indices)] * f64::from(self.scale);
        self.set(column, indices, whole(figure, upward));
    }

    /// Step 1: build upward, downward where a limit of families 15, 16 or 18 would be
    /// passed; retire downward; cap by family 12.
    fn capacity(&mut self, entries: &[f64]) {
        let shape = self.model.data.shape;
        let plants = |y| (0..shape.plants).map(move |g| [y, g]);
        let years_and_plants: Vec<[usize; 2]> = (0..shape.years).flat_map(plants).collect();
        for i in &years_and_plants {
            if self.model.data.is_candidate(i[1]) {
                self.round(entries, Column::Build, i, true);
            } else {
                self.round(entries, Column::Retire, i, false);
            }
        }
        self.stock();
        for i in &years_and_plants {
            let passed = [(15, &i[1..]), (16, &i[..]), (18, &[][..])]
                .iter()
                .any(|(family, indices)| self.value(*family, indices) < 0);
            if passed {
                self.round(entries, Column::Build, i, false);
                self.stock();
            }
        }
    }

    /// Step 1 for lines: built upward, alike in both directions, downward where a limit of
    /// family 27 would be passed; total by family 26.
    fn lines(&mut self, entries: &[f64]) {
        let zones = self.model.data.shape.zones;
        let years = 0..self.model.data.shape.years;
        for (z, z2) in (0..zones).flat_map(|z2| (0..z2).map(move |z| (z, z2))) {
            for y in years.clone() {
                self.build_lines(entries, [y, z, z2], true);
            }
            for y in years.clone() {
                if self.value(27, &[z, z2]) < 0 || self.value(27, &[z2, z]) < 0 {
                    self.build_lines(entries, [y, z, z2], false);
                }
            }
            self.add_up_lines([z, z2]);
        }
    }

    /// The lines that a pair builds in a year, in both directions those of the lower zone.
    fn build_lines(&mut self, entries: &[f64], [y, z, z2]: [usize; 3], upward: bool) {
        self.round(entries, Column::Built, &[y, z, z2], upward);
        let built = self.at(Column::Built, &[y, z, z2]);
        self.set(Column::Built, &[y, z2, z], built);
    }

    fn add_up_lines(&mut self, [z, z2]: [usize; 2]) {
        let mut total = 0;
        for y in 0..self.model.data.shape.years {
            total += self.at(Column::Built, &[y, z, z2]);
            self.set(Column::Total, &[y, z, z2], total);
            self.set(Column::Total, &[y, z2, z], total);
        }
    }

    /// cap from build and retire by family 12. What an existing plant has left when its years
    /// end is retired then.
    fn stock(&mut self) {
        let data = &self.model.data;
        for g in 0..data.shape.plants {
            let mut cap = 0;
            for y in 0..data.shape.years {
                if data.is_candidate(g) {
                    cap += self.at(Column::Build, &[y, g]);
                } else if y == 0 {
                    cap = i128::from(self.scale) * data.at(Table::GenCap, &[g]);
                    self.set(Column::Retire, &[y, g], 0);
                } else {
                    let retire = if self.model.is_outside_years(y, g) {
                        cap
                    } else {
                        self.at(Column::Retire, &[y, g]).min(cap)
                    };
                    self.set(Column::Retire, &[y, g], retire);
                    cap -= retire;
                }
                self.set(Column::Cap, &[y, g], cap);
            }
        }
    }

    /// Step 2 for batteries, hour by hour from the day's first: charge and gen downward,
    /// within the capacity; gen no more than the level has. Where the level would be above
    /// the energy capacity, or above what an entry holds, less charge.
    fn store(&mut self, entries: &[f64]) {
        let data = &self.model.data;
        let shape = data.shape;
        for g in (0..shape.plants).filter(|&g| data.is_battery(g)) {
            let efficiency = data.at(Table::Efficiency, &[g]);
            let capacity = i128::from(self.scale) * data.at(Table::EnergyCapacity, &[g]);
            let most_level = capacity.min(i128::from(u32::MAX));
            let over_load = 1000 + data.at(Table::OverLoad, &[g]);
            for y in 0..shape.years {
                let mut level = 0;
                for s in 0..shape.slices() {
                    let place = [y, g, s];
                    let earlier = if shape.hour_of(s) == 0 { 0 } else { level };
                    let cap = self.at(Column::Cap, &[y, g]);
                    self.round(entries, Column::Charge, &place, false);
                    self.round(entries, Column::Gen, &place, false);
                    let mut charge = self.at(Column::Charge, &place).min(cap);
                    let most = self.at(Column::Gen, &place).min(over_load * cap / 1000);
                    let gen = loop {
                        let held = earlier + efficiency * charge;
                        let gen = most.min(held / 1000);
                        level = held - 1000 * gen;
                        if level <= most_level {
                            break gen;
                        }
                        charge -= 1;
                    };
                    self.set(Column::Charge, &place, charge);
                    self.set(Column::Gen, &place, gen);
                    self.set(Column::Level, &place, level);
                }
            }
        }
    }

    /// Step 2: gen, reserve and trans downward, gen upward where a minimum load asks for it.
    /// Where a limit does not hold then, as a ramp between two hours may not, the entry is
    /// lowered further.
    fn dispatch(&mut self, entries: &[f64]) {
        let columns = (0..self.plan.len()).filter_map(|j| self.model.columns.locate(j));
        let dispatched: Vec<(Column, Vec<usize>)> = columns
            .filter(|(column, indices)| match column {
                Column::Gen => !self.model.data.is_battery(indices[1]),
                column => matches!(column, Column::Reserve | Column::Trans),
            })
            .collect();
        for (column, indices) in &dispatched {
            self.round(entries, *column, indices, false);
            while *column == Column::Gen && self.value(9, indices) < 0 {
                self.set(*column, indices, self.at(*column, indices) + 1);
            }
        }
        for (column, indices) in &dispatched {
            let number = self.number(*column, indices);
            while self.plan[number] > 0 && !self.is_within_limits(number) {
                self.plan[number] -= 1;
            }
        }
    }

    /// Step 3: what family 1 lacks. The cheapest plant of the zone with headroom is
    /// raised, Nth by Nth; where the zone has none, a link into it, and the sending zone
    /// makes it good. A battery has no headroom: it gives what its level has. What is left
    /// is unmet, what is too much is surplus.
    fn balance(&mut self, entries: &[f64], raising: bool) {
        let shape = self.model.data.shape;
        for y in 0..shape.years {
            for s in 0..shape.slices() {
                // Receiving zones before those that send to them.
                let mut zones: Vec<usize> = (0..shape.zones).collect();
                let sent = |z: usize| -> f64 {
                    let link = |z2| entries[self.number(Column::Trans, &[y, z, z2, s])];
                    (0..shape.zones).map(link).sum()
                };
                zones.sort_by(|&a, &b| sent(a).total_cmp(&sent(b)));
                for (done, &z) in zones.iter().enumerate() {
                    let senders = &zones[done + 1..];
                    while raising && self.is_worth_raising(y, z, s) {
                        if !self.raise_cheapest(y, z, s) && !self.raise_link(y, z, s, senders) {
                            break;
                        }
                    }
                    let value = self.value(1, &[y, z, s]);
                    self.set(Column::Unmet, &[y, z, s], (-value).max(0));
                    self.set(Column::Surplus, &[y, z, s], value.max(0));
                }
            }
        }
    }

    /// Whether a further Nth, with what it leaves as surplus, costs less than the shortage
    /// costs as unmet. The Nth is priced as that of the dearest plant: which one gives it, and
    /// in which zone, is not known yet.
    fn is_worth_raising(&self, y: usize, z: usize, s: usize) -> bool {
        let short = -self.value(1, &[y, z, s]);
        let price = |column, i: &[usize]| self.model.price_of(column, i);
        let plants = 0..self.model.data.shape.plants;
        let dearest = plants
            .map(|g| price(Column::Gen, &[y, g, s]))
            .max()
            .unwrap_or(0);
        let surplus = price(Column::Surplus, &[y, z, s]);
        let unmet = price(Column::Unmet, &[y, z, s]);
        short > 0 && dearest + (1000 - short).max(0) * surplus < short.min(1000) * unmet
    }

    fn raise_cheapest(&mut self, y: usize, z: usize, s: usize) -> bool {
        let mut plants: Vec<usize> = self.model.data.plants_in(z).collect();
        plants.sort_by_key(|&g| self.model.price_of(Column::Gen, &[y, g, s]));
        plants
            .into_iter()
            .any(|g| self.raise(Column::Gen, &[y, g, s]))
    }

    fn raise_link(&mut self, y: usize, z: usize, s: usize, senders: &[usize]) -> bool {
        let mut links = senders.iter();
        links.any(|&z2| self.raise(Column::Trans, &[y, z2, z, s]))
    }

    /// Step 4: what families 3 and 4 lack. Reserve is raised where a plant of the zone has
    /// headroom; what is left is spinshort and firmshort.
    fn reserves(&mut self, raising: bool) {
        let shape = self.model.data.shape;
        for y in 0..shape.years {
            for z in 0..shape.zones {
                for s in 0..shape.slices() {
                    let plants: Vec<usize> = self.model.data.plants_in(z).collect();
                    while raising
                        && self.value(3, &[y, z, s]) < 0
                        && plants
                            .iter()
                            .any(|&g| self.raise(Column::Reserve, &[y, g, s]))
                    {}
                    let value = self.value(3, &[y, z, s]);
                    self.set(Column::SpinShort, &[y, z, s], (-value).max(0));
                }
                let value = self.value(4, &[y, z]);
                self.set(Column::FirmShort, &[y, z], (-value).max(0));
            }
        }
    }
}

/// "Rounding the multipliers". Without `outside_years`, step 3 treats capacity outside
/// the plant's years as capacity in service.
pub fn multipliers(model: &Model, solved: &[f64], outside_years: bool) -> Vec<i64> {
    let mut mending = Mending {
        model,
        m: Vec::new(),
    };
    for (row, &multiplier) in solved.iter().enumerate() {
        let nearest = multiplier.round() as i64;
        let equality = model.row(row).equality;
        mending
            .m
            .push(if equality { nearest } else { nearest.max(0) });
    }
    mending.mend(outside_years);
    mending.m
}

/// Whole multipliers of any size, mended so that no column is underpriced.
pub fn mended(model: &Model, m: Vec<i64>) -> Vec<i64> {
    let mut mending = Mending { model, m };
    mending.mend(true);
    mending.m
}

/// Multipliers as they are mended.
struct Mending<'m> {
    model: &'m Model<'m>,
    m: Vec<i64>,
}

impl Mending<'_> {
    /// The page's four steps, in its order.
    fn mend(&mut self, outside_years: bool) {
        let shape = self.model.data.shape;
        self.bound_by_prices();
        for y in 0..shape.years {
            for s in 0..shape.slices() {
                for g in 0..shape.plants {
                    self.raise(6, 1000, Column::Reserve, &[y, g, s]);
                    self.raise(5, 1000, Column::Gen, &[y, g, s]);
                    self.raise(22, 1, Column::Charge, &[y, g, s]);
                    self.raise(25, 1, Column::Level, &[y, g, s]);
                }
                for z in 0..shape.zones {
                    for z2 in 0..shape.zones {
                        self.raise(2, 1, Column::Trans, &[y, z, z2, s]);
                    }
                }
            }
        }
        for g in 0..shape.plants {
            for y in (0..shape.years).rev() {
                if outside_years && self.model.is_outside_years(y, g) {
                    self.price_outside(y, g);
                } else {
                    self.price_capacity(y, g);
                }
            }
            for y in 0..shape.years {
                self.price_build(y, g);
            }
        }
        for z in 0..shape.zones {
            for z2 in 0..shape.zones {
                for y in (0..shape.years).rev() {
                    self.price_total(y, z, z2);
                }
                for y in 0..shape.years {
                    self.price_built(y, z, z2);
                }
            }
        }
    }

    fn row(&mut self, family: usize, indices: &[usize]) -> &mut i64 {
        &mut self.m[self.model.rows.index(family, indices)]
    }

    /// How far Σ m·a of a column is above its price; 0 or less where it is priced well.
    fn excess(&self, column: Column, indices: &[usize]) -> i64 {
        let number = self.model.columns.index(column, indices);
        let load = column_loads(self.model, &self.m)[number].value();
        (load - self.model.price(number)) as i64
    }

    /// Raises a multiplier until a column of the same indices is priced well. `unit` is what
    /// the row's multiplier takes off the column's sum.
    fn raise(&mut self, family: usize, unit: i64, column: Column, indices: &[usize]) {
        let excess = self.excess(column, indices).max(0);
        *self.row(family, indices) += (excess + unit - 1) / unit;
    }

    /// Step 1: the multipliers that unmet, surplus, spinshort and firmshort bound.
    fn bound_by_prices(&mut self) {
        let shape = self.model.data.shape;
        for y in 0..shape.years {
            for z in 0..shape.zones {
                self.lower(4, Column::FirmShort, &[y, z]);
                for s in 0..shape.slices() {
                    self.lower(3, Column::SpinShort, &[y, z, s]);
                    self.lower(1, Column::Unmet, &[y, z, s]);
                    let least = -(self.model.price_of(Column::Surplus, &[y, z, s]) as i64);
                    let balance = self.row(1, &[y, z, s]);
                    *balance = (*balance).max(least);
                }
            }
        }
    }

    fn lower(&mut self, family: usize, column: Column, indices: &[usize]) {
        let most = self.model.price_of(column, indices) as i64;
        let multiplier = self.row(family, indices);
        *multiplier = (*multiplier).min(most);
    }

    /// Step 3, in the plant's years: family 12 so that the column cap is priced exactly. The
    /// column retire holds it at 0 or less for an existing plant after the first year.
    fn price_capacity(&mut self, y: usize, g: usize) {
        let excess = self.excess(Column::Cap, &[y, g]);
        let retires = !self.model.data.is_candidate(g) && y > 0;
        let stock = self.row(12, &[y, g]);
        *stock -= excess;
        if retires {
            *stock = (*stock).min(0);
        }
    }

    /// Step 3, outside the plant's years: family 12 only as low as build or retire asks, and the
    /// excess of cap to family 13, whose constant is 0.
    fn price_outside(&mut self, y: usize, g: usize) {
        let candidate = self.model.data.is_candidate(g);
        let least = if candidate { -*self.row(15, &[g]) } else { 0 };
        *self.row(12, &[y, g]) = least;
        self.raise(13, 1, Column::Cap, &[y, g]);
    }

    /// Step 3 for lines: family 26 so that the column total is priced exactly, as family 2 has
    /// left it, or the largest multiplier where that is less: a line that earns little and costs
    /// much is priced well by it too. Family 28 stays: what one direction pays for the other.
    fn price_total(&mut self, y: usize, z: usize, z2: usize) {
        let excess = self.excess(Column::Total, &[y, z, z2]);
        let m = self.row(26, &[y, z, z2]);
        *m = (*m - excess).min(LARGEST_MULTIPLIER);
    }

    /// Step 4 for lines: built by family 27.
    fn price_built(&mut self, y: usize, z: usize, z2: usize) {
        let excess = self.excess(Column::Built, &[y, z, z2]).max(0);
        *self.row(27, &[z, z2]) += excess;
    }

    /// Step 4: build of a candidate, by family 15 or 16, the one with the smaller constant.
    fn price_build(&mut self, y: usize, g: usize) {
        if !self.model.data.is_candidate(g) {
            return;
        }
        let constant = |family, indices: &[usize]| self.model.row_of(family, indices).constant;
        let excess = self.excess(Column::Build, &[y, g]).max(0);
        if constant(15, &[g]) < constant(16, &[y, g]) {
            *self.row(15, &[g]) += excess;
        } else {
            *self.row(16, &[y, g]) += excess;
        }
    }
}
