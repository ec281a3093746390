//! Rival plans of demand 3: other plans over the same data that meet all the
//! equations, at other scales, with entries that may be wide.
//!
//! One kind owes nothing to the sound plan. The others are made from it by shares
//! that no limit of families 5 to 20, 27 and 28 forbids:
//!
//! - a candidate may be built to a share of the plan, with its output and
//!   reserve; an existing plant may keep a share of its capacity after the
//!   first year, the rest retiring in the second;
//! - a plant's output may lie anywhere between the plan's and the least that its
//!   minimum load asks, its reserve and every link's transfers may shrink;
//! - a battery may charge, hold and give a share of what the plan does, or charge
//!   and give anew as it likes;
//! - a pair of zones may have a share of the plan's lines, with their flows, or lines and
//!   flows anew, in any fractions of a line;
//! - unmet, surplus, spinshort and firmshort then take up the difference.

use super::draft::{Case, Draft};
use super::needed;
use super::random::Random;
use crate::columns::{Column, ColumnLayout};
use crate::data::{read_shape, Table};

/// A rival plan in Mths.
#[derive(Clone, Debug)]
pub struct Rival {
    pub label: &'static str,
    pub scale: u64,
    pub entries: Vec<u128>,
    /// Whether it meets all the equations by construction; otherwise it may not.
    pub feasible: bool,
}

/// Shares are counted in this many parts.
const PARTS: i128 = 16;

/// A rival of a case that check accepts.
pub fn rival(random: &mut Random, case: &Case) -> Rival {
    match random.below(12) {
        0 => rescaled(random, case),
        1 => with_waste(random, case),
        2 | 3 => swapped(random, case),
        4 => idle(random, case),
        5 | 6 => recharged(random, case),
        7 | 8 => rebuilt(random, case),
        _ => reshaped(random, case),
    }
}

/// The plan itself in finer units.
fn rescaled(random: &mut Random, case: &Case) -> Rival {
    let factor = 1 + random.magnitude(1 << 40) as u128;
    Rival {
        label: "rescaled",
        scale: u64::from(case.scale) * factor as u64,
        entries: case
            .plan
            .iter()
            .map(|&entry| u128::from(entry) * factor)
            .collect(),
        feasible: true,
    }
}

/// The plan in finer units with output moved between plants of a zone in some
/// slices. Ramps, fuel and emissions may forbid it.
fn swapped(random: &mut Random, case: &Case) -> Rival {
    let mut rival = rescaled(random, case);
    let source = Draft::of(case.clone());
    let shape = source.shape;
    let factor = (rival.scale / u64::from(case.scale)) as i128;
    for _ in 0..1 + random.below(4) {
        let y = random.below(shape.years as u64) as usize;
        let s = random.below(shape.slices() as u64) as usize;
        let giver = random.below(shape.plants as u64) as usize;
        let plants = source.plants_in(source.zone_of(giver));
        let taker = *random.pick(&plants);
        // A battery gives no more than its level has.
        if source.is_battery(giver) || source.is_battery(taker) {
            continue;
        }
        let place = |g: usize| source.columns.index(Column::Gen, &[y, g, s]);
        let given = rival.entries[place(giver)] as i128;
        let room = source.cap(y, taker) * factor - rival.entries[place(taker)] as i128;
        let moved = random.magnitude(given.min(room)) as u128;
        rival.entries[place(giver)] -= moved;
        rival.entries[place(taker)] += moved;
    }
    rival.label = "swapped";
    rival.feasible = false;
    rival
}

/// The plan in finer units with more unmet and as much more surplus, more
/// spinshort and more firmshort.
fn with_waste(random: &mut Random, case: &Case) -> Rival {
    let mut rival = rescaled(random, case);
    let shape = read_shape(&case.data).expect("sound data");
    let columns = ColumnLayout::new(shape);
    for y in 0..shape.years {
        for z in 0..shape.zones {
            for s in 0..shape.slices() {
                let more = random.magnitude(1 << 60) as u128;
                rival.entries[columns.index(Column::Unmet, &[y, z, s])] += more;
                rival.entries[columns.index(Column::Surplus, &[y, z, s])] += more;
                let spare = random.magnitude(1 << 60) as u128;
                rival.entries[columns.index(Column::SpinShort, &[y, z, s])] += spare;
            }
            let spare = random.magnitude(1 << 60) as u128;
            rival.entries[columns.index(Column::FirmShort, &[y, z])] += spare;
        }
    }
    rival.label = "with waste";
    rival
}

/// The rival under construction: wide entries over the case's data.
struct Build {
    source: Draft,
    /// M.
    scale: i128,
    entries: Vec<i128>,
}

impl Build {
    fn new(case: &Case, scale: i128) -> Build {
        let source = Draft::of(case.clone());
        let entries = vec![0; source.columns.count()];
        Build {
            source,
            scale,
            entries,
        }
    }

    fn entry(&self, column: Column, indices: &[usize]) -> i128 {
        self.entries[self.source.columns.index(column, indices)]
    }

    fn set(&mut self, column: Column, indices: &[usize], value: i128) {
        self.entries[self.source.columns.index(column, indices)] = value;
    }

    /// An entry of the sound plan in Mths, where M is a multiple of N.
    fn planned(&self, column: Column, indices: &[usize]) -> i128 {
        self.source.entry(column, indices) * (self.scale / self.source.scale())
    }

    /// Unmet, surplus, spinshort and firmshort as the other entries need them.
    fn make_up(mut self, random: &mut Random, label: &'static str, feasible: bool) -> Rival {
        let shape = self.source.shape;
        for y in 0..shape.years {
            for z in 0..shape.zones {
                for s in 0..shape.slices() {
                    balance(random, &mut self, y, z, s);
                    cover_spinning_reserve(random, &mut self, y, z, s);
                }
                cover_firm_capacity(random, &mut self, y, z);
            }
        }
        let entry = |&entry: &i128| u128::try_from(entry).expect("an entry not below 0");
        Rival {
            label,
            scale: self.scale as u64,
            entries: self.entries.iter().map(entry).collect(),
            feasible,
        }
    }
}

fn share(random: &mut Random) -> i128 {
    match random.below(4) {
        0 => 0,
        1 => PARTS,
        _ => random.signed(0, PARTS),
    }
}

fn reshaped(random: &mut Random, case: &Case) -> Rival {
    // Divisible by what shares of shares and minimum loads need.
    let factor = 1000 * PARTS * PARTS * (1 + random.magnitude(1 << 24));
    let mut build = Build::new(case, i128::from(case.scale) * factor);
    for g in 0..build.source.shape.plants {
        reshape_plant(random, &mut build, g);
    }
    reshape_transfers(random, &mut build);
    build.make_up(random, "reshaped", true)
}

/// A plan that owes nothing to the case's own, at any scale: no builds, no lines and no
/// transfers, existing plants retire in the second year and give the least that
/// their minimum load asks. Availability, profiles, fuel and emissions may forbid
/// even that.
fn idle(random: &mut Random, case: &Case) -> Rival {
    let scale = 1 + random.magnitude(1 << 40);
    let mut build = Build::new(case, scale);
    let shape = build.source.shape;
    for g in 0..shape.plants {
        if build.source.is_candidate(g) {
            continue;
        }
        let cap = scale * build.source.data(Table::GenCap, &[g]);
        build.set(Column::Cap, &[0, g], cap);
        for s in 0..shape.slices() {
            let gen = least_output(&build, 0, g, s, cap);
            build.set(Column::Gen, &[0, g, s], gen);
        }
        if shape.years > 1 {
            build.set(Column::Retire, &[1, g], cap);
        }
    }
    build.make_up(random, "idle", false)
}

/// The plan itself in finer units, to be changed.
fn copied(random: &mut Random, case: &Case) -> Build {
    let factor = 1 + random.magnitude(1 << 20);
    let mut build = Build::new(case, i128::from(case.scale) * factor);
    for (entry, &planned) in build.entries.iter_mut().zip(&case.plan) {
        *entry = i128::from(planned) * factor;
    }
    build
}

/// The plan in finer units with the lines of every pair, and all flows, anew.
fn rebuilt(random: &mut Random, case: &Case) -> Rival {
    let mut build = copied(random, case);
    for pair in build.source.pairs() {
        build_lines(random, &mut build, pair);
    }
    for y in 0..build.source.shape.years {
        for [z, z2] in build.source.pairs() {
            redirect_flows(random, &mut build, [y, z, z2]);
            redirect_flows(random, &mut build, [y, z2, z]);
        }
    }
    build.make_up(random, "lines rebuilt", true)
}

/// A pair's lines, year by year, in Mths of a line, as many in both directions: up to
/// the lower of the two limits, or none.
fn build_lines(random: &mut Random, build: &mut Build, [z, z2]: [usize; 2]) {
    let limit = |z, z2| build.source.data(Table::LineLimit, &[z, z2]);
    let mut left = match random.below(4) {
        0 => 0,
        _ => build.scale * limit(z, z2).min(limit(z2, z)),
    };
    let mut total = 0;
    for y in 0..build.source.shape.years {
        let built = match random.below(3) {
            0 => left,
            1 => 0,
            _ => random.signed(0, left),
        };
        left -= built;
        total += built;
        for link in [[y, z, z2], [y, z2, z]] {
            build.set(Column::Built, &link, built);
            build.set(Column::Total, &link, total);
        }
    }
}

/// (15): a link's flows of a year as the plan has them where they fit, or anything up to
/// what the link and its lines carry.
fn redirect_flows(random: &mut Random, build: &mut Build, [y, z, z2]: [usize; 3]) {
    let source = &build.source;
    let mw = source.data(Table::LineMw, &[z, z2]);
    let lines = mw * build.entry(Column::Total, &[y, z, z2]);
    for s in 0..build.source.shape.slices() {
        let q = build.source.shape.season_of(s);
        let carried = build.scale * build.source.data(Table::Tl, &[y, z, z2, q]) + lines;
        let flow = match random.below(4) {
            0 => carried,
            1 => random.signed(0, carried),
            _ => build.planned(Column::Trans, &[y, z, z2, s]).min(carried),
        };
        build.set(Column::Trans, &[y, z, z2, s], flow);
    }
}

/// The plan in finer units with every battery charging and giving anew. Its
/// availability, fuel and emissions may forbid it.
fn recharged(random: &mut Random, case: &Case) -> Rival {
    let mut build = copied(random, case);
    let shape = build.source.shape;
    for y in 0..shape.years {
        for g in 0..shape.plants {
            if build.source.is_battery(g) {
                recharge(random, &mut build, y, g);
            }
        }
    }
    build.make_up(random, "recharged", false)
}

/// One battery and year: each hour's charge and output within the capacity and,
/// after a day's first hour, within the ramps; the level between 0 and its limit.
fn recharge(random: &mut Random, build: &mut Build, y: usize, g: usize) {
    let source = &build.source;
    let shape = source.shape;
    let cap = build.entry(Column::Cap, &[y, g]);
    let [down, up] =
        [Table::RampDn, Table::RampUp].map(|ramp| source.data(ramp, &[g]) * cap / 1000);
    let over_load = source.data(Table::OverLoad, &[g]) * cap / 1000;
    let efficiency = source.data(Table::Efficiency, &[g]);
    let store = build.scale * source.data(Table::EnergyCapacity, &[g]);
    let (mut charge, mut gen, mut level) = (0, 0, 0);
    for s in 0..shape.slices() {
        let first = shape.hour_of(s) == 0;
        if first {
            level = 0;
        }
        // The rise of charge is bound by RampDn, its fall by RampUp.
        let (least, most) = match first {
            true => (0, cap),
            false => ((charge - up).max(0), (charge + down).min(cap)),
        };
        let fitting = (store - level) / efficiency.max(1);
        charge = random.signed(least, most).min(fitting).max(least);
        level += efficiency * charge;
        let output = cap + over_load - build.entry(Column::Reserve, &[y, g, s]);
        let (least, most) = match first {
            true => (0, output),
            false => ((gen - down).max(0), (gen + up).min(output)),
        };
        let least = least.max(least_output(build, y, g, s, cap));
        gen = random.signed(least, most.min(level / 1000).max(least));
        level -= 1000 * gen;
        build.set(Column::Charge, &[y, g, s], charge);
        build.set(Column::Gen, &[y, g, s], gen);
        // Below 0 there is no level; the row of family 21 breaks then.
        build.set(Column::Level, &[y, g, s], level.max(0));
    }
}

fn reshape_plant(random: &mut Random, build: &mut Build, g: usize) {
    let kept = share(random);
    let (output, offer) = (share(random), share(random));
    // A battery's charge, output and level shrink alike; a minimum load forbids it.
    let stored = match build.source.data(Table::MinCapFac, &[g]) {
        0 => output,
        _ => PARTS,
    };
    let candidate = build.source.is_candidate(g);
    let shape = build.source.shape;
    for y in 0..shape.years {
        // The first year of an existing plant is fixed by GenCap.
        let kept = if candidate || y > 0 { kept } else { PARTS };
        let cap = build.planned(Column::Cap, &[y, g]) * kept / PARTS;
        let built = build.planned(Column::Build, &[y, g]) * kept / PARTS;
        build.set(Column::Cap, &[y, g], cap);
        build.set(Column::Build, &[y, g], built);
        if !candidate && y > 0 {
            let retire = build.entry(Column::Cap, &[y - 1, g]) - cap;
            build.set(Column::Retire, &[y, g], retire);
        }
        for s in 0..shape.slices() {
            let planned = build.planned(Column::Gen, &[y, g, s]) * kept / PARTS;
            let least = least_output(build, y, g, s, cap);
            let gen = match build.source.is_battery(g) {
                true => planned / PARTS * stored,
                false => least + (planned - least) / PARTS * output,
            };
            for column in [Column::Charge, Column::Level] {
                let planned = build.planned(column, &[y, g, s]) * kept / PARTS;
                build.set(column, &[y, g, s], planned / PARTS * stored);
            }
            let reserve = build.planned(Column::Reserve, &[y, g, s]) * kept / PARTS;
            build.set(Column::Gen, &[y, g, s], gen);
            build.set(Column::Reserve, &[y, g, s], reserve / PARTS * offer);
        }
    }
}

/// What the minimum load asks of a capacity in Mths.
fn least_output(build: &Build, y: usize, g: usize, s: usize, cap: i128) -> i128 {
    debug_assert_eq!(build.entry(Column::Cap, &[y, g]), cap);
    match build.source.is_minimum_load_day(s) {
        true => needed::quotient_up(build.source.data(Table::MinCapFac, &[g]) * cap, 1000),
        false => 0,
    }
}

/// A pair keeps a share of its lines, alike in all years and in both directions, and of its
/// flows no larger a share.
fn reshape_transfers(random: &mut Random, build: &mut Build) {
    for [z, z2] in build.source.pairs() {
        let kept = share(random);
        for y in 0..build.source.shape.years {
            for link in [[y, z, z2], [y, z2, z]] {
                let part = share(random).min(kept);
                for column in [Column::Built, Column::Total] {
                    let planned = build.planned(column, &link);
                    build.set(column, &link, planned / PARTS * kept);
                }
                reshape_flows(build, link, part);
            }
        }
    }
}

fn reshape_flows(build: &mut Build, [y, z, z2]: [usize; 3], part: i128) {
    for s in 0..build.source.shape.slices() {
        let flow = build.planned(Column::Trans, &[y, z, z2, s]);
        build.set(Column::Trans, &[y, z, z2, s], flow / PARTS * part);
    }
}

/// At times more than is needed.
fn extra(random: &mut Random) -> i128 {
    match random.below(8) {
        0 => random.magnitude(1 << 40),
        _ => 0,
    }
}

/// (14): unmet for a shortfall, surplus for an excess.
fn balance(random: &mut Random, build: &mut Build, y: usize, z: usize, s: usize) {
    let source = &build.source;
    let ee = source.data(Table::Ee, &[y, z]);
    let mut short = build.scale * source.data(Table::Demand, &[y, z, s]) * ee;
    for g in source.plants_in(z) {
        short -= 1000 * build.entry(Column::Gen, &[y, g, s]);
        short += 1000 * build.entry(Column::Charge, &[y, g, s]);
    }
    for z2 in source.zones_beside(z) {
        let received = 1000 - source.data(Table::Loss, &[y, z2, z]);
        short += 1000 * build.entry(Column::Trans, &[y, z, z2, s]);
        short -= received * build.entry(Column::Trans, &[y, z2, z, s]);
    }
    let both = extra(random);
    build.set(Column::Unmet, &[y, z, s], short.max(0) + both);
    build.set(Column::Surplus, &[y, z, s], (-short).max(0) + both);
}

/// (19).
fn cover_spinning_reserve(random: &mut Random, build: &mut Build, y: usize, z: usize, s: usize) {
    let source = &build.source;
    let q = source.shape.season_of(s);
    let mut short = 1000 * build.scale * source.data(Table::SRes, &[y, z]);
    for g in source.plants_in(z) {
        short -= 1000 * build.entry(Column::Reserve, &[y, g, s]);
        if source.is_vre(g) {
            let error = source.data(Table::Err, &[]);
            short += error * build.entry(Column::Gen, &[y, g, s]);
        }
    }
    for z2 in source.zones_beside(z) {
        let limit = build.scale * source.data(Table::Tl, &[y, z2, z, q]);
        let mw = source.data(Table::LineMw, &[z2, z]);
        let lines = mw * build.entry(Column::Total, &[y, z2, z]);
        short -= 1000 * (limit + lines - build.entry(Column::Trans, &[y, z2, z, s]));
    }
    let spinshort = short.max(0) + extra(random);
    build.set(Column::SpinShort, &[y, z, s], spinshort);
}

/// (21).
fn cover_firm_capacity(random: &mut Random, build: &mut Build, y: usize, z: usize) {
    let source = &build.source;
    let margin = 1000 + source.data(Table::Prm, &[z]);
    let mut short = margin * build.scale * needed::peak(source, y, z);
    for g in source.plants_in(z) {
        let credit = source.data(Table::CapCredit, &[g]);
        short -= credit * build.entry(Column::Cap, &[y, g]);
    }
    short -= 1000 * build.scale * needed::firm_links(source, y, z);
    let firmshort = short.max(0) + extra(random);
    build.set(Column::FirmShort, &[y, z], firmshort);
}
