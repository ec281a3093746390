//! Sound cases changed so that a chosen refusal is met.

use super::draft::{Case, Draft};
use super::extremes;
use super::multipliers::Ledger;
use super::needed;
use super::random::Random;
use crate::calls::LARGEST_MULTIPLIER;
use crate::columns::{Column, COLUMNS};
use crate::data::{Range, Table, TableEntry, TABLES};
use crate::model::Model;
use crate::refusal;
use crate::rows::{FAMILIES, FAMILY_COUNT};
use crate::shape::{is_within_zone, COUNTS};
use crate::sums::LIMIT;

/// What is known of the answer by construction. Which calls meet a number is in
/// `refusal`: `OF_ALL_CALLS`, `OF_CERTIFY`, `OF_POST`.
#[derive(Clone, Copy, Debug, PartialEq, Eq)]
pub struct Expected {
    pub number: u32,
    pub place: Option<u64>,
    /// The family of the row at the place.
    pub family: Option<usize>,
    /// The table of the column at the place.
    pub column: Option<Column>,
}

#[derive(Clone, Copy, Debug, PartialEq, Eq)]
pub enum Damage {
    Count,
    DataUnderSeven,
    DataLength,
    Entry,
    /// A battery has VRE set.
    Storage,
    /// A battery has VRE set and an entry is out of range, which is met first.
    StorageAfterEntry,
    /// A battery has VRE set, which is met first, and the scale is out of range.
    StorageBeforeScale,
    Scale,
    PlanLength,
    RowOffScale,
    /// A limit of the family in the data is put one past what the plan uses.
    Limit(usize),
    /// An entry of the plan is changed so that this family breaks first.
    PlanEntry(usize),
    /// An entry of the plan is changed, wherever that shows.
    AnyPlanEntry,
    /// Output is moved and unmet or surplus makes up for it.
    Redispatch,
    /// A battery's charge is moved; its level and unmet or surplus make up for it.
    Recharge,
    /// More or fewer lines are built in a year, in one direction or in both; the totals
    /// make up for it.
    RebuildLines,
    /// An entry of the data is changed, wherever that shows.
    AnyDataEntry,
    CostOffScale,
    MultiplierCount,
    MultiplierRange,
    ColumnOffScale,
    Underpriced(Column),
    /// A multiplier is changed, wherever that shows.
    AnyMultiplier,
    GapOffScale,
    Board,
    /// One of the fixed cases about 2^62 − 1.
    Extreme,
}

/// Families with a limit in the data. Families 14, 26 and 28 have none.
pub const FAMILIES_WITH_LIMIT: [usize; 25] = [
    1, 2, 3, 4, 5, 6, 7, 8, 9, 10, 11, 12, 13, 15, 16, 17, 18, 19, 20, 21, 22, 23, 24, 25, 27,
];

/// Families that a single plan entry, with those that have to follow it, can break before
/// all others.
pub const FAMILIES_WITH_ENTRY: [usize; 14] = [1, 2, 3, 4, 5, 6, 12, 14, 21, 22, 25, 26, 27, 28];

impl Damage {
    pub fn all() -> Vec<Damage> {
        let mut all = vec![
            Damage::Count,
            Damage::DataUnderSeven,
            Damage::DataLength,
            Damage::Entry,
            Damage::Storage,
            Damage::StorageAfterEntry,
            Damage::StorageBeforeScale,
            Damage::Scale,
            Damage::PlanLength,
            Damage::RowOffScale,
            Damage::AnyPlanEntry,
            Damage::Redispatch,
            Damage::Recharge,
            Damage::RebuildLines,
            Damage::AnyDataEntry,
            Damage::CostOffScale,
            Damage::MultiplierCount,
            Damage::MultiplierRange,
            Damage::ColumnOffScale,
            Damage::AnyMultiplier,
            Damage::GapOffScale,
            Damage::Board,
            Damage::Extreme,
        ];
        all.extend(FAMILIES_WITH_LIMIT.map(Damage::Limit));
        all.extend(FAMILIES_WITH_ENTRY.map(Damage::PlanEntry));
        all.extend(
            COLUMNS
                .iter()
                .map(|entry| Damage::Underpriced(entry.column)),
        );
        all
    }
}

/// The damaged case, or none where the draft cannot take this damage.
pub fn damage(
    random: &mut Random,
    mut draft: Draft,
    chosen: Damage,
) -> Option<(Case, Option<Expected>)> {
    let expected = match chosen {
        Damage::Count => Some(damage_count(random, &mut draft)),
        Damage::DataUnderSeven => Some(cut_data(random, &mut draft)),
        Damage::DataLength => Some(change_data_length(random, &mut draft)),
        Damage::Entry => Some(damage_entry(random, &mut draft)),
        Damage::Storage => Some(set_vre_of_batteries(random, &mut draft)?),
        Damage::StorageAfterEntry => {
            set_vre_of_batteries(random, &mut draft)?;
            Some(damage_entry(random, &mut draft))
        }
        Damage::StorageBeforeScale => {
            damage_scale(random, &mut draft);
            Some(set_vre_of_batteries(random, &mut draft)?)
        }
        Damage::Scale => Some(damage_scale(random, &mut draft)),
        Damage::PlanLength => Some(change_plan_length(random, &mut draft)),
        Damage::RowOffScale => Some(row_off_scale(random, &mut draft)?),
        Damage::Limit(family) => Some(pass_limit(random, &mut draft, family)?),
        Damage::PlanEntry(family) => Some(break_by_entry(random, &mut draft, family)?),
        Damage::AnyPlanEntry => {
            let place = random.below(draft.case.plan.len() as u64) as usize;
            draft.case.plan[place] = nudged(random, draft.case.plan[place]);
            None
        }
        Damage::Redispatch => {
            redispatch(random, &mut draft)?;
            None
        }
        Damage::Recharge => {
            recharge(random, &mut draft)?;
            None
        }
        Damage::RebuildLines => {
            rebuild_lines(random, &mut draft)?;
            None
        }
        Damage::AnyDataEntry => {
            let place = random.below(draft.case.data.len() as u64) as usize;
            draft.case.data[place] = nudged(random, draft.case.data[place]);
            None
        }
        Damage::CostOffScale => Some(cost_off_scale(&mut draft)?),
        Damage::MultiplierCount => Some(change_multiplier_count(random, &mut draft)),
        Damage::MultiplierRange => Some(damage_multiplier(random, &mut draft)),
        Damage::ColumnOffScale => Some(column_off_scale(random, &mut draft)?),
        Damage::Underpriced(column) => Some(underprice(random, &mut draft, column)?),
        Damage::AnyMultiplier => {
            let place = random.below(draft.case.multipliers.len() as u64) as usize;
            let change = random.magnitude(1 << 41) as i64;
            let sign = *random.pick(&[-1, 1]);
            draft.case.multipliers[place] += sign * change;
            None
        }
        Damage::GapOffScale => Some(gap_off_scale(random, &mut draft)),
        Damage::Board => Some(damage_board(random, &mut draft)),
        Damage::Extreme => {
            let extreme = random.pick(&extremes::all()).clone();
            let expected = extreme.answer.err().map(|refusal| Expected {
                place: Some(refusal.place),
                ..of_number(refusal.number)
            });
            return Some((extreme.case, expected));
        }
    };
    Some((draft.case, expected))
}

fn of_number(number: u32) -> Expected {
    Expected {
        number,
        place: None,
        family: None,
        column: None,
    }
}

fn at_place(number: u32, place: usize) -> Expected {
    Expected {
        place: Some(place as u64),
        ..of_number(number)
    }
}

fn broken_family(family: usize) -> Expected {
    Expected {
        family: Some(family),
        ..of_number(refusal::BROKEN)
    }
}

fn broken_row(draft: &Draft, family: usize, indices: &[usize]) -> Expected {
    Expected {
        place: Some(draft.rows.index(family, indices) as u64),
        ..broken_family(family)
    }
}

fn underpriced_table(column: Column) -> Expected {
    Expected {
        column: Some(column),
        ..of_number(refusal::UNDERPRICED)
    }
}

fn underpriced_column(draft: &Draft, column: Column, indices: &[usize]) -> Expected {
    Expected {
        place: Some(draft.columns.index(column, indices) as u64),
        ..underpriced_table(column)
    }
}

/// A plant drawn among those that are as asked; none where none is.
fn plant_that(random: &mut Random, draft: &Draft, asked: impl Fn(usize) -> bool) -> Option<usize> {
    let plants: Vec<usize> = (0..draft.shape.plants).filter(|&g| asked(g)).collect();
    match plants.is_empty() {
        true => None,
        false => Some(*random.pick(&plants)),
    }
}

/// One more, one less, or something quite different.
fn nudged(random: &mut Random, value: u32) -> u32 {
    match random.below(5) {
        0 => value.wrapping_add(1),
        1 => value.wrapping_sub(1),
        2 => value / 2,
        3 => 0,
        _ => random.bits() as u32,
    }
}

/// An index drawn below a count.
fn index(random: &mut Random, count: usize) -> usize {
    random.below(count as u64) as usize
}

fn damage_count(random: &mut Random, draft: &mut Draft) -> Expected {
    let place = index(random, COUNTS.len());
    let past = COUNTS[place].1 + 1;
    draft.case.data[place] = *random.pick(&[0, past, u32::MAX]);
    // A later count out of range does not matter.
    let later = index(random, COUNTS.len());
    if later > place {
        draft.case.data[later] = 0;
    }
    at_place(refusal::SHAPE, place)
}

fn cut_data(random: &mut Random, draft: &mut Draft) -> Expected {
    draft.case.data.truncate(index(random, COUNTS.len()));
    at_place(refusal::DATA_LENGTH, COUNTS.len())
}

fn change_data_length(random: &mut Random, draft: &mut Draft) -> Expected {
    let length = draft.case.data.len();
    let met = match random.below(4) {
        0 => length - 1,
        1 => length + 1,
        2 => COUNTS.len() + index(random, length - COUNTS.len()),
        _ => length + 1 + index(random, 50),
    };
    draft.case.data.resize(met, 0);
    at_place(refusal::DATA_LENGTH, length)
}

/// An entry of a table with a range: the value just outside, or far outside.
fn damage_entry(random: &mut Random, draft: &mut Draft) -> Expected {
    loop {
        let table = random.pick(&TABLES);
        let place = index(random, draft.shape.size(table.axes));
        let indices = draft.shape.indices(table.axes, place);
        let edges = entry_edges(draft, table, &indices);
        if edges.is_empty() {
            continue;
        }
        let outside = random.pick(&edges).1;
        let far = random.chance(1, 4) && outside > 0;
        let value = if far { u32::MAX } else { outside };
        draft.set_data(table.table, &indices, i128::from(value));
        return at_place(refusal::ENTRY, draft.layout.index(table.table, &indices));
    }
}

/// The limits of an entry's range as pairs: the last value inside and the first
/// outside. None where all 32 bits are allowed.
pub fn entry_edges(draft: &Draft, entry: &TableEntry, indices: &[usize]) -> Vec<(u32, u32)> {
    let shape = draft.shape;
    let years = shape.years as u32;
    let candidate = || draft.is_candidate(indices[0]);
    match entry.range {
        Range::Any => vec![],
        Range::Within(0, most) => vec![(most, most + 1)],
        Range::Within(least, most) => vec![(least, least - 1), (most, most + 1)],
        Range::BelowZones => vec![(shape.zones as u32 - 1, shape.zones as u32)],
        Range::BelowFuels => vec![(shape.fuels as u32 - 1, shape.fuels as u32)],
        Range::ZeroForCandidate if candidate() => vec![(0, 1)],
        Range::ZeroForExisting if !candidate() => vec![(0, 1)],
        Range::ZeroForCandidate | Range::ZeroForExisting => vec![],
        Range::YearByKind if candidate() => vec![(1, 0), (years, years + 1)],
        Range::YearByKind => vec![(2, 1), (years + 1, years + 2)],
        Range::ZeroWithinZone if is_within_zone(entry.axes, indices) => vec![(0, 1)],
        Range::ZeroWithinZone => vec![],
    }
}

/// VRE set of one battery or of all; the lowest is named.
fn set_vre_of_batteries(random: &mut Random, draft: &mut Draft) -> Option<Expected> {
    let plants = 0..draft.shape.plants;
    let mut batteries: Vec<usize> = plants.filter(|&g| draft.is_battery(g)).collect();
    if random.chance(1, 2) && !batteries.is_empty() {
        batteries = vec![*random.pick(&batteries)];
    }
    for &g in &batteries {
        draft.set_data(Table::Vre, &[g], 1);
    }
    let lowest = *batteries.first()?;
    Some(at_place(refusal::STORAGE, lowest))
}

fn damage_scale(random: &mut Random, draft: &mut Draft) -> Expected {
    draft.case.scale = *random.pick(&[0, 1001, 1002, 1_000_000, u32::MAX]);
    at_place(refusal::SCALE, 0)
}

fn change_plan_length(random: &mut Random, draft: &mut Draft) -> Expected {
    let length = draft.case.plan.len();
    let met = changed_length(random, length);
    draft.case.plan.resize(met, 0);
    at_place(refusal::PLAN_LENGTH, length)
}

fn change_multiplier_count(random: &mut Random, draft: &mut Draft) -> Expected {
    let length = draft.case.multipliers.len();
    let met = changed_length(random, length);
    draft.case.multipliers.resize(met, 0);
    at_place(refusal::MULTIPLIER_COUNT, length)
}

fn changed_length(random: &mut Random, length: usize) -> usize {
    match random.below(4) {
        0 => 0,
        1 => length - 1,
        2 => length + 1,
        _ => length + 1 + index(random, 50),
    }
}

/// Family 2, 3 or 18. Families 17 and 19 need plants of extreme size, which are among
/// the extremes.
fn row_off_scale(random: &mut Random, draft: &mut Draft) -> Option<Expected> {
    match random.below(3) {
        0 => capital_off_scale(random, draft),
        1 => lines_off_scale(random, draft, 2),
        _ => lines_off_scale(random, draft, 3),
    }
}

/// Lines whose MW pass 2^62 − 1 in a year, or stay below it and pass it by the 1000 of
/// family 3. The rows of the year's first slice come first.
fn lines_off_scale(random: &mut Random, draft: &mut Draft, family: usize) -> Option<Expected> {
    let y = index(random, draft.shape.years);
    let [z, z2] = linked_pair(random, draft)?;
    let half = 1 << 31;
    let (mw, total, row) = match family {
        2 => {
            let widest = i128::from(u32::MAX);
            (
                random.signed(half, widest),
                random.signed(half, widest),
                vec![y, z, z2, 0],
            )
        }
        _ => (half, random.signed(half / 64, half / 2), vec![y, z2, 0]),
    };
    draft.set_data(Table::LineMw, &[z, z2], mw);
    draft.set_entry(Column::Total, &[y, z, z2], total);
    let row = draft.rows.index(family, &row);
    Some(at_place(refusal::ROW_OFF_SCALE, row))
}

/// Two zones in any order; none where there is one zone alone.
fn linked_pair(random: &mut Random, draft: &Draft) -> Option<[usize; 2]> {
    let pairs = draft.pairs();
    if pairs.is_empty() {
        return None;
    }
    let [z, z2] = *random.pick(&pairs);
    Some(*random.pick(&[[z, z2], [z2, z]]))
}

/// Two zones, or one zone twice.
fn any_pair(random: &mut Random, draft: &Draft) -> [usize; 2] {
    let zones = draft.shape.zones;
    [index(random, zones), index(random, zones)]
}

/// Family 18: a budget of N·10^9·(2^32 − 1) with N above 1.
fn capital_off_scale(random: &mut Random, draft: &mut Draft) -> Option<Expected> {
    if draft.case.scale == 1 {
        return None;
    }
    let unit = 1_000_000_000 * draft.scale();
    let least = LIMIT as i128 / unit + 1;
    let budget = random.signed(least, i128::from(u32::MAX));
    draft.set_data(Table::MaxCapital, &[], budget);
    Some(at_place(refusal::ROW_OFF_SCALE, draft.rows.index(18, &[])))
}

/// A limit in the data: where it is, the last value that the plan meets and the
/// first that it does not.
#[derive(Clone, Debug)]
pub struct Limit {
    pub table: Table,
    pub indices: Vec<usize>,
    pub met: i128,
    pub broken: i128,
}

/// All limits of a family that the plan reaches, so that one step more breaks
/// the family. At `met` every row of this family still holds; for families 1,
/// 2, 12 and 21, `met` is the present value.
pub fn limits(draft: &Draft, family: usize) -> Vec<Limit> {
    let shape = draft.shape;
    let mut found = Vec::new();
    let mut least = |table: Table, indices: &[usize], met: i128| {
        if met > 0 {
            found.push(Limit {
                table,
                indices: indices.to_vec(),
                met,
                broken: met - 1,
            });
        }
    };
    match family {
        2 => {
            for place in 0..shape.size(TABLES[Table::Tl as usize].axes) {
                let i = shape.indices(TABLES[Table::Tl as usize].axes, place);
                let needed = needed::transfer_limit(draft, i[0], i[1], i[2], i[3]);
                least(Table::Tl, &i, needed);
            }
            for [z, z2] in draft.pairs() {
                least(Table::LineMw, &[z, z2], needed::line_mw(draft, z, z2));
                least(Table::LineMw, &[z2, z], needed::line_mw(draft, z2, z));
            }
            for limit in &mut found {
                limit.met = draft.data(limit.table, &limit.indices);
            }
        }
        5..=8 => {
            for g in 0..shape.plants {
                match family {
                    5 => least(Table::OverLoad, &[g], needed::over_load(draft, g)),
                    6 => least(Table::ResOffer, &[g], needed::reserve_offer(draft, g)),
                    7 if !charge_binds(draft, g, Table::RampDn) => {
                        least(Table::RampDn, &[g], needed::ramp_down(draft, g))
                    }
                    8 if !charge_binds(draft, g, Table::RampUp) => {
                        least(Table::RampUp, &[g], needed::ramp_up(draft, g))
                    }
                    _ => {}
                }
            }
        }
        22..=25 => {
            for g in (0..shape.plants).filter(|&g| draft.is_battery(g)) {
                match family {
                    // No battery may charge nothing.
                    22 if charges(draft, g) => least(Table::Battery, &[g], 1),
                    23 if charge_binds(draft, g, Table::RampDn) => {
                        least(Table::RampDn, &[g], needed::charge_rise(draft, g))
                    }
                    24 if charge_binds(draft, g, Table::RampUp) => {
                        least(Table::RampUp, &[g], needed::charge_fall(draft, g))
                    }
                    25 => {
                        let needed = needed::energy_capacity(draft, g);
                        least(Table::EnergyCapacity, &[g], needed);
                    }
                    _ => {}
                }
            }
        }
        10 => {
            for g in 0..shape.plants {
                for q in 0..shape.seasons {
                    let needed = needed::availability(draft, g, q);
                    least(Table::Availability, &[g, q], needed);
                }
            }
        }
        11 => {
            for g in (0..shape.plants).filter(|&g| draft.is_vre(g)) {
                for s in 0..shape.slices() {
                    least(Table::Profile, &[g, s], needed::profile(draft, g, s));
                }
            }
        }
        15 => {
            for g in (0..shape.plants).filter(|&g| draft.is_candidate(g)) {
                least(Table::MaxNewCap, &[g], needed::new_capacity(draft, g));
            }
        }
        16 => {
            for y in 0..shape.years {
                least(Table::BuildLimit, &[y], needed::yearly_build(draft, y));
            }
        }
        17 => {
            for y in 0..shape.years {
                for f in 0..shape.fuels {
                    least(Table::MaxFuel, &[y, f], needed::fuel(draft, y, f));
                }
            }
        }
        18 => least(Table::MaxCapital, &[], needed::capital(draft)),
        19 => {
            for y in 0..shape.years {
                for z in 0..shape.zones {
                    let needed = needed::zone_emissions(draft, y, z);
                    least(Table::ZoneCap, &[y, z], needed);
                }
            }
        }
        20 => {
            for y in 0..shape.years {
                let needed = needed::system_emissions(draft, y);
                least(Table::SystemCap, &[y], needed);
            }
        }
        27 => {
            for [z, z2] in draft.pairs() {
                least(Table::LineLimit, &[z, z2], needed::line_limit(draft, z, z2));
                least(Table::LineLimit, &[z2, z], needed::line_limit(draft, z2, z));
            }
        }
        _ => return rising_limits(draft, family),
    }
    found
}

/// Whether a battery's charge asks more of a ramp than its output does, so that one
/// step less breaks family 23 or 24 and not 7 or 8.
fn charge_binds(draft: &Draft, g: usize, ramp: Table) -> bool {
    match ramp {
        Table::RampDn => needed::charge_rise(draft, g) > needed::ramp_down(draft, g),
        _ => needed::charge_fall(draft, g) > needed::ramp_up(draft, g),
    }
}

/// Whether the plant charges in any slice.
fn charges(draft: &Draft, g: usize) -> bool {
    let charge = |y, s| draft.entry(Column::Charge, &[y, g, s]);
    (0..draft.shape.years).any(|y| (0..draft.shape.slices()).any(|s| charge(y, s) > 0))
}

/// Limits that break when raised, and the equalities.
fn rising_limits(draft: &Draft, family: usize) -> Vec<Limit> {
    let shape = draft.shape;
    let mut found = Vec::new();
    let mut most = |table: Table, indices: &[usize], met: i128, range: i128| {
        if met < range {
            found.push(Limit {
                table,
                indices: indices.to_vec(),
                met,
                broken: met + 1,
            });
        }
    };
    let widest = i128::from(u32::MAX);
    match family {
        1 => {
            for y in 0..shape.years {
                for z in (0..shape.zones).filter(|&z| draft.data(Table::Ee, &[y, z]) > 0) {
                    for s in 0..shape.slices() {
                        let demand = draft.data(Table::Demand, &[y, z, s]);
                        most(Table::Demand, &[y, z, s], demand, widest);
                    }
                }
            }
        }
        3 => {
            for y in 0..shape.years {
                for z in 0..shape.zones {
                    let needed = needed::spinning_reserve(draft, y, z);
                    most(Table::SRes, &[y, z], needed, widest);
                }
            }
        }
        4 => {
            for z in 0..shape.zones {
                if let Some(needed) = needed::margin(draft, z) {
                    most(Table::Prm, &[z], needed, 1000);
                }
            }
        }
        9 => {
            for g in 0..shape.plants {
                if let Some(needed) = needed::minimum_load(draft, g) {
                    most(Table::MinCapFac, &[g], needed, 1000);
                }
            }
        }
        12 => {
            for g in (0..shape.plants).filter(|&g| !draft.is_candidate(g)) {
                let capacity = draft.data(Table::GenCap, &[g]);
                most(Table::GenCap, &[g], capacity, widest);
            }
        }
        13 => return life_limits(draft),
        21 => {
            for g in (0..shape.plants).filter(|&g| draft.is_battery(g) && charges(draft, g)) {
                let efficiency = draft.data(Table::Efficiency, &[g]);
                most(Table::Efficiency, &[g], efficiency, 1000);
            }
        }
        _ => {}
    }
    found
}

/// Family 13: the earliest retirement and the latest commission year that the
/// plan's capacity allows, counted from 1.
fn life_limits(draft: &Draft) -> Vec<Limit> {
    let mut found = Vec::new();
    for g in 0..draft.shape.plants {
        let mut with_capacity = (0..draft.shape.years).filter(|&y| draft.cap(y, g) > 0);
        let (met, broken) = if draft.is_candidate(g) {
            match with_capacity.next() {
                Some(first) if first + 1 < draft.shape.years => (first + 1, first + 2),
                _ => continue,
            }
        } else {
            match with_capacity.next_back() {
                Some(last) if last > 0 => (last + 2, last + 1),
                _ => continue,
            }
        };
        found.push(Limit {
            table: Table::Year,
            indices: vec![g],
            met: met as i128,
            broken: broken as i128,
        });
    }
    found
}

fn pass_limit(random: &mut Random, draft: &mut Draft, family: usize) -> Option<Expected> {
    let limits = limits(draft, family);
    if limits.is_empty() {
        return None;
    }
    let limit = random.pick(&limits);
    draft.set_data(limit.table, &limit.indices, limit.broken);
    Some(broken_family(family))
}

fn break_by_entry(random: &mut Random, draft: &mut Draft, family: usize) -> Option<Expected> {
    let shape = draft.shape;
    let y = index(random, shape.years);
    let z = index(random, shape.zones);
    let g = index(random, shape.plants);
    let s = index(random, shape.slices());
    let unit = draft.scale();
    match family {
        1 => {
            let column = *random.pick(&[Column::Unmet, Column::Surplus]);
            draft.raise(column, &[y, z, s], 1)?;
            Some(broken_row(draft, 1, &[y, z, s]))
        }
        2 => {
            let flow = random.magnitude(1 << 31) + 1;
            draft.raise(Column::Trans, &[y, z, z, s], flow)?;
            Some(broken_row(draft, 2, &[y, z, z, s]))
        }
        3 => {
            let asked = 1000 * unit * draft.data(Table::SRes, &[y, z]);
            let over = needed::spinning_supply(draft, y, z, s) - asked;
            draft.raise(Column::SpinShort, &[y, z, s], -(over + 1))?;
            Some(broken_row(draft, 3, &[y, z, s]))
        }
        4 => {
            let margin = 1000 + draft.data(Table::Prm, &[z]);
            let asked = margin * unit * needed::peak(draft, y, z);
            let over = needed::firm_supply(draft, y, z) - asked;
            draft.raise(Column::FirmShort, &[y, z], -(over + 1))?;
            Some(broken_row(draft, 4, &[y, z]))
        }
        5 => {
            let limit = (1000 + draft.data(Table::OverLoad, &[g])) * draft.cap(y, g) / 1000;
            let reserve = limit - draft.gen(y, g, s) + 1;
            draft.set_entry(Column::Reserve, &[y, g, s], reserve);
            Some(broken_row(draft, 5, &[y, g, s]))
        }
        6 => {
            let offer = draft.data(Table::ResOffer, &[g]) * draft.cap(y, g) / 1000 + 1;
            let limit = (1000 + draft.data(Table::OverLoad, &[g])) * draft.cap(y, g) / 1000;
            if draft.gen(y, g, s) + offer > limit {
                return None;
            }
            draft.set_entry(Column::Reserve, &[y, g, s], offer);
            Some(broken_row(draft, 6, &[y, g, s]))
        }
        12 => {
            let column = match draft.is_candidate(g) {
                true => Column::Build,
                false if y > 0 => Column::Retire,
                false => return None,
            };
            draft.raise(column, &[y, g], 1)?;
            Some(broken_row(draft, 12, &[y, g]))
        }
        14 => {
            let column = match draft.is_candidate(g) {
                true => Column::Retire,
                false if y == 0 => *random.pick(&[Column::Build, Column::Retire]),
                false => Column::Build,
            };
            draft.raise(column, &[y, g], 1)?;
            Some(broken_row(draft, 14, &[y, g]))
        }
        21 | 25 => {
            let g = plant_that(random, draft, |g| draft.is_battery(g) == (family == 21))?;
            draft.raise(Column::Level, &[y, g, s], 1)?;
            Some(broken_row(draft, family, &[y, g, s]))
        }
        22 => {
            // One Nth above the capacity of a battery, above 0 where it is none.
            let limit = match draft.is_battery(g) {
                true => draft.cap(y, g),
                false => 0,
            };
            let change = limit + 1 - draft.entry(Column::Charge, &[y, g, s]);
            change_charge(draft, [y, g, s], change)?;
            Some(broken_row(draft, 22, &[y, g, s]))
        }
        26 => {
            let [z, z2] = any_pair(random, draft);
            let column = *random.pick(&[Column::Built, Column::Total]);
            draft.raise(column, &[y, z, z2], 1)?;
            Some(broken_row(draft, 26, &[y, z, z2]))
        }
        27 => {
            let [z, z2] = any_pair(random, draft);
            draft.build_lines([y, z, z2], lines_left(draft, [z, z2]) + 1)?;
            Some(broken_row(draft, 27, &[z, z2]))
        }
        28 => {
            // One Nth more in one direction, or as many as its limit allows.
            let [z, z2] = linked_pair(random, draft)?;
            let left = lines_left(draft, [z, z2]);
            if left == 0 {
                return None;
            }
            let more = *random.pick(&[1, left]);
            draft.build_lines([y, z, z2], more)?;
            Some(broken_row(draft, 28, &[y, z.min(z2), z.max(z2)]))
        }
        _ => None,
    }
}

/// More or less charge of a plant, with unmet or surplus of its zone, and with the
/// level of a battery up to the end of the day, so that families 1 and 21 still hold.
fn change_charge(draft: &mut Draft, [y, g, s]: [usize; 3], change: i128) -> Option<()> {
    let z = draft.zone_of(g);
    draft.raise(Column::Charge, &[y, g, s], change)?;
    match change > 0 {
        true => draft.raise(Column::Unmet, &[y, z, s], 1000 * change)?,
        false => draft.raise(Column::Surplus, &[y, z, s], -1000 * change)?,
    }
    if draft.is_battery(g) {
        let stored = change * draft.data(Table::Efficiency, &[g]);
        let day_end = s - draft.shape.hour_of(s) + draft.shape.hours;
        for later in s..day_end {
            draft.raise(Column::Level, &[y, g, later], stored)?;
        }
    }
    Some(())
}

/// What the limit of a pair leaves to be built, in Nths of a line.
fn lines_left(draft: &Draft, [z, z2]: [usize; 2]) -> i128 {
    let limit = draft.scale() * draft.data(Table::LineLimit, &[z, z2]);
    limit - needed::lines_built(draft, z, z2)
}

/// More or fewer lines in a year, in one direction or in both.
fn rebuild_lines(random: &mut Random, draft: &mut Draft) -> Option<()> {
    let y = index(random, draft.shape.years);
    let [z, z2] = linked_pair(random, draft)?;
    let change = match random.chance(1, 2) {
        true => 1 + random.magnitude(2 * draft.scale()),
        false => -random.signed(1, draft.entry(Column::Built, &[y, z, z2]).max(1)),
    };
    draft.build_lines([y, z, z2], change)?;
    match random.chance(2, 3) {
        true => draft.build_lines([y, z2, z], change),
        false => Some(()),
    }
}

/// A battery charges more, or less.
fn recharge(random: &mut Random, draft: &mut Draft) -> Option<()> {
    let y = index(random, draft.shape.years);
    let g = plant_that(random, draft, |g| draft.is_battery(g))?;
    let s = index(random, draft.shape.slices());
    let change = 1 + random.magnitude(draft.cap(y, g));
    let sign = *random.pick(&[-1, 1]);
    change_charge(draft, [y, g, s], sign * change)
}

fn redispatch(random: &mut Random, draft: &mut Draft) -> Option<()> {
    let y = index(random, draft.shape.years);
    let g = index(random, draft.shape.plants);
    let s = index(random, draft.shape.slices());
    let z = draft.zone_of(g);
    let change = random.magnitude(draft.cap(y, g) + 1);
    if random.chance(1, 2) {
        draft.raise(Column::Gen, &[y, g, s], change)?;
        draft.raise(Column::Surplus, &[y, z, s], 1000 * change)
    } else {
        draft.raise(Column::Gen, &[y, g, s], -change)?;
        draft.raise(Column::Unmet, &[y, z, s], 1000 * change)
    }
}

/// All prices at 32 bits; the annuity of plants stays, since it stands in family 18.
fn cost_off_scale(draft: &mut Draft) -> Option<Expected> {
    let widest = i128::from(u32::MAX);
    for table in [
        Table::Voll,
        Table::SurplusPenalty,
        Table::ResVoll,
        Table::SresVoll,
    ] {
        draft.set_data(table, &[], widest);
    }
    for y in 0..draft.shape.years {
        for g in 0..draft.shape.plants {
            draft.set_data(Table::GenCost, &[y, g], widest);
            draft.set_data(Table::FixedOm, &[y, g], widest);
        }
    }
    for [z, z2] in draft.pairs() {
        draft.set_data(Table::LineAnnuity, &[z, z2], widest);
    }
    let model = Model::read(&draft.case.data).expect("sound data");
    let cost = model.cost(&draft.case.plan);
    (cost > LIMIT).then_some(at_place(refusal::COST_OFF_SCALE, 0))
}

fn damage_multiplier(random: &mut Random, draft: &mut Draft) -> Expected {
    let family = 1 + index(random, FAMILY_COUNT);
    let axes = FAMILIES[family - 1].axes;
    let indices = draft
        .shape
        .indices(axes, index(random, draft.shape.size(axes)));
    let row = draft.rows.index(family, &indices);
    let least = match FAMILIES[family - 1].equality {
        true => -LARGEST_MULTIPLIER,
        false => 0,
    };
    let outside = [least - 1, LARGEST_MULTIPLIER + 1, i64::MIN, i64::MAX];
    draft.case.multipliers[row] = *random.pick(&outside);
    at_place(refusal::MULTIPLIER, row)
}

/// Multipliers of 2^40 where coefficients are large: family 18 and 10 in a cap
/// column, 17 in a gen column, 2 and 3 in a total.
fn column_off_scale(random: &mut Random, draft: &mut Draft) -> Option<Expected> {
    let largest = i128::from(LARGEST_MULTIPLIER);
    let limit = LIMIT as i128;
    let y = index(random, draft.shape.years);
    let g = index(random, draft.shape.plants);
    let weight = draft.data(Table::ReturnRate, &[y]) * draft.data(Table::Weight, &[y]);
    match random.below(5) {
        0 => {
            let annuity = weight * draft.data(Table::Annuity, &[y, g]);
            if !draft.is_candidate(g) || annuity * largest <= limit {
                return None;
            }
            draft.set_multiplier(18, &[], largest);
            Some(of_number(refusal::COLUMN_OFF_SCALE))
        }
        1 => {
            let q = index(random, draft.shape.seasons);
            let season = draft.shape.slices_of_season(q);
            let hours: i128 = season.map(|s| draft.data(Table::Duration, &[s])).sum();
            let share = draft.data(Table::Availability, &[g, q]) * hours;
            if share * largest <= limit {
                return None;
            }
            draft.set_multiplier(10, &[y, g, q], largest);
            let column = draft.columns.index(Column::Cap, &[y, g]);
            Some(at_place(refusal::COLUMN_OFF_SCALE, column))
        }
        2 => total_off_scale(random, draft),
        _ => {
            let s = index(random, draft.shape.slices());
            let rate = draft.data(Table::HeatRate, &[g]);
            if rate * draft.data(Table::Duration, &[s]) * largest <= limit {
                return None;
            }
            let fuel = draft.data(Table::Fuel, &[g]) as usize;
            draft.set_multiplier(17, &[y, draft.zone_of(g), fuel], largest);
            Some(of_number(refusal::COLUMN_OFF_SCALE))
        }
    }
}

/// A pair of which no line is built may have any MW per line. Its totals are underpriced
/// then at the latest, and the first year's comes first.
fn total_off_scale(random: &mut Random, draft: &mut Draft) -> Option<Expected> {
    let [z, z2] = linked_pair(random, draft)?;
    if needed::lines_built(draft, z, z2) > 0 {
        return None;
    }
    let s = index(random, draft.shape.slices());
    draft.set_data(Table::LineMw, &[z, z2], i128::from(u32::MAX));
    draft.set_multiplier(2, &[0, z, z2, s], i128::from(LARGEST_MULTIPLIER));
    let column = draft.columns.index(Column::Total, &[0, z, z2]);
    Some(at_place(refusal::COLUMN_OFF_SCALE, column))
}

/// Makes a column of the chosen table the first one underpriced.
fn underprice(random: &mut Random, draft: &mut Draft, column: Column) -> Option<Expected> {
    match column {
        Column::Cap => underprice_cap(random, draft),
        Column::Build => underprice_build(random, draft),
        Column::Retire => underprice_retire(random, draft),
        Column::Gen => underprice_output(random, draft, 1, Column::Gen),
        Column::Reserve => underprice_output(random, draft, 3, Column::Reserve),
        Column::Trans => underprice_trans(random, draft),
        Column::Unmet => lower_price(random, draft, Column::Unmet),
        Column::Surplus => lower_price(random, draft, Column::Surplus),
        Column::SpinShort => lower_price(random, draft, Column::SpinShort),
        Column::FirmShort => lower_price(random, draft, Column::FirmShort),
        Column::Charge => underprice_charge(random, draft),
        Column::Level => underprice_level(random, draft),
        Column::Built => underprice_built(random, draft),
        Column::Total => underprice_total(random, draft),
    }
}

/// Adds to a multiplier; none where it leaves its range.
fn raise_multiplier(
    draft: &mut Draft,
    family: usize,
    indices: &[usize],
    change: i128,
) -> Option<()> {
    let value = draft.multiplier(family, indices) + change;
    let largest = i128::from(LARGEST_MULTIPLIER);
    let least = if FAMILIES[family - 1].equality {
        -largest
    } else {
        0
    };
    if value < least || value > largest {
        return None;
    }
    draft.set_multiplier(family, indices, value);
    Some(())
}

fn slack(draft: &Draft, column: Column, indices: &[usize]) -> i128 {
    Ledger::new(&draft.case.data).slack(&draft.case.multipliers, column, indices)
}

/// Family 12 of a year prices that year's capacity; it lowers the year before.
fn underprice_cap(random: &mut Random, draft: &mut Draft) -> Option<Expected> {
    let place = [
        index(random, draft.shape.years),
        index(random, draft.shape.plants),
    ];
    let over = slack(draft, Column::Cap, &place) + 1;
    raise_multiplier(draft, 12, &place, over)?;
    Some(underpriced_column(draft, Column::Cap, &place))
}

/// Family 16 stands in builds alone. In the first year family 12 serves too: it
/// stands in that year's capacity and build only.
fn underprice_build(random: &mut Random, draft: &mut Draft) -> Option<Expected> {
    let y = index(random, draft.shape.years);
    let g = index(random, draft.shape.plants);
    if !draft.is_candidate(g) {
        return None;
    }
    let over = slack(draft, Column::Build, &[y, g]) + 1;
    let family = if y == 0 { 12 } else { 16 };
    raise_multiplier(draft, family, &[y, g], -over)?;
    Some(underpriced_column(draft, Column::Build, &[y, g]))
}

/// Family 12 above 0 in a later year of an existing plant; fixed O&M keeps that
/// year's capacity priced well.
fn underprice_retire(random: &mut Random, draft: &mut Draft) -> Option<Expected> {
    let y = index(random, draft.shape.years);
    let g = index(random, draft.shape.plants);
    let weight = draft.data(Table::ReturnRate, &[y]) * draft.data(Table::Weight, &[y]);
    if draft.is_candidate(g) || y == 0 || weight == 0 {
        return None;
    }
    let over = 1 + random.slack(1000) - draft.multiplier(12, &[y, g]);
    raise_multiplier(draft, 12, &[y, g], over)?;
    let short = (-slack(draft, Column::Cap, &[y, g])).max(0);
    let fixed = draft.data(Table::FixedOm, &[y, g]) + needed::quotient_up(short, weight);
    u32::try_from(fixed).ok()?;
    draft.set_data(Table::FixedOm, &[y, g], fixed);
    let model = Model::read(&draft.case.data).expect("sound data");
    if model.cost(&draft.case.plan) > LIMIT {
        return None;
    }
    Some(underpriced_column(draft, Column::Retire, &[y, g]))
}

/// Family 1 or 3 is raised until a gen or reserve column of the zone is
/// underpriced; the lowest such plant comes first.
fn underprice_output(
    random: &mut Random,
    draft: &mut Draft,
    family: usize,
    column: Column,
) -> Option<Expected> {
    let y = index(random, draft.shape.years);
    let z = index(random, draft.shape.zones);
    let s = index(random, draft.shape.slices());
    let plants = draft.plants_in(z);
    let least = plants
        .iter()
        .map(|&g| slack(draft, column, &[y, g, s]))
        .min()?;
    raise_multiplier(draft, family, &[y, z, s], least / 1000 + 1)?;
    let first = plants
        .into_iter()
        .find(|&g| slack(draft, column, &[y, g, s]) < 0)?;
    Some(underpriced_column(draft, column, &[y, first, s]))
}

/// Family 2 stands in its transfer and in its lines' total, which is priced the better
/// for less of it.
fn underprice_trans(random: &mut Random, draft: &mut Draft) -> Option<Expected> {
    lower_own_row(random, draft, 2, Column::Trans)
}

/// A battery's family 21 is lowered until a charge is worth more than it costs; its
/// output is priced the better for it. Of another plant family 22 is lowered, which
/// stands in its charge alone.
fn underprice_charge(random: &mut Random, draft: &mut Draft) -> Option<Expected> {
    let places = all_places(draft, Column::Charge);
    let ledger = Ledger::new(&draft.case.data);
    let slack = |place: &[usize]| ledger.slack(&draft.case.multipliers, Column::Charge, place);
    let efficiency = |g: usize| draft.data(Table::Efficiency, &[g]);
    let (storing, other): (Vec<_>, Vec<_>) = places
        .into_iter()
        .partition(|place| draft.is_battery(place[1]));
    let mut lowered: Vec<(usize, Vec<usize>, i128)> = vec![];
    for place in storing.into_iter().filter(|i| efficiency(i[1]) > 0) {
        let change = needed::quotient_up(slack(&place) + 1, efficiency(place[1]));
        lowered.push((21, place, change));
    }
    for place in other
        .into_iter()
        .filter(|i| draft.multiplier(22, i) > slack(i))
    {
        let change = slack(&place) + 1;
        lowered.push((22, place, change));
    }
    lower_one(random, draft, Column::Charge, &lowered)
}

/// Family 25 stands in its level alone.
fn underprice_level(random: &mut Random, draft: &mut Draft) -> Option<Expected> {
    lower_own_row(random, draft, 25, Column::Level)
}

/// Lowers a multiplier of a family that stands in the column of the same indices alone,
/// and there with −1.
fn lower_own_row(
    random: &mut Random,
    draft: &mut Draft,
    family: usize,
    column: Column,
) -> Option<Expected> {
    let ledger = Ledger::new(&draft.case.data);
    let slack = |place: &[usize]| ledger.slack(&draft.case.multipliers, column, place);
    let lowered: Vec<(usize, Vec<usize>, i128)> = all_places(draft, column)
        .into_iter()
        .filter(|place| draft.multiplier(family, place) > slack(place))
        .map(|place| (family, place.clone(), slack(&place) + 1))
        .collect();
    lower_one(random, draft, column, &lowered)
}

/// Family 27 of a pair, which stands in its builds alone, is lowered until the build
/// that has the least to spare is underpriced.
fn underprice_built(random: &mut Random, draft: &mut Draft) -> Option<Expected> {
    let [z, z2] = any_pair(random, draft);
    let years = 0..draft.shape.years;
    let spare = |y: usize| slack(draft, Column::Built, &[y, z, z2]);
    let (least, first) = years.map(|y| (spare(y), y)).min()?;
    raise_multiplier(draft, 27, &[z, z2], -(least + 1))?;
    Some(underpriced_column(draft, Column::Built, &[first, z, z2]))
}

/// Family 26 of a year prices that year's total; it lowers the year before and the build.
/// Family 28 lowers the total of the other direction. The annuity stands in the price of
/// the pair with the lower zone first, in every year.
fn underprice_total(random: &mut Random, draft: &mut Draft) -> Option<Expected> {
    let y = index(random, draft.shape.years);
    let [z, z2] = any_pair(random, draft);
    let over = slack(draft, Column::Total, &[y, z, z2]) + 1;
    let (low, high) = (z.min(z2), z.max(z2));
    match random.below(3) {
        1 if z < z2 => raise_multiplier(draft, 28, &[y, low, high], over)?,
        1 if z > z2 => raise_multiplier(draft, 28, &[y, low, high], -over)?,
        2 if z < z2 => return lower_annuity(draft, [y, z, z2]),
        _ => raise_multiplier(draft, 26, &[y, z, z2], over)?,
    }
    Some(underpriced_column(draft, Column::Total, &[y, z, z2]))
}

/// The annuity is put just below what a year's total asks.
fn lower_annuity(draft: &mut Draft, [y, z, z2]: [usize; 3]) -> Option<Expected> {
    let weight = draft.data(Table::ReturnRate, &[y]) * draft.data(Table::Weight, &[y]);
    let price = weight * draft.data(Table::LineAnnuity, &[z, z2]);
    let asked = price - slack(draft, Column::Total, &[y, z, z2]);
    if asked <= 0 || weight == 0 {
        return None;
    }
    draft.set_data(Table::LineAnnuity, &[z, z2], (asked - 1) / weight);
    Some(underpriced_table(Column::Total))
}

/// All indices of a table of columns.
fn all_places(draft: &Draft, column: Column) -> Vec<Vec<usize>> {
    let axes = COLUMNS[column as usize].axes;
    (0..draft.shape.size(axes))
        .map(|place| draft.shape.indices(axes, place))
        .collect()
}

/// Lowers one of these multipliers, each by family, indices and change, so that the
/// column of the same indices is underpriced.
fn lower_one(
    random: &mut Random,
    draft: &mut Draft,
    column: Column,
    lowered: &[(usize, Vec<usize>, i128)],
) -> Option<Expected> {
    if lowered.is_empty() {
        return None;
    }
    let (family, place, change) = random.pick(lowered);
    raise_multiplier(draft, *family, place, -change)?;
    Some(underpriced_column(draft, column, place))
}

/// The single price of unmet, surplus, spinshort or firmshort is put just below
/// what the multiplier of one row asks.
fn lower_price(random: &mut Random, draft: &mut Draft, column: Column) -> Option<Expected> {
    let y = index(random, draft.shape.years);
    let z = index(random, draft.shape.zones);
    let s = index(random, draft.shape.slices());
    let weight = draft.data(Table::ReturnRate, &[y]) * draft.data(Table::Weight, &[y]);
    let hours = weight * draft.data(Table::Duration, &[s]);
    let (table, asked, unit) = match column {
        Column::Unmet => (Table::Voll, draft.multiplier(1, &[y, z, s]), hours),
        Column::Surplus => (
            Table::SurplusPenalty,
            -draft.multiplier(1, &[y, z, s]),
            hours,
        ),
        Column::SpinShort => (Table::SresVoll, draft.multiplier(3, &[y, z, s]), hours),
        _ => (Table::ResVoll, draft.multiplier(4, &[y, z]), weight),
    };
    if asked <= 0 || unit == 0 {
        return None;
    }
    let price = u32::try_from((asked - 1) / unit).ok()?;
    draft.set_data(table, &[], i128::from(price));
    Some(underpriced_table(column))
}

/// N·m·k of family 17 or 27 past the limit: MaxFuel or a line limit of 32 bits and a
/// multiplier that lowers the Σ m·a of generation or of builds only.
fn gap_off_scale(random: &mut Random, draft: &mut Draft) -> Expected {
    let y = index(random, draft.shape.years);
    let z = index(random, draft.shape.zones);
    let f = index(random, draft.shape.fuels);
    match linked_pair(random, draft).filter(|_| random.chance(1, 2)) {
        Some(pair) => {
            draft.set_data(Table::LineLimit, &pair, i128::from(u32::MAX));
            raise_past_gap(draft, 27, &pair, 1);
        }
        None => {
            draft.set_data(Table::MaxFuel, &[y, f], i128::from(u32::MAX));
            raise_past_gap(draft, 17, &[y, z, f], 1000);
        }
    }
    at_place(refusal::GAP_OFF_SCALE, 0)
}

/// Raises a multiplier until N·m·k is past the limit, k being 2^32 − 1 times a unit.
fn raise_past_gap(draft: &mut Draft, family: usize, indices: &[usize], unit: i128) {
    let constant = draft.scale() * unit * i128::from(u32::MAX);
    let least = LIMIT as i128 / constant + 1;
    let value = draft.multiplier(family, indices).max(least);
    draft.set_multiplier(family, indices, value);
}

/// A year not below Y, or a board with too few places from the start place on.
fn damage_board(random: &mut Random, draft: &mut Draft) -> Expected {
    let part = draft.shape.plants * draft.shape.slices();
    let length = draft.case.board.len();
    match random.below(4) {
        0 => draft.case.year = *random.pick(&[draft.shape.years, usize::MAX]),
        1 => draft.case.start = length - part + 1,
        2 => draft.case.start = *random.pick(&[length, length + 1, usize::MAX, usize::MAX - part]),
        _ => draft.case.board.truncate(part - 1),
    }
    at_place(refusal::BOARD, 0)
}
