//! Lists of any length and content, and data in range with any content.

use super::draft::{Case, Draft};
use super::random::Random;
use super::shape;
use crate::calls::LARGEST_MULTIPLIER;
use crate::data::{Range, Table, TableEntry, TABLES};
use crate::shape::is_within_zone;

fn any_number(random: &mut Random) -> u32 {
    match random.below(4) {
        0 => 0,
        1 => random.below(12) as u32,
        2 => u32::MAX - random.below(3) as u32,
        _ => random.bits() as u32,
    }
}

fn any_list(random: &mut Random, length: usize) -> Vec<u32> {
    (0..length).map(|_| any_number(random)).collect()
}

fn any_multiplier(random: &mut Random) -> i64 {
    match random.below(6) {
        0 => 0,
        1 => LARGEST_MULTIPLIER - random.below(2) as i64,
        2 => random.below(1000) as i64,
        3 => random.bits() as i64,
        _ => random.below(1 << 40) as i64,
    }
}

fn any_multipliers(random: &mut Random, length: usize) -> Vec<i64> {
    (0..length).map(|_| any_multiplier(random)).collect()
}

/// Lists of any content; two in three have counts in range.
pub fn any_lists(random: &mut Random, data_length: usize) -> Case {
    let mut data = any_list(random, data_length);
    if random.chance(2, 3) {
        for count in data.iter_mut().take(7) {
            *count = random.between(1, 3) as u32;
        }
    }
    let plan_length = random.below(60) as usize;
    let rows = random.below(60) as usize;
    let mut case = Case {
        data,
        scale: any_number(random),
        plan: any_list(random, plan_length),
        multipliers: any_multipliers(random, rows),
        ..Case::default()
    };
    any_board(random, &mut case);
    case
}

fn any_board(random: &mut Random, case: &mut Case) {
    case.board = any_list(random, 9);
    case.start = *random.pick(&[0, 1, 8, 9, usize::MAX]);
    case.year = *random.pick(&[0, 1, 10, usize::MAX]);
}

/// Data in range with any contents, lists of the right length: rows, cost and
/// columns are reached with entries of all 32 bits.
pub fn any_contents(random: &mut Random) -> Case {
    let mut draft = Draft::empty(shape(random), 1);
    for entry in &TABLES {
        for place in 0..draft.shape.size(entry.axes) {
            let indices = draft.shape.indices(entry.axes, place);
            let value = any_within(random, &draft, entry, &indices);
            draft.set_data(entry.table, &indices, i128::from(value));
        }
    }
    // Refusal 16 would come before all that these contents are for.
    for g in 0..draft.shape.plants {
        if draft.is_vre(g) {
            draft.set_data(Table::Battery, &[g], 0);
        }
    }
    draft.case.scale = *random.pick(&[1, 2, 999, 1000]);
    if random.chance(2, 3) {
        draft.case.plan = any_list(random, draft.columns.count());
    }
    draft.case.multipliers = any_multipliers(random, draft.rows.count());
    any_board(random, &mut draft.case);
    draft.case
}

/// An entry in range; the kinds of the plants are there already where the range
/// depends on them.
fn any_within(random: &mut Random, draft: &Draft, entry: &TableEntry, indices: &[usize]) -> u64 {
    let years = draft.shape.years as u64;
    let any = u64::from(any_number(random));
    match entry.range {
        Range::Any => any,
        Range::Within(least, most) => match random.below(3) {
            0 => u64::from(least),
            1 => u64::from(most),
            _ => random.between(u64::from(least), u64::from(most)),
        },
        Range::BelowZones => random.below(draft.shape.zones as u64),
        Range::BelowFuels => random.below(draft.shape.fuels as u64),
        Range::ZeroForCandidate if draft.is_candidate(indices[0]) => 0,
        Range::ZeroForExisting if !draft.is_candidate(indices[0]) => 0,
        Range::YearByKind if draft.is_candidate(indices[0]) => random.between(1, years),
        Range::YearByKind => random.between(2, years + 1),
        Range::ZeroWithinZone if is_within_zone(entry.axes, indices) => 0,
        _ => any,
    }
}

/// The plan of zeros over data without demand, reserve or capacity and otherwise
/// the largest entries: check accepts it at cost 0, so any multipliers reach the
/// columns. All plants are candidates of zone 0 and fuel 0; every other one is VRE,
/// the rest are batteries. In half of the cases lines carry nothing and family 26 is 0, so
/// that totals, which have no price within a zone, leave the gap to be reached.
pub fn steep(random: &mut Random) -> Case {
    let mut draft = Draft::empty(shape(random), 1);
    let lines = random.chance(1, 2);
    for entry in &TABLES {
        for place in 0..draft.shape.size(entry.axes) {
            let indices = draft.shape.indices(entry.axes, place);
            let value = match (entry.table, entry.range) {
                (Table::Demand | Table::SRes | Table::GenCap, _) => 0,
                (Table::Zone | Table::Fuel, _) => 0,
                (Table::LineMw, _) if !lines => 0,
                (Table::Kind | Table::Year, _) => 1,
                (Table::Vre, _) => (indices[0] % 2) as u32,
                (Table::Battery, _) => (1 - indices[0] % 2) as u32,
                (_, Range::ZeroWithinZone) if is_within_zone(entry.axes, &indices) => 0,
                (_, Range::Within(_, most)) => most,
                _ => u32::MAX,
            };
            draft.set_data(entry.table, &indices, i128::from(value));
        }
    }
    let level = random.below(41);
    for multiplier in &mut draft.case.multipliers {
        *multiplier = random.below(1 + (1 << level)) as i64;
    }
    if !lines {
        let balance = draft.rows.of_family(26);
        draft.case.multipliers[balance].fill(0);
    }
    draft.case
}
