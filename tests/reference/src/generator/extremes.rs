//! Fixed cases whose sums are exactly 2^62 − 1 or just past it. Their answers
//! are worked out by hand:
//! (2^31 − 1)·(2^31 + 1) = 2^62 − 1 and 2^31·2^31 = 2^62.

use super::draft::{Case, Draft};
use crate::columns::Column;
use crate::data::Table;
use crate::refusal::Refusal;
use crate::shape::Shape;
use crate::sums::LIMIT;

const POWER: i128 = 1 << 31;
pub(super) const WIDEST: i128 = u32::MAX as i128;

/// A case and the answer of certify.
#[derive(Clone, Debug)]
pub struct Extreme {
    pub name: &'static str,
    pub case: Case,
    pub answer: Result<(u64, u64), Refusal>,
}

/// All extremes.
pub fn all() -> Vec<Extreme> {
    let limit = LIMIT as u64;
    vec![
        accepted(
            "cost at the limit",
            dear_plant(POWER - 1, POWER + 1, 0),
            limit,
            limit,
        ),
        refused("cost past the limit", dear_plant(POWER, POWER, 0), 8, 0),
        refused(
            "cost one past the limit",
            dear_plant(POWER - 1, POWER + 1, 1),
            8,
            0,
        ),
        capital_row("capital row at the limit", POWER - 1, POWER + 1, 7),
        capital_row("capital row past the limit", POWER, POWER, 6),
        capital_budget("largest budget at scale 1", 1),
        capital_budget("largest budget at scale 2", 2),
        fuel_row("fuel row on scale", 1, 7),
        fuel_row("fuel row off scale", 2, 6),
        emission_row("emission row on scale", 12, 7),
        emission_row("emission row off scale", 13, 6),
        transfer_row("transfer row at the limit", 0),
        transfer_row("transfer row one past the limit", 1),
        reserve_row("spinning reserve row at the limit", 0),
        reserve_row("spinning reserve row one past the limit", 1),
        accepted(
            "cost at the limit by lines",
            dear_lines(POWER - 1, POWER + 1),
            limit,
            limit,
        ),
        refused(
            "cost past the limit by lines",
            dear_lines(POWER, POWER),
            8,
            0,
        ),
        line_column("total at its limit", POWER - 1, POWER + 1, 12),
        line_column("total past its limit", POWER, POWER, 11),
        accepted("gap at the limit by a line limit", wide_lines(0), 0, limit),
        refused("gap past the limit by a line limit", wide_lines(1), 13, 0),
        accepted("column at both limits", steep_column(0), 0, 0),
        refused("column past its positive limit", steep_column(1), 11, 0),
        accepted("column at its negative limit", deep_column(0), 0, 0),
        refused("column past its negative limit", deep_column(1), 11, 0),
        accepted("gap at the limit", wide_gap(0), limit, 2 * limit),
        refused("gap past its positive limit", wide_gap(1), 13, 0),
        refused("gap past its negative limit", deep_gap(), 13, 0),
        accepted("gap at the limit by a level limit", wide_store(0), 0, limit),
        refused("gap past the limit by a level limit", wide_store(1), 13, 0),
        accepted("netted constant of (19)", netted_reserve(), 0, 1000 << 30),
        accepted("netted constant of (21)", netted_firm(), 0, 1000 << 30),
    ]
}

fn accepted(name: &'static str, draft: Draft, cost: u64, gap: u64) -> Extreme {
    Extreme {
        name,
        case: draft.case,
        answer: Ok((cost, gap)),
    }
}

fn refused(name: &'static str, draft: Draft, number: u32, place: usize) -> Extreme {
    Extreme {
        name,
        case: draft.case,
        answer: Err(Refusal::at(number, place)),
    }
}

/// One existing plant of no size and no demand; R and V are 1.
pub(super) fn idle_plant(zones: usize, hours: usize) -> Draft {
    let mut draft = Draft::empty(Shape::new([zones, 1, 1, 1, 1, hours, 1]), 1);
    draft.set_data(Table::ReturnRate, &[0], 1);
    draft.set_data(Table::Weight, &[0], 1);
    draft.set_data(Table::Year, &[0], 2);
    draft
}

/// One candidate that may be built to any size.
pub(super) fn idle_candidate() -> Draft {
    let mut draft = idle_plant(1, 1);
    draft.set_data(Table::Kind, &[0], 1);
    draft.set_data(Table::Year, &[0], 1);
    draft.set_data(Table::MaxNewCap, &[0], WIDEST);
    draft.set_data(Table::BuildLimit, &[0], WIDEST);
    draft
}

/// Cost GenCap·FixedOM + firmshort.
pub(super) fn dear_plant(capacity: i128, fixed: i128, firmshort: i128) -> Draft {
    let mut draft = idle_plant(1, 1);
    draft.set_data(Table::GenCap, &[0], capacity);
    draft.set_data(Table::FixedOm, &[0, 0], fixed);
    draft.set_data(Table::ResVoll, &[], 1);
    draft.set_entry(Column::Cap, &[0, 0], capacity);
    draft.set_entry(Column::FirmShort, &[0, 0], firmshort);
    draft
}

/// Family 18 with a sum of cap·Annuity and no budget.
fn capital_row(name: &'static str, cap: i128, annuity: i128, number: u32) -> Extreme {
    let mut draft = idle_candidate();
    draft.set_data(Table::Annuity, &[0, 0], annuity);
    draft.set_entry(Column::Cap, &[0, 0], cap);
    draft.set_entry(Column::Build, &[0, 0], cap);
    let row = draft.rows.index(18, &[]);
    refused(name, draft, number, row)
}

/// Family 18 with N·10^9·(2^32 − 1): below 2^62 at N = 1, past it at N = 2.
fn capital_budget(name: &'static str, scale: u32) -> Extreme {
    let mut draft = idle_plant(1, 1);
    draft.case.scale = scale;
    draft.set_data(Table::MaxCapital, &[], WIDEST);
    let row = draft.rows.index(18, &[]);
    match scale {
        1 => accepted(name, draft, 0, 0),
        _ => refused(name, draft, 6, row),
    }
}

/// A plant of 2^32 − 1 MW at full output in every hour of 8784 hours each.
fn giant_plant(hours: usize) -> Draft {
    let mut draft = idle_plant(1, hours);
    draft.set_data(Table::GenCap, &[0], WIDEST);
    draft.set_data(Table::CapCredit, &[0], 1000);
    draft.set_data(Table::Availability, &[0, 0], 1000);
    draft.set_data(Table::Ee, &[0, 0], 1000);
    draft.set_entry(Column::Cap, &[0, 0], WIDEST);
    for s in 0..hours {
        draft.set_data(Table::Duration, &[s], 8784);
        draft.set_data(Table::Demand, &[0, 0, s], WIDEST);
        draft.set_entry(Column::Gen, &[0, 0, s], WIDEST);
    }
    draft
}

/// Family 17: 3.77·10^18 an hour.
fn fuel_row(name: &'static str, hours: usize, number: u32) -> Extreme {
    let mut draft = giant_plant(hours);
    draft.set_data(Table::HeatRate, &[0], 100_000);
    let row = draft.rows.index(17, &[0, 0, 0]);
    refused(name, draft, number, row)
}

/// Family 19: 3.77·10^17 an hour, so 12 hours are on scale and 13 are not.
fn emission_row(name: &'static str, hours: usize, number: u32) -> Extreme {
    let mut draft = giant_plant(hours);
    draft.set_data(Table::Emission, &[0], 10_000);
    let row = draft.rows.index(19, &[0, 0]);
    refused(name, draft, number, row)
}

/// The cap column of a candidate: Annuity·m18 = 2^62 − 1 below 0, and `past`
/// more from family 12.
fn deep_column(past: i128) -> Draft {
    let mut draft = idle_candidate();
    draft.set_data(Table::Annuity, &[0, 0], POWER + 1);
    draft.set_multiplier(18, &[], POWER - 1);
    // Family 15 keeps build priced well; MaxNewCap is 0 so that the gap stays 0.
    draft.set_data(Table::MaxNewCap, &[0], 0);
    draft.set_multiplier(12, &[0, 0], -past);
    draft.set_multiplier(15, &[0], past);
    draft
}

/// The same column with 2^62 − 1 above 0 as well: Availability·Dur·m10 + m12.
fn steep_column(past: i128) -> Draft {
    let mut draft = deep_column(0);
    let hours_share = 1000 * 8000;
    let limit = LIMIT as i128;
    draft.set_data(Table::Availability, &[0, 0], 1000);
    draft.set_data(Table::Duration, &[0], 8000);
    draft.set_multiplier(10, &[0, 0, 0], limit / hours_share);
    draft.set_multiplier(12, &[0, 0], limit % hours_share + past);
    draft
}

/// Cost 2^62 − 1, and the same again from a link's limit and its multiplier.
fn wide_gap(past: i128) -> Draft {
    let mut draft = idle_plant(2, 1);
    draft.set_data(Table::GenCap, &[0], POWER - 1);
    draft.set_data(Table::FixedOm, &[0, 0], POWER + 1);
    draft.set_entry(Column::Cap, &[0, 0], POWER - 1);
    draft.set_data(Table::Tl, &[0, 0, 1, 0], POWER + 1);
    draft.set_multiplier(2, &[0, 0, 1, 0], POWER - 1);
    draft.set_data(Table::Tl, &[0, 1, 0, 0], past);
    draft.set_multiplier(2, &[0, 1, 0, 0], past);
    draft
}

/// A battery without capacity whose level limit is worth 2^62 − 1 in the first hour,
/// and `past` times its energy capacity in the second.
fn wide_store(past: i128) -> Draft {
    let mut draft = idle_plant(1, 2);
    draft.set_data(Table::Battery, &[0], 1);
    draft.set_data(Table::EnergyCapacity, &[0], POWER + 1);
    draft.set_multiplier(25, &[0, 0, 0], POWER - 1);
    draft.set_multiplier(25, &[0, 0, 1], past);
    draft
}

/// Two zones, and lines in both directions, all built in the first year.
pub(super) fn laid_lines(total: i128) -> Draft {
    let mut draft = idle_plant(2, 1);
    for link in [[0, 1], [1, 0]] {
        let [z, z2] = link;
        draft.set_data(Table::LineLimit, &link, total);
        draft.build_lines([0, z, z2], total).expect("32 bits");
    }
    draft
}

/// Family 2: MW·total is 2^62 − 1, and TL is `past`. At the limit the row holds, and the
/// flow of zone 1 to itself is the first that is broken: family 3, where 1000 times the
/// MW stand, comes after it.
fn transfer_row(name: &'static str, past: i128) -> Extreme {
    let mut draft = laid_lines(POWER - 1);
    draft.set_data(Table::LineMw, &[0, 1], POWER + 1);
    draft.set_data(Table::Tl, &[0, 0, 1, 0], past);
    draft.set_entry(Column::Trans, &[0, 1, 1, 0], 1);
    let (number, link) = match past {
        0 => (7, [0, 1, 1, 0]),
        _ => (6, [0, 0, 1, 0]),
    };
    let row = draft.rows.index(2, &link);
    refused(name, draft, number, row)
}

/// Family 3: 1000·2^21·2199023255 and a spinshort of the rest are 2^62 − 1, and `past`
/// more. At the limit all rows hold; nothing has a price.
fn reserve_row(name: &'static str, past: i128) -> Extreme {
    let (mw, total) = (1 << 21, 2_199_023_255);
    let mut draft = laid_lines(total);
    draft.set_data(Table::LineMw, &[0, 1], mw);
    let rest = LIMIT as i128 - 1000 * mw * total;
    draft.set_entry(Column::SpinShort, &[0, 1, 0], rest + past);
    let row = draft.rows.index(3, &[0, 1, 0]);
    match past {
        0 => accepted(name, draft, 0, 0),
        _ => refused(name, draft, 6, row),
    }
}

/// Cost total·annuity, once for both directions.
fn dear_lines(total: i128, annuity: i128) -> Draft {
    let mut draft = laid_lines(total);
    draft.set_data(Table::LineAnnuity, &[0, 1], annuity);
    draft.set_data(Table::LineAnnuity, &[1, 0], annuity);
    draft
}

/// The total of zone 0 to 1: MW per line·m2. On scale it is still underpriced.
fn line_column(name: &'static str, mw: i128, multiplier: i128, number: u32) -> Extreme {
    let mut draft = laid_lines(0);
    draft.set_data(Table::LineMw, &[0, 1], mw);
    draft.set_multiplier(2, &[0, 0, 1, 0], multiplier);
    let column = draft.columns.index(Column::Total, &[0, 0, 1]);
    refused(name, draft, number, column)
}

/// A line limit that is worth 2^62 − 1 in one direction, and `past` in the other.
fn wide_lines(past: i128) -> Draft {
    let mut draft = laid_lines(0);
    draft.set_data(Table::LineLimit, &[0, 1], POWER + 1);
    draft.set_data(Table::LineLimit, &[1, 0], 1);
    draft.set_multiplier(27, &[0, 1], POWER - 1);
    draft.set_multiplier(27, &[1, 0], past);
    draft
}

/// Only the negative sum is past the limit. Capacity of 3145728 MW at credit 1 ‰
/// and firmshort of 3145272 kW meet a peak of 6291 MW exactly; the multipliers
/// of families 4 and 12 are 2^40 and −2^40. EE is 0, so nothing is generated.
/// Cost and positive sum are about 0.75·2^62, the negative one is 1.5·2^62.
fn deep_gap() -> Draft {
    let largest = 1 << 40;
    let mut draft = idle_plant(1, 1);
    draft.set_data(Table::ReturnRate, &[0], 512);
    draft.set_data(Table::Weight, &[0], 2);
    draft.set_data(Table::ResVoll, &[], 1 << 30);
    draft.set_data(Table::CapCredit, &[0], 1);
    draft.set_data(Table::GenCap, &[0], 3_145_728);
    draft.set_data(Table::Demand, &[0, 0, 0], 6291);
    draft.set_entry(Column::Cap, &[0, 0], 3_145_728);
    draft.set_entry(Column::FirmShort, &[0, 0], 3_145_272);
    draft.set_multiplier(4, &[0, 0], largest);
    draft.set_multiplier(12, &[0, 0], -largest);
    draft
}

/// A link of 2^31 MW into zone 0, whose plants all stand in zone 1, and prices of
/// 2^30 for what is short there.
fn linked_zone() -> Draft {
    let mut draft = idle_plant(2, 1);
    draft.set_data(Table::Duration, &[0], 1);
    draft.set_data(Table::Zone, &[0], 1);
    draft.set_data(Table::Tl, &[0, 1, 0, 0], POWER);
    draft.set_data(Table::SresVoll, &[], 1 << 30);
    draft.set_data(Table::ResVoll, &[], 1 << 30);
    draft
}

/// 1000·(TL − SRes) is 1000, and at 2^30 times that the gap is on scale; either
/// part alone would not be.
fn netted_reserve() -> Draft {
    let mut draft = linked_zone();
    draft.set_data(Table::SRes, &[0, 0], POWER - 1);
    draft.set_multiplier(3, &[0, 0, 0], 1 << 30);
    draft
}

/// The same of 1000·TL − 1000·peak; EE is 0, so nothing has to be generated.
fn netted_firm() -> Draft {
    let mut draft = linked_zone();
    draft.set_data(Table::Demand, &[0, 0, 0], POWER - 1);
    draft.set_multiplier(4, &[0, 0], 1 << 30);
    draft
}
