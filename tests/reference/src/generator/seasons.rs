//! Request (iv), the lowest season limit in (21): small cases with their answers, worked out
//! by hand. Each is answered otherwise by another reading of the request.
//!
//! An isle has engines of 10 MW, all of it firm. A kW of firm capacity that is missing costs
//! 5, so that a MW that a link counts is worth 5000, and one that the engines have as well.
//! EE is 0: nothing has to be generated, and the peak, which EE does not scale, asks for firm
//! capacity alone.

use super::draft::{Case, Draft};
use crate::columns::Column;
use crate::data::Table;
use crate::refusal::{Refusal, BROKEN};
use crate::shape::Shape;

/// The isle's zone. The others are 0 and, with two links, 2.
const ISLE: usize = 1;
const ENGINES: usize = 0;
const ENGINES_MW: i128 = 10;

/// What a missing kW costs in millionths: the price of firmshort.
const PRICE: i128 = 5;

/// A case and the answer of certify.
#[derive(Clone, Debug)]
pub struct Worked {
    pub name: String,
    pub case: Case,
    pub answer: Result<(u64, u64), Refusal>,
}

/// The isle with a peak in its last slice, and a link into it for each list of season limits.
/// The multipliers are the prices named above: family 12 takes what the engines earn in
/// family 4.
fn isle(links: &[&[i128]], peak: i128, scale: u32) -> Draft {
    let (zones, seasons) = (links.len() + 1, links[0].len());
    let mut draft = Draft::empty(Shape::new([zones, 1, 1, seasons, 1, 1, 1]), scale);
    draft.set_data(Table::ReturnRate, &[0], 1);
    draft.set_data(Table::Weight, &[0], 1);
    draft.set_data(Table::Zone, &[ENGINES], ISLE as i128);
    draft.set_data(Table::Year, &[ENGINES], 2);
    draft.set_data(Table::GenCap, &[ENGINES], ENGINES_MW);
    draft.set_data(Table::CapCredit, &[ENGINES], 1000);
    draft.set_data(Table::Demand, &[0, ISLE, seasons - 1], peak);
    draft.set_data(Table::ResVoll, &[], PRICE);
    for (z2, limits) in draft.zones_beside(ISLE).into_iter().zip(links) {
        set_limits(&mut draft, [z2, ISLE], limits);
    }
    let cap = ENGINES_MW * draft.scale();
    draft.set_entry(Column::Cap, &[0, ENGINES], cap);
    draft.set_multiplier(4, &[0, ISLE], PRICE);
    draft.set_multiplier(12, &[0, ENGINES], -1000 * PRICE);
    draft
}

fn set_limits(draft: &mut Draft, [z, z2]: [usize; 2], limits: &[i128]) {
    for (q, &limit) in limits.iter().enumerate() {
        draft.set_data(Table::Tl, &[0, z, z2, q], limit);
    }
}

/// Links that count so many MW together, at scale N: with the engines they meet a peak as
/// large, of least cost; one MW more takes 1000 kW of firmshort, to the last Nth. Where
/// another number is counted, the gap is not 0, or a row that has to hold breaks, or one that
/// has to break holds.
fn counted(links: &[&[i128]], counted: i128, scale: u32) -> Vec<Worked> {
    counted_of(links, counted, |peak| isle(links, peak, scale))
}

fn counted_of(links: &[&[i128]], counted: i128, isle: impl Fn(i128) -> Draft) -> Vec<Worked> {
    let met = isle(ENGINES_MW + counted);
    let mut mended = isle(ENGINES_MW + counted + 1);
    let missing = 1000 * mended.scale();
    mended.set_entry(Column::FirmShort, &[0, ISLE], missing);
    let mut short = mended.clone();
    short.set_entry(Column::FirmShort, &[0, ISLE], missing - 1);
    let row = short.rows.index(4, &[0, ISLE]);
    let cost = (PRICE * missing) as u64;
    let worked = |words: &str, draft: Draft, answer| Worked {
        name: format!("{links:?} count {counted}, {words}"),
        case: draft.case,
        answer,
    };
    vec![
        worked("exactly met", met, Ok((0, 0))),
        worked("1000 kW missing", mended, Ok((cost, 0))),
        worked("one Nth less", short, Err(Refusal::at(BROKEN, row))),
    ]
}

/// The lowest stands in the first season, in the last and between them. The largest would
/// count 9, all added up 15 and more, and a season chosen by its place more than 6.
pub fn lowest_in_any_season() -> Vec<Worked> {
    let links: [&[i128]; 9] = [
        &[6, 9],
        &[9, 6],
        &[6, 9, 8],
        &[9, 6, 8],
        &[9, 8, 6],
        &[6, 9, 8, 7],
        &[9, 6, 8, 7],
        &[9, 8, 6, 7],
        &[9, 8, 7, 6],
    ];
    let each = links.iter().flat_map(|&limits| counted(&[limits], 6, 1));
    each.collect()
}

/// The same in thousandths and at another scale.
pub fn lowest_at_a_scale() -> Vec<Worked> {
    let each = [7, 1000].into_iter();
    each.flat_map(|scale| counted(&[&[9, 6, 8]], 6, scale))
        .collect()
}

/// The first link is lowest in season 0, with 4, the second in season 1, with 8: together 12.
/// Both seasons carry 13. The least over the links is 4 and 5, together 9, and 4 in all.
pub fn each_link_in_its_own_season() -> Vec<Worked> {
    let first: &[i128] = &[4, 5];
    let second: &[i128] = &[9, 8];
    let both = [[first, second], [second, first]];
    both.iter()
        .flat_map(|links| counted(links, 12, 1))
        .collect()
}

/// Links of 2 and of 10 MW: together 12. The least over the links is 2 and 3, together 5.
pub fn links_of_different_sizes() -> Vec<Worked> {
    counted(&[&[2, 3], &[11, 10]], 12, 1)
}

/// A cable that carries nothing in one season counts for nothing, and another beside it with
/// its own lowest limit.
pub fn a_season_without_the_cable() -> Vec<Worked> {
    let mut worked = counted(&[&[0, 9, 9]], 0, 1);
    worked.extend(counted(&[&[9, 9, 0]], 0, 1));
    worked.extend(counted(&[&[9, 0], &[5, 6]], 5, 1));
    worked
}

/// The limits out of the isle are lower in every season, and then higher; they count in
/// the other zone, which asks for nothing.
pub fn the_direction_into_the_zone() -> Vec<Worked> {
    let into: &[i128] = &[9, 6];
    let out_of_it: [&[i128]; 2] = [&[2, 3], &[12, 20]];
    let worked = out_of_it.iter().flat_map(|limits| {
        counted_of(&[into], 6, |peak| {
            let mut draft = isle(&[into], peak, 1);
            set_limits(&mut draft, [ISLE, 0], limits);
            draft
        })
    });
    worked.collect()
}

/// One season: a link counts with its one limit, as before the request.
pub fn one_season() -> Vec<Worked> {
    let mut worked = counted(&[&[7]], 7, 1);
    worked.extend(counted(&[&[7], &[3]], 10, 1));
    worked
}

/// The gap has the constant of the row that was tested. A peak of 12 MW leaves 4 of 16, worth
/// 20000; with all seasons added up in the gap alone it would be 105000, with the largest 35000.
pub fn the_constant_of_the_gap() -> Vec<Worked> {
    let scales = [(1, 20_000), (3, 60_000)].into_iter();
    let worked = scales.map(|(scale, gap)| Worked {
        name: format!("4 MW to spare at scale {scale}"),
        case: isle(&[&[9, 6, 8]], 12, scale).case,
        answer: Ok((0, gap)),
    });
    worked.collect()
}

pub fn all() -> Vec<Worked> {
    [
        lowest_in_any_season(),
        lowest_at_a_scale(),
        each_link_in_its_own_season(),
        links_of_different_sizes(),
        a_season_without_the_cable(),
        the_direction_into_the_zone(),
        one_season(),
        the_constant_of_the_gap(),
    ]
    .concat()
}
