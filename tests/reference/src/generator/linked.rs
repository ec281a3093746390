//! Small cases of two isles between which lines may be built, of least cost: plan and
//! multipliers are the simplex's (`solved`), and the gap is 0.
//!
//! One isle has cheap power. The other has a dear engine, and often a candidate that the
//! lines are weighed against. Whether lines are worth building follows from the prices.

use super::draft::Draft;
use super::random::Random;
use super::solved::solve;
use crate::columns::Column;
use crate::data::Table;
use crate::shape::Shape;

/// How many isles there are. Either may have the cheap power, since the annuity is that
/// of the pair with the lower zone first.
const ISLES: usize = 2;

/// The plants: cheap power on one isle, a dear engine and a candidate on the other.
const CHEAP: usize = 0;
const DEAR: usize = 1;
const CANDIDATE: usize = 2;

/// A case of least cost in which lines are built, or, one time in four, in which they could
/// be built and are not worth it.
pub fn draft(random: &mut Random) -> Draft {
    let worth = random.chance(3, 4);
    loop {
        if let Some(draft) = attempt(random) {
            if has_lines(&draft) == worth {
                return draft;
            }
        }
    }
}

/// Whether any line is built.
fn has_lines(draft: &Draft) -> bool {
    let mut built = draft.columns.of_table(Column::Built);
    built.any(|column| draft.case.plan[column] > 0)
}

fn attempt(random: &mut Random) -> Option<Draft> {
    let hours = random.between(1, 2) as usize;
    let years = random.between(1, 2) as usize;
    let mut draft = Draft::empty(Shape::new([ISLES, 3, 1, 1, 1, hours, years]), 1);
    let cheap_isle = random.below(ISLES as u64) as usize;
    draw_system(random, &mut draft);
    draw_plants(random, &mut draft, cheap_isle);
    draw_demand(random, &mut draft, cheap_isle);
    draw_links(random, &mut draft);
    solve(&mut draft)?;
    draft.draw_board(random);
    Some(draft)
}

/// The calendar, the limits that do not bind and the single prices. R is 1000 ‰, so that
/// the price of a MW is a whole number of kW's.
fn draw_system(random: &mut Random, draft: &mut Draft) {
    let wide = 1_000_000;
    for s in 0..draft.shape.slices() {
        draft.set_data(Table::Duration, &[s], random.signed(1, 4));
    }
    for y in 0..draft.shape.years {
        draft.set_data(Table::ReturnRate, &[y], 1000);
        draft.set_data(Table::Weight, &[y], random.signed(1, 2));
        draft.set_data(Table::MaxFuel, &[y, 0], wide);
        draft.set_data(Table::SystemCap, &[y], wide);
        draft.set_data(Table::BuildLimit, &[y], 100);
        for z in 0..ISLES {
            draft.set_data(Table::ZoneCap, &[y, z], wide);
        }
    }
    draft.set_data(Table::MaxCapital, &[], wide);
    draft.set_data(Table::Voll, &[], random.signed(200, 500));
    draft.set_data(Table::SurplusPenalty, &[], random.signed(0, 2));
    draft.set_data(Table::ResVoll, &[], random.signed(0, 50));
    draft.set_data(Table::SresVoll, &[], random.signed(0, 50));
}

fn draw_plants(random: &mut Random, draft: &mut Draft, cheap_isle: usize) {
    let years = draft.shape.years;
    for (g, zone) in [
        (CHEAP, cheap_isle),
        (DEAR, 1 - cheap_isle),
        (CANDIDATE, 1 - cheap_isle),
    ] {
        draft.set_data(Table::Zone, &[g], zone as i128);
        draft.set_data(Table::RampDn, &[g], 1000);
        draft.set_data(Table::RampUp, &[g], 1000);
        draft.set_data(Table::CapCredit, &[g], 500);
        draft.set_data(Table::Availability, &[g, 0], 1000);
        draft.set_data(Table::ResOffer, &[g], *random.pick(&[0, 250, 1000]));
    }
    for (g, capacity) in [(CHEAP, random.signed(10, 30)), (DEAR, random.signed(2, 10))] {
        draft.set_data(Table::Year, &[g], years as i128 + 1);
        draft.set_data(Table::GenCap, &[g], capacity);
    }
    draft.set_data(Table::Kind, &[CANDIDATE], 1);
    draft.set_data(Table::Year, &[CANDIDATE], 1);
    draft.set_data(Table::MaxNewCap, &[CANDIDATE], random.signed(0, 6));
    for y in 0..years {
        draft.set_data(Table::GenCost, &[y, CHEAP], random.signed(5, 20));
        draft.set_data(Table::GenCost, &[y, DEAR], random.signed(80, 190));
        draft.set_data(Table::GenCost, &[y, CANDIDATE], random.signed(30, 100));
        draft.set_data(Table::Annuity, &[y, CANDIDATE], random.signed(20, 200));
    }
}

/// The demand grows from year to year, so that lines are built in a later year too.
fn draw_demand(random: &mut Random, draft: &mut Draft, cheap_isle: usize) {
    for z in 0..ISLES {
        let mut demand = random.signed(2, if z == cheap_isle { 6 } else { 12 });
        draft.set_data(Table::Prm, &[z], random.signed(0, 300));
        for y in 0..draft.shape.years {
            draft.set_data(Table::Ee, &[y, z], 1000);
            draft.set_data(Table::SRes, &[y, z], random.signed(0, 6));
            for s in 0..draft.shape.slices() {
                draft.set_data(Table::Demand, &[y, z, s], demand + random.signed(0, 3));
            }
            demand += random.signed(0, 6);
        }
    }
}

/// The link that is there, and the lines that may be added. The two directions differ in
/// all but the number of lines.
fn draw_links(random: &mut Random, draft: &mut Draft) {
    for [z, z2] in [[0, 1], [1, 0]] {
        for y in 0..draft.shape.years {
            draft.set_data(Table::Tl, &[y, z, z2, 0], random.signed(0, 3));
            draft.set_data(Table::Loss, &[y, z, z2], *random.pick(&[0, 0, 200, 500]));
        }
        draft.set_data(Table::LineMw, &[z, z2], random.signed(1, 6));
        draft.set_data(Table::LineLimit, &[z, z2], random.signed(1, 4));
        draft.set_data(Table::LineAnnuity, &[z, z2], random.signed(1, 1500));
    }
}
