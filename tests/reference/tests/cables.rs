//! Request (ii), cable building: small cases worked out by hand, each of which another
//! reading of the request would answer otherwise.

use epm_reference::columns::Column;
use epm_reference::data::Table;
use epm_reference::generator::draft::Draft;
use epm_reference::model::Model;
use epm_reference::optimum::optimum;
use epm_reference::refusal::{BROKEN, ENTRY, MULTIPLIER, STORAGE, UNDERPRICED};
use epm_reference::shape::Shape;
use epm_reference::{certify, check, Refusal};

/// The isles, and the plant of each: a dam of 20 MW and an engine of 10 MW.
const WEST: usize = 0;
const EAST: usize = 1;
const DAM: usize = 0;
const ENGINE: usize = 1;

/// A line from west to east carries 3 MW, from east to west 2.
const EASTWARD: [usize; 2] = [WEST, EAST];
const WESTWARD: [usize; 2] = [EAST, WEST];
const EASTWARD_MW: i128 = 3;
const WESTWARD_MW: i128 = 2;

/// The annuities by direction, in mills; that of the lower zone first is paid.
const EASTWARD_ANNUITY: i128 = 7;
const WESTWARD_ANNUITY: i128 = 11;

/// Both isles ask for 5 MW through the one hour of each year, and each makes them. There is
/// no cable, and up to 4 lines may be built. Nothing but lines has a price.
fn isles(years: usize) -> Draft {
    let mut draft = Draft::empty(Shape::new([2, 2, 1, 1, 1, 1, years]), 1);
    draft.set_data(Table::Duration, &[0], 1);
    for (plant, zone, capacity) in [(DAM, WEST, 20), (ENGINE, EAST, 10)] {
        draft.set_data(Table::Zone, &[plant], zone as i128);
        draft.set_data(Table::Year, &[plant], years as i128 + 1);
        draft.set_data(Table::GenCap, &[plant], capacity);
        draft.set_data(Table::CapCredit, &[plant], 1000);
        draft.set_data(Table::Availability, &[plant, 0], 1000);
        for y in 0..years {
            draft.set_data(Table::ReturnRate, &[y], 1000);
            draft.set_data(Table::Weight, &[y], 1);
            draft.set_data(Table::Ee, &[y, zone], 1000);
            draft.set_data(Table::Demand, &[y, zone, 0], 5);
            draft.set_entry(Column::Cap, &[y, plant], capacity);
            draft.set_entry(Column::Gen, &[y, plant, 0], 5);
        }
    }
    for (link, mw, annuity) in [
        (EASTWARD, EASTWARD_MW, EASTWARD_ANNUITY),
        (WESTWARD, WESTWARD_MW, WESTWARD_ANNUITY),
    ] {
        draft.set_data(Table::LineLimit, &link, 4);
        draft.set_data(Table::LineMw, &link, mw);
        draft.set_data(Table::LineAnnuity, &link, annuity);
    }
    draft
}

/// The isles with lines built in both directions, year by year.
fn with_lines(built: &[i128]) -> Draft {
    let mut draft = isles(built.len());
    for (y, &lines) in built.iter().enumerate() {
        for [z, z2] in [EASTWARD, WESTWARD] {
            draft.build_lines([y, z, z2], lines).expect("32 bits");
        }
    }
    draft
}

/// A flow in the first year, in Nths of a MW, which the sender makes beside its own demand.
fn send(draft: &mut Draft, [z, z2]: [usize; 2], flow: i128) {
    let plants = [DAM, ENGINE];
    draft
        .raise(Column::Trans, &[0, z, z2, 0], flow)
        .expect("32 bits");
    draft
        .raise(Column::Gen, &[0, plants[z], 0], flow)
        .expect("32 bits");
    draft
        .raise(Column::Gen, &[0, plants[z2], 0], -flow)
        .expect("no more than its demand");
}

/// Scale N with the same plan.
fn scaled(mut draft: Draft, scale: u32) -> Draft {
    draft.case.scale = scale;
    draft.case.plan.iter_mut().for_each(|entry| *entry *= scale);
    draft
}

fn answer(draft: &Draft) -> Result<u64, Refusal> {
    check(&draft.case.data, draft.case.scale, &draft.case.plan)
}

fn certified(draft: &Draft) -> Result<(u64, u64), Refusal> {
    let case = &draft.case;
    certify(&case.data, case.scale, &case.plan, &case.multipliers)
}

fn accepted(draft: &Draft) {
    if let Err(refusal) = answer(draft) {
        panic!("{refusal}: {}", draft.rows.name(refusal.place as usize));
    }
}

/// This row is the first that does not hold.
fn broken(draft: &Draft, family: usize, indices: &[usize]) {
    let row = draft.rows.index(family, indices);
    assert_eq!(answer(draft), Err(Refusal::at(BROKEN, row)));
}

/// This column is the first that is underpriced.
fn underpriced(draft: &Draft, column: Column, indices: &[usize]) {
    let column = draft.columns.index(column, indices);
    assert_eq!(certified(draft), Err(Refusal::at(UNDERPRICED, column)));
}

// What is paid

/// 2 lines in the first year and 3 in the second, each at 7 mills and W 1000. Paid in both
/// directions they would cost 90000 or 70000, at the annuity of the higher zone 55000, on
/// what is built 21000, on what stands at the end 21000.
#[test]
fn the_annuity_is_paid_once_each_year_on_the_total() {
    let draft = with_lines(&[2, 1]);
    assert_eq!(answer(&draft), Ok(35_000));
    let mut dearer = draft.clone();
    dearer.set_data(Table::LineAnnuity, &WESTWARD, i128::from(u32::MAX));
    assert_eq!(answer(&dearer), Ok(35_000));
    dearer.set_data(Table::LineAnnuity, &EASTWARD, 8);
    assert_eq!(answer(&dearer), Ok(40_000));
}

/// W is R·V of the year: 1000·1 for 2 lines and 500·3 for 3.
#[test]
fn a_year_pays_by_its_own_weight() {
    let mut draft = with_lines(&[2, 1]);
    draft.set_data(Table::ReturnRate, &[1], 500);
    draft.set_data(Table::Weight, &[1], 3);
    assert_eq!(answer(&draft), Ok(7 * (2 * 1000 + 3 * 1500)));
}

/// A third of a line costs a third: at N 3 its price is the same by Nth.
#[test]
fn a_fraction_of_a_line_pays_its_share() {
    let draft = scaled(isles(1), 3);
    let mut third = draft.clone();
    for [z, z2] in [EASTWARD, WESTWARD] {
        third.build_lines([0, z, z2], 1).expect("32 bits");
    }
    assert_eq!(answer(&draft), Ok(0));
    assert_eq!(answer(&third), Ok(7000));
}

// What lines carry

/// (15): each direction has its own MW per line.
#[test]
fn a_flow_has_the_lines_of_its_own_direction() {
    for (link, mw) in [(EASTWARD, EASTWARD_MW), (WESTWARD, WESTWARD_MW)] {
        let mut draft = with_lines(&[1]);
        send(&mut draft, link, mw);
        accepted(&draft);
        send(&mut draft, link, 1);
        broken(&draft, 2, &[0, link[0], link[1], 0]);
        // TL adds to what the lines carry.
        draft.set_data(Table::Tl, &[0, link[0], link[1], 0], 1);
        accepted(&draft);
    }
}

/// A third of a line carries a third of its MW: 3 Nths of a MW at N 3, to the last Nth.
#[test]
fn a_fraction_of_a_line_carries_its_share() {
    let mut draft = scaled(isles(1), 3);
    for [z, z2] in [EASTWARD, WESTWARD] {
        draft.build_lines([0, z, z2], 1).expect("32 bits");
    }
    send(&mut draft, EASTWARD, EASTWARD_MW);
    accepted(&draft);
    send(&mut draft, EASTWARD, 1);
    broken(&draft, 2, &[0, WEST, EAST, 0]);
}

/// (19): what the lines bring into a zone and no flow takes counts as its reserve, with the
/// MW of that direction. West gets 2 by each line and east 3.
#[test]
fn reserve_has_the_lines_into_its_zone() {
    for (zone, mw) in [(EAST, EASTWARD_MW), (WEST, WESTWARD_MW)] {
        let mut draft = with_lines(&[2]);
        draft.set_data(Table::SRes, &[0, zone], 2 * mw);
        accepted(&draft);
        draft.set_data(Table::SRes, &[0, zone], 2 * mw + 1);
        broken(&draft, 3, &[0, zone, 0]);
    }
    // A flow takes from the reserve of the zone that it goes to, and from no other.
    let mut draft = with_lines(&[2]);
    send(&mut draft, EASTWARD, 5);
    draft.set_data(Table::SRes, &[0, EAST], 1);
    draft.set_data(Table::SRes, &[0, WEST], 2 * WESTWARD_MW);
    accepted(&draft);
    draft.set_data(Table::SRes, &[0, EAST], 2);
    broken(&draft, 3, &[0, EAST, 0]);
}

/// (21): the engine's 10 MW are all that is firm in the east, where 12 are asked for, 2 of
/// which come from the west. A line there changes nothing.
#[test]
fn planning_reserve_has_no_lines() {
    for lines in [1, 4] {
        let mut draft = with_lines(&[lines]);
        draft.set_data(Table::Demand, &[0, EAST, 0], 12);
        draft.set_entry(Column::Gen, &[0, ENGINE, 0], 12);
        send(&mut draft, EASTWARD, 2);
        draft.set_entry(Column::FirmShort, &[0, EAST], 2000);
        accepted(&draft);
        draft.set_entry(Column::FirmShort, &[0, EAST], 1999);
        broken(&draft, 4, &[0, EAST]);
    }
}

/// (64): the annuity of a line is not capital. MaxCapital is 0.
#[test]
fn capital_has_no_lines() {
    let mut draft = with_lines(&[4]);
    draft.set_data(Table::LineAnnuity, &EASTWARD, 1_000_000_000);
    assert_eq!(answer(&draft), Ok(4 * 1000 * 1_000_000_000));
    // Nor do lines and candidates share it: here the candidate alone takes what there is.
    draft.set_data(Table::Kind, &[DAM], 1);
    draft.set_data(Table::Year, &[DAM], 1);
    draft.set_data(Table::GenCap, &[DAM], 0);
    draft.set_data(Table::MaxNewCap, &[DAM], 20);
    draft.set_data(Table::BuildLimit, &[0], 20);
    draft.set_data(Table::Annuity, &[0, DAM], 50_000);
    draft.set_entry(Column::Build, &[0, DAM], 20);
    draft.set_data(Table::MaxCapital, &[], 1);
    accepted(&draft);
    draft.set_data(Table::Annuity, &[0, DAM], 50_001);
    broken(&draft, 18, &[]);
}

// What may be built

/// Lines that stay as they are, that are this year's alone, and that count the year twice.
#[test]
fn a_total_is_the_earlier_total_and_the_builds_of_its_year() {
    let draft = with_lines(&[2, 1, 0]);
    let totals = |y: usize| draft.entry(Column::Total, &[y, WEST, EAST]);
    assert_eq!([totals(0), totals(1), totals(2)], [2, 3, 3]);
    accepted(&draft);
    for total in [2, 1, 4] {
        let mut other = draft.clone();
        for [z, z2] in [EASTWARD, WESTWARD] {
            other.set_entry(Column::Total, &[1, z, z2], total);
        }
        broken(&other, 26, &[1, WEST, EAST]);
    }
    // Before the first year there is no line.
    let mut earlier = isles(1);
    for [z, z2] in [EASTWARD, WESTWARD] {
        earlier.set_entry(Column::Total, &[0, z, z2], 1);
    }
    broken(&earlier, 26, &[0, WEST, EAST]);
}

/// 2 and 1 lines are 3; by year each would be within a limit of 2.
#[test]
fn the_limit_is_on_the_builds_of_all_years() {
    for (link, other) in [(EASTWARD, WESTWARD), (WESTWARD, EASTWARD)] {
        let mut draft = with_lines(&[2, 1]);
        draft.set_data(Table::LineLimit, &other, 100);
        draft.set_data(Table::LineLimit, &link, 3);
        accepted(&draft);
        draft.set_data(Table::LineLimit, &link, 2);
        broken(&draft, 27, &link);
    }
}

/// The limit is in lines and the builds are in Nths, to the last one.
#[test]
fn the_limit_is_in_whole_lines() {
    let mut draft = scaled(with_lines(&[3, 1]), 7);
    accepted(&draft);
    for [z, z2] in [EASTWARD, WESTWARD] {
        draft.build_lines([1, z, z2], 1).expect("32 bits");
    }
    broken(&draft, 27, &EASTWARD);
}

/// A line leads both ways: more of one direction is refused at the pair with the lower
/// zone first, whichever it is, in the year where they part.
#[test]
fn both_directions_have_the_same_lines() {
    for [z, z2] in [EASTWARD, WESTWARD] {
        let mut draft = with_lines(&[1, 1]);
        draft.build_lines([1, z, z2], 1).expect("32 bits");
        broken(&draft, 28, &[1, WEST, EAST]);
        // The same lines in another order: alike at the end, but not in the first year.
        let mut moved = with_lines(&[1, 1]);
        moved.build_lines([0, z, z2], 1).expect("32 bits");
        moved.build_lines([1, z, z2], -1).expect("one line there");
        broken(&moved, 28, &[0, WEST, EAST]);
    }
}

/// Within one zone the rows of 26 and 27 are as everywhere, and the limit is 0.
#[test]
fn nothing_is_built_within_one_zone() {
    for zone in [WEST, EAST] {
        let mut built = isles(2);
        built.set_entry(Column::Built, &[1, zone, zone], 1);
        broken(&built, 26, &[1, zone, zone]);
        let mut total = isles(2);
        total.set_entry(Column::Total, &[1, zone, zone], 1);
        broken(&total, 26, &[1, zone, zone]);
        let mut both = isles(2);
        both.build_lines([1, zone, zone], 1).expect("32 bits");
        broken(&both, 27, &[zone, zone]);
    }
}

/// Within one zone the three tables are 0; between two they take all 32 bits.
#[test]
fn the_ranges_of_the_new_tables() {
    for table in [Table::LineLimit, Table::LineMw, Table::LineAnnuity] {
        for zone in [WEST, EAST] {
            let mut draft = isles(1);
            draft.set_data(table, &[zone, zone], 1);
            let place = draft.layout.index(table, &[zone, zone]);
            assert_eq!(answer(&draft), Err(Refusal::at(ENTRY, place)), "{table:?}");
        }
        for link in [EASTWARD, WESTWARD] {
            let mut draft = isles(1);
            draft.set_data(table, &link, i128::from(u32::MAX));
            accepted(&draft);
        }
    }
}

/// The last entry of the data is a line annuity within one zone; 16 comes after it.
#[test]
fn entries_of_lines_come_before_the_test_of_batteries() {
    let mut draft = isles(1);
    draft.set_data(Table::Vre, &[ENGINE], 1);
    draft.set_data(Table::Battery, &[ENGINE], 1);
    assert_eq!(answer(&draft), Err(Refusal::at(STORAGE, ENGINE)));
    let last = draft.case.data.len() - 1;
    assert_eq!(draft.layout.index(Table::LineAnnuity, &[EAST, EAST]), last);
    draft.case.data[last] = 1;
    assert_eq!(answer(&draft), Err(Refusal::at(ENTRY, last)));
}

// Certificates

/// Power costs 10 mills a MWh from the dam and 60 from the engine.
fn priced_isles(cheap: usize) -> Draft {
    let mut draft = isles(1);
    draft.set_data(Table::GenCost, &[0, cheap], 10);
    draft.set_data(Table::GenCost, &[0, 1 - cheap], 60);
    draft
}

/// What a kW costs on each isle: family 1.
fn set_prices(draft: &mut Draft, west: i128, east: i128) {
    draft.set_multiplier(1, &[0, WEST, 0], west);
    draft.set_multiplier(1, &[0, EAST, 0], east);
    // What is unmet may cost anything.
    draft.set_data(Table::Voll, &[], 1000);
}

/// The dam is cheap. A line of 3 MW saves 3·50000 an hour and costs 99000: 5/3 lines are
/// built. At N 3 the dam gives 30 Nths at 10000 and 5 Nths of a line cost 99000 each. A kW
/// is worth 10 in the west and 43 in the east, and the link's 33 are what a line earns:
/// 3·33000 = 99000.
fn worth_building() -> Draft {
    let mut draft = scaled(priced_isles(DAM), 3);
    draft.set_data(Table::LineAnnuity, &EASTWARD, 99);
    for [z, z2] in [EASTWARD, WESTWARD] {
        draft.build_lines([0, z, z2], 5).expect("32 bits");
    }
    send(&mut draft, EASTWARD, 15);
    set_prices(&mut draft, 10, 43);
    draft.set_multiplier(2, &[0, WEST, EAST, 0], 33_000);
    draft
}

const WORTH_COST: u64 = 30 * 10_000 + 5 * 99_000;

/// The least cost of the data times the scale, by the simplex.
fn least_cost(draft: &Draft) -> i128 {
    let model = Model::read(&draft.case.data).expect("sound data");
    let found = optimum(&model).expect("an optimum");
    let columns = found.entries.iter().enumerate();
    let costs = columns.map(|(column, entry)| {
        let whole = model.price(column) * entry.numerator * draft.scale();
        assert_eq!(whole % entry.denominator, 0, "a cost in Nths");
        whole / entry.denominator
    });
    costs.sum()
}

#[test]
fn a_line_that_is_worth_building() {
    let draft = worth_building();
    assert_eq!(certified(&draft), Ok((WORTH_COST, 0)));
    assert_eq!(least_cost(&draft), i128::from(WORTH_COST));
    // One mill less than what the line earns: the total is the first underpriced.
    let mut cheaper = draft.clone();
    cheaper.set_data(Table::LineAnnuity, &EASTWARD, 98);
    underpriced(&cheaper, Column::Total, &[0, WEST, EAST]);
}

/// At 150 mills a line costs what it saves, and the engine runs: 5 MW at 10000 and 5 at
/// 60000. At 149 the total is underpriced by 1000, unless the limit of 4 lines is worth it.
#[test]
fn a_line_that_is_not_worth_building() {
    let mut draft = priced_isles(DAM);
    draft.set_data(Table::LineAnnuity, &EASTWARD, 150);
    set_prices(&mut draft, 10, 60);
    draft.set_multiplier(2, &[0, WEST, EAST, 0], 50_000);
    let cost = 5 * 10_000 + 5 * 60_000;
    assert_eq!(certified(&draft), Ok((cost, 0)));
    assert_eq!(least_cost(&draft), i128::from(cost));
    draft.set_data(Table::LineAnnuity, &EASTWARD, 149);
    underpriced(&draft, Column::Total, &[0, WEST, EAST]);
    draft.set_multiplier(26, &[0, WEST, EAST], -1000);
    underpriced(&draft, Column::Built, &[0, WEST, EAST]);
    draft.set_multiplier(27, &EASTWARD, 999);
    underpriced(&draft, Column::Built, &[0, WEST, EAST]);
    draft.set_multiplier(27, &EASTWARD, 1000);
    assert_eq!(certified(&draft), Ok((cost, 4 * 1000)));
}

/// The engine is cheap, so that lines serve westward, with 2 MW each; their total has no
/// price, and family 28 pays it from the other direction's: 2·49000 = 98000. 5/2 lines are
/// built, at N 2 5 Nths.
#[test]
fn the_lower_zone_pays_for_a_line_that_serves_the_other_direction() {
    let mut draft = scaled(priced_isles(ENGINE), 2);
    draft.set_data(Table::LineAnnuity, &EASTWARD, 98);
    for [z, z2] in [EASTWARD, WESTWARD] {
        draft.build_lines([0, z, z2], 5).expect("32 bits");
    }
    send(&mut draft, WESTWARD, 10);
    set_prices(&mut draft, 59, 10);
    draft.set_multiplier(2, &[0, EAST, WEST, 0], 49_000);
    underpriced(&draft, Column::Total, &[0, EAST, WEST]);
    draft.set_multiplier(28, &[0, WEST, EAST], 98_000);
    let cost = 20 * 10_000 + 5 * 98_000;
    assert_eq!(certified(&draft), Ok((cost, 0)));
    assert_eq!(least_cost(&draft), i128::from(cost));
    // One more is too much for the direction that pays, one less for the one that serves.
    draft.set_multiplier(28, &[0, WEST, EAST], 98_001);
    underpriced(&draft, Column::Total, &[0, WEST, EAST]);
    draft.set_multiplier(28, &[0, WEST, EAST], 97_999);
    underpriced(&draft, Column::Total, &[0, EAST, WEST]);
}

/// Lines are worth what (19) pays for the reserve that they bring: 1000·3 MW at a price
/// of 33 for a kW of spinning reserve are the 99000 of a line. The plants ask for more.
#[test]
fn a_line_that_is_worth_its_reserve() {
    let mut draft = scaled(isles(1), 3);
    draft.set_data(Table::LineAnnuity, &EASTWARD, 99);
    draft.set_data(Table::SRes, &[0, EAST], 4);
    draft.set_data(Table::SresVoll, &[], 1);
    draft.set_data(Table::ResCost, &[DAM], 34);
    draft.set_data(Table::ResCost, &[ENGINE], 34);
    for [z, z2] in [EASTWARD, WESTWARD] {
        draft.build_lines([0, z, z2], 4).expect("32 bits");
    }
    draft.set_multiplier(3, &[0, EAST, 0], 33);
    assert_eq!(certified(&draft), Ok((4 * 99_000, 0)));
    draft.set_multiplier(3, &[0, EAST, 0], 34);
    underpriced(&draft, Column::Total, &[0, WEST, EAST]);
    // The lines out of a zone bring it nothing.
    draft.set_multiplier(3, &[0, EAST, 0], 33);
    draft.set_multiplier(3, &[0, WEST, 0], 1);
    underpriced(&draft, Column::Total, &[0, EAST, WEST]);
}

/// A year's row of family 26 stands in its own total and in that of the year before.
#[test]
fn a_total_is_priced_with_the_year_after_it() {
    let mut draft = isles(3);
    draft.set_multiplier(26, &[1, WEST, EAST], -1000);
    draft.set_multiplier(27, &EASTWARD, 1000);
    // The price of a total is 7000: 1000 less the year before has 6000 to spare.
    assert_eq!(certified(&draft), Ok((0, 4 * 1000)));
    draft.set_multiplier(26, &[1, WEST, EAST], -7001);
    draft.set_multiplier(27, &EASTWARD, 7001);
    underpriced(&draft, Column::Total, &[0, WEST, EAST]);
}

/// Families 26 and 28 take both signs, in every row; 27 takes none below 0.
#[test]
fn multipliers_below_zero() {
    let largest = 1_i128 << 40;
    let draft = worth_building();
    let empty_rows = [[0, EAST, WEST], [0, WEST, WEST], [0, EAST, EAST]];
    let model = Model::read(&draft.case.data).expect("sound data");
    for row in empty_rows {
        assert!(model.row_of(28, &row).terms.is_empty(), "{row:?}");
        for multiplier in [-largest, -1, 1, largest] {
            let mut empty = draft.clone();
            empty.set_multiplier(28, &row, multiplier);
            assert_eq!(certified(&empty), Ok((WORTH_COST, 0)), "{row:?}");
        }
    }
    // Within one zone a limit of 0 costs nothing.
    let mut within = draft.clone();
    within.set_multiplier(26, &[0, EAST, EAST], -largest);
    within.set_multiplier(27, &[EAST, EAST], largest);
    assert_eq!(certified(&within), Ok((WORTH_COST, 0)));
    for (family, row) in [
        (26, vec![0, WEST, EAST]),
        (26, vec![0, WEST, WEST]),
        (28, vec![0, WEST, EAST]),
        (28, vec![0, EAST, WEST]),
    ] {
        for past in [-largest - 1, largest + 1] {
            let mut refused = draft.clone();
            refused.set_multiplier(family, &row, past);
            let place = refused.rows.index(family, &row);
            assert_eq!(certified(&refused), Err(Refusal::at(MULTIPLIER, place)));
        }
    }
    for link in [EASTWARD, WESTWARD, [WEST, WEST], [EAST, EAST]] {
        let mut refused = draft.clone();
        refused.set_multiplier(27, &link, -1);
        let place = refused.rows.index(27, &link);
        assert_eq!(certified(&refused), Err(Refusal::at(MULTIPLIER, place)));
    }
}
