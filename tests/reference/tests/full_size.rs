//! A case of the largest shape, with more than a million rows.

use epm_reference::columns::{Column, ColumnLayout};
use epm_reference::data::Table;
use epm_reference::generator::draft::Draft;
use epm_reference::generator::{full_size_case, LARGEST_COUNTS};
use epm_reference::rows::RowLayout;
use epm_reference::shape::Shape;
use epm_reference::{certify, check, Refusal};

#[test]
fn largest_shape_is_answered() {
    let shape = Shape::new(LARGEST_COUNTS);
    let case = full_size_case();
    assert_eq!(case.plan.len(), 831_760);
    assert_eq!(case.multipliers.len(), 1_663_627);
    let used = case.multipliers.iter().filter(|m| **m != 0).count();
    assert!(used > 1_250_000, "{used} multipliers are not 0");
    let mut totals = ColumnLayout::new(shape).of_table(Column::Total);
    assert!(totals.any(|column| case.plan[column] > 0), "no lines");

    let cost = check(&case.data, case.scale, &case.plan).expect("a sound plan");
    let certified = certify(&case.data, case.scale, &case.plan, &case.multipliers);
    assert_eq!(certified.expect("sound multipliers").0, cost);

    // The last column is the total within the last zone, in the last year.
    let rows = RowLayout::new(shape);
    let (last_year, last_zone) = (shape.years - 1, shape.zones - 1);
    let balance = rows.index(26, &[last_year, last_zone, last_zone]);
    let mut within_zone = case.plan.clone();
    *within_zone.last_mut().expect("a column") = 1;
    let broken = Err(Refusal::at(7, balance));
    assert_eq!(check(&case.data, case.scale, &within_zone), broken);

    // The last row that is not empty is that of the last two zones: one Nth of a line more
    // in one direction alone, for which the limit is raised.
    let mut draft = Draft::of(case);
    let link = [last_zone, last_zone - 1];
    let limit = draft.data(Table::LineLimit, &link) + 1;
    draft.set_data(Table::LineLimit, &link, limit);
    let built = draft.build_lines([last_year, link[0], link[1]], 1);
    assert!(built.is_some());
    let both_ways = rows.index(28, &[last_year, last_zone - 1, last_zone]);
    let broken = Err(Refusal::at(7, both_ways));
    let answer = check(&draft.case.data, draft.case.scale, &draft.case.plan);
    assert_eq!(answer, broken);
}
