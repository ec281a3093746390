//! docs/FORMAT.md, "From a solver" and "Two years": the page's steps run on its
//! example, and every answer that it names.
//!
//! `solutions/NAME.sol` is what GLPK answered, figures of 0 left out, to the program that
//! `cargo run --bin mps` writes of the example's data (tests/README.md): the example
//! itself; the example with row 437, the gas of year 2, fixed at 1254 and at 1255
//! (`mps 437 1254`); the example with MaxCapital 1200; and that with row 440, the
//! capital, fixed at 1 and at 2.

use epm_reference::calls::LARGEST_MULTIPLIER;
use epm_reference::columns::{Column, ColumnLayout};
use epm_reference::data::{read_shape, DataLayout, Table, TABLES};
use epm_reference::generator::{self, Generated};
use epm_reference::model::Model;
use epm_reference::program::{answer_line, read_lines, Input};
use epm_reference::rounding::{self, Solution};
use epm_reference::rows::RowLayout;
use epm_reference::shape::Shape;
use epm_reference::{certify, check, run};

const PAGE: &str = include_str!("../../../docs/FORMAT.md");
const TWO_YEARS: &[u8] = include_bytes!("../../../examples/two-years.txt");
const TWO_ZONES: &[u8] = include_bytes!("../../../examples/two-zones.txt");
const BATTERY: &[u8] = include_bytes!("../../../examples/battery.txt");
const CABLE: &[u8] = include_bytes!("../../../examples/cable.txt");
const SEASONS: &[u8] = include_bytes!("../../../examples/seasons.txt");

const SOLVED: &str = include_str!("../solutions/two-years.sol");
const GAS_1254: &str = include_str!("../solutions/two-years-gas-1254.sol");
const GAS_1255: &str = include_str!("../solutions/two-years-gas-1255.sol");
const CAPITAL: &str = include_str!("../solutions/two-years-capital.sol");
const CAPITAL_1: &str = include_str!("../solutions/two-years-capital-1.sol");
const CAPITAL_2: &str = include_str!("../solutions/two-years-capital-2.sol");

/// Rounding looks at every row for each entry, so that generated cases are taken up to this size.
const MOST_ROWS: usize = 500;

fn two_years() -> Shape {
    Shape::new([2, 4, 2, 1, 1, 6, 2])
}

fn example() -> Input {
    read_lines(TWO_YEARS).expect("no Frame")
}

/// The example with MaxCapital 1200, which then binds.
fn short_of_capital() -> Input {
    let mut input = example();
    let layout = DataLayout::new(two_years());
    input.data[layout.index(Table::MaxCapital, &[])] = 1200;
    input
}

/// The row of the gas limit that binds, and the one row of the capital.
fn gas() -> usize {
    RowLayout::new(two_years()).index(17, &[1, 0, 1])
}

fn capital() -> usize {
    RowLayout::new(two_years()).index(18, &[])
}

/// How an answer of a solver is rounded.
struct Recipe<'a> {
    scale: u32,
    /// The answer that has the plan, and the one that has the multipliers.
    plan: &'a str,
    multipliers: &'a str,
    /// The multiplier that was fixed for the second.
    fixed: Option<(usize, i64)>,
    raising: bool,
    outside_years: bool,
}

/// All steps of the page, on the example as it was solved first.
const ALL_STEPS: Recipe = Recipe {
    scale: 1000,
    plan: SOLVED,
    multipliers: SOLVED,
    fixed: None,
    raising: true,
    outside_years: true,
};

impl Recipe<'_> {
    fn rounded(&self, data: &[u32]) -> (Vec<u32>, Vec<i64>) {
        let model = Model::read(data).expect("sound data");
        let entries = Solution::read(&model, self.plan).entries;
        let mut multipliers = Solution::read(&model, self.multipliers).multipliers;
        if let Some((row, multiplier)) = self.fixed {
            multipliers[row] = multiplier as f64;
        }
        (
            rounding::plan(&model, self.scale, &entries, self.raising),
            rounding::multipliers(&model, &multipliers, self.outside_years),
        )
    }

    /// The line that certify prints.
    fn line(&self, data: &[u32]) -> String {
        let (plan, multipliers) = self.rounded(data);
        answer_line(certify(data, self.scale, &plan, &multipliers))
    }
}

/// The page names an answer, with its gap as a share of the cost, on one line of a table.
fn assert_on_page(what: &str, line: &str) {
    let words: Vec<&str> = line.split_whitespace().collect();
    let [answer, cost, gap] = words[..] else {
        panic!("{what}: {line}")
    };
    assert_eq!(answer, "A", "{what}: {line}");
    let figure = |word: &str| word.parse::<f64>().expect("a figure");
    let share = 100.0 * figure(gap) / figure(cost);
    let digits = if share < 1.0 { 4 } else { 1 };
    let shown = format!("| `{}` | {share:.digits$} % |", line.trim_end());
    assert!(PAGE.contains(&shown), "{what}: the page lacks {shown}");
}

#[test]
fn the_example_is_what_the_steps_give() {
    let input = example();
    let recipe = Recipe {
        multipliers: GAS_1255,
        fixed: Some((gas(), 1255)),
        ..ALL_STEPS
    };
    let (plan, multipliers) = recipe.rounded(&input.data);
    assert_eq!(input.scale, Some(recipe.scale));
    assert_eq!(input.plan, plan);
    assert_eq!(input.multipliers, multipliers);
    assert_on_page("the example", &run(TWO_YEARS));
}

#[test]
fn what_each_step_gains() {
    let data = example().data;
    let earlier = Recipe {
        raising: false,
        outside_years: false,
        ..ALL_STEPS
    };
    assert_on_page("neither step", &earlier.line(&data));
    let outside = Recipe {
        raising: false,
        ..ALL_STEPS
    };
    assert_on_page("family 13", &outside.line(&data));
    assert_on_page("headroom as well", &ALL_STEPS.line(&data));
    for (multipliers, fixed) in [(GAS_1254, 1254), (GAS_1255, 1255)] {
        let solved_again = Recipe {
            multipliers,
            fixed: Some((gas(), fixed)),
            ..ALL_STEPS
        };
        assert_on_page("the gas fixed", &solved_again.line(&data));
    }
}

#[test]
fn what_the_scale_gains() {
    let data = example().data;
    for scale in [1, 10, 100, 1000] {
        let recipe = Recipe {
            scale,
            multipliers: GAS_1255,
            fixed: Some((gas(), 1255)),
            ..ALL_STEPS
        };
        assert_on_page(&format!("N {scale}"), &recipe.line(&data));
    }
}

#[test]
fn what_a_fixed_multiplier_of_the_capital_gains() {
    let data = short_of_capital().data;
    let rounded = Recipe {
        plan: CAPITAL,
        multipliers: CAPITAL,
        ..ALL_STEPS
    };
    assert_on_page("rounded", &rounded.line(&data));
    for (multipliers, fixed) in [(CAPITAL_1, 1), (CAPITAL_2, 2)] {
        let solved_again = Recipe {
            plan: CAPITAL,
            multipliers,
            fixed: Some((capital(), fixed)),
            ..ALL_STEPS
        };
        assert_on_page("the capital fixed", &solved_again.line(&data));
    }
}

/// The two-zone example's plan of least cost, which is exact in 20ths, in whole MW.
#[test]
fn what_headroom_gains_the_two_zone_example_at_scale_1() {
    let input = read_lines(TWO_ZONES).expect("no Frame");
    let model = Model::read(&input.data).expect("sound data");
    let entries: Vec<f64> = input
        .plan
        .iter()
        .map(|&entry| f64::from(entry) / 20.0)
        .collect();
    for raising in [false, true] {
        let plan = rounding::plan(&model, 1, &entries, raising);
        let answer = certify(&input.data, 1, &plan, &input.multipliers);
        assert_on_page("two zones at N 1", &answer_line(answer));
    }
}

/// What a table's numbers are multiplied by where the unit of money is a tenth, and where the unit
/// of power is a tenth.
#[derive(Clone, Copy, PartialEq, Eq)]
enum Change {
    Stays,
    TenTimes,
    Tenth,
}

/// The two changes of every table. There is no case for "all others": a new table is decided here,
/// and then the page's lists must have it.
fn changes(table: Table) -> (Change, Change) {
    use Change::{Stays, TenTimes, Tenth};
    match table {
        Table::ReturnRate | Table::Weight | Table::Duration | Table::MinimumLoadDay => {
            (Stays, Stays)
        }
        Table::Zone | Table::Fuel | Table::Kind | Table::Vre | Table::Year => (Stays, Stays),
        Table::GenCap | Table::MaxNewCap | Table::BuildLimit => (Stays, TenTimes),
        Table::OverLoad | Table::ResOffer | Table::RampDn | Table::RampUp => (Stays, Stays),
        Table::MinCapFac | Table::CapCredit | Table::Availability | Table::Profile => {
            (Stays, Stays)
        }
        Table::HeatRate | Table::Emission => (Stays, Tenth),
        Table::Annuity | Table::FixedOm | Table::GenCost | Table::ResCost => (TenTimes, Tenth),
        Table::Demand | Table::SRes | Table::Tl => (Stays, TenTimes),
        Table::Ee | Table::Prm | Table::Loss | Table::Err => (Stays, Stays),
        Table::ZoneCap | Table::SystemCap | Table::MaxFuel => (Stays, Stays),
        Table::Voll | Table::SurplusPenalty | Table::ResVoll | Table::SresVoll => (TenTimes, Tenth),
        Table::Tax | Table::MaxCapital => (TenTimes, Stays),
        Table::Battery | Table::Efficiency => (Stays, Stays),
        Table::EnergyCapacity => (Stays, TenTimes),
        // A line is a line in every unit of power, and its annuity is by line.
        Table::LineLimit => (Stays, Stays),
        Table::LineMw => (Stays, TenTimes),
        Table::LineAnnuity => (TenTimes, Stays),
    }
}

fn money(table: Table) -> Change {
    changes(table).0
}

fn power(table: Table) -> Change {
    changes(table).1
}

/// The page names the tables that change, in the order of the data list.
#[test]
fn the_page_names_every_table_of_another_unit() {
    let names = |unit: fn(Table) -> Change, change| {
        let changed = TABLES.iter().filter(|entry| unit(entry.table) == change);
        changed
            .map(|entry| entry.name)
            .collect::<Vec<_>>()
            .join(", ")
    };
    for list in [
        format!(
            "divide these tables by it: {}.",
            names(money, Change::TenTimes)
        ),
        format!("Ten times: {}.", names(power, Change::TenTimes)),
        format!("A tenth: {}.", names(power, Change::Tenth)),
    ] {
        assert!(PAGE.contains(&list), "the page lacks {list}");
    }
}

/// In dollars the numbers of money are ten times those in tens of dollars. The rent of a MW of
/// sun over both years is then above 2^40 millionths.
#[test]
fn the_example_in_dollars_is_refused() {
    let mut input = example();
    change(&mut input.data, two_years(), money);
    assert!(check(&input.data, 1000, &input.plan).is_ok());
    for multiplier in &mut input.multipliers {
        *multiplier *= 10;
    }
    let answer = certify(&input.data, 1000, &input.plan, &input.multipliers);
    let row = RowLayout::new(two_years()).index(12, &[0, 2]);
    assert_eq!(answer_line(answer), format!("R 10 {row}\n"));
    assert!(PAGE.contains(&format!("`R 10 {row}`")));
}

/// The data in a tenth of a unit.
fn change(data: &mut [u32], shape: Shape, unit: fn(Table) -> Change) {
    let layout = DataLayout::new(shape);
    for (place, number) in data.iter_mut().enumerate() {
        let Some((table, _)) = layout.locate(place) else {
            continue; // a count
        };
        *number = match unit(table) {
            Change::Stays => *number,
            Change::TenTimes => *number * 10,
            Change::Tenth => tenth(i64::from(*number)) as u32,
        };
    }
}

/// A tenth of a number that has one.
fn tenth(number: i64) -> i64 {
    assert_eq!(number % 10, 0, "{number}");
    number / 10
}

/// An example with 100 kW in the place of a MW is the same system: the same cost and gap.
#[test]
fn a_unit_of_100_kw() {
    for example in [TWO_ZONES, BATTERY, CABLE, SEASONS] {
        hold_in_100_kw(read_lines(example).expect("no Frame"));
    }
}

fn hold_in_100_kw(mut input: Input) {
    let shape = read_shape(&input.data).expect("counts in range");
    let scale = input.scale();
    let before = certify(&input.data, scale, &input.plan, &input.multipliers);
    change(&mut input.data, shape, power);
    // Built and total count lines; all other entries are of power.
    let columns = ColumnLayout::new(shape);
    for (column, entry) in input.plan.iter_mut().enumerate() {
        let table = columns.locate(column).map(|found| found.0);
        if !matches!(table, Some(Column::Built | Column::Total)) {
            *entry *= 10;
        }
    }
    // Families 17 to 20 count fuel, money and kg, 26 to 28 lines; the multipliers of all others
    // are for power.
    let rows = RowLayout::new(shape);
    for (row, multiplier) in input.multipliers.iter_mut().enumerate() {
        if !matches!(rows.family(row), Some(17..=20 | 26..=28)) {
            *multiplier = tenth(*multiplier);
        }
    }
    let after = certify(&input.data, scale, &input.plan, &input.multipliers);
    assert!(before.is_ok());
    assert_eq!(after, before);
}

/// A plan without multipliers: with zeros the gap is the cost; with none at all refusal 9 says that
/// the plan passed.
#[test]
fn a_plan_without_multipliers() {
    let input = example();
    let cost = check(&input.data, 1000, &input.plan).expect("accepted");
    let zeros = vec![0; input.multipliers.len()];
    let answer = certify(&input.data, 1000, &input.plan, &zeros);
    assert_eq!(answer, Ok((cost, cost)));
    let refusal = certify(&input.data, 1000, &input.plan, &[]).expect_err("no multipliers");
    assert_eq!((refusal.number, refusal.place), (9, zeros.len() as u64));
}

/// Generated plans, taken as a solver's figures, rounded to another scale. A minimum load or a ramp, of
/// output or of charge, may leave no whole Nth beside the plant's other limits, as the page says, and a large cost may be off
/// scale; nothing else is refused.
#[test]
fn rounded_plans_are_accepted() {
    const SCALE: u32 = 7;
    let mut accepted = 0;
    for seed in 0..400 {
        let Generated { label, case, .. } = generator::case(seed);
        // The extremes have plants too large for an entry at another scale.
        if label == "Extreme" || check(&case.data, case.scale, &case.plan).is_err() {
            continue;
        }
        let model = Model::read(&case.data).expect("sound data");
        if model.rows.count() > MOST_ROWS {
            continue;
        }
        let figure = |&entry: &u32| f64::from(entry) / f64::from(case.scale);
        let entries: Vec<f64> = case.plan.iter().map(figure).collect();
        let plan = rounding::plan(&model, SCALE, &entries, true);
        match check(&case.data, SCALE, &plan) {
            Ok(_) => accepted += 1,
            Err(refusal) => {
                let family = model.rows.family(refusal.place as usize);
                let expected = match refusal.number {
                    7 => matches!(family, Some(7..=9 | 23 | 24)),
                    number => number == 8,
                };
                assert!(expected, "seed {seed}: {refusal:?}, family {family:?}");
            }
        }
    }
    assert!(accepted > 100, "{accepted} plans accepted");
}

/// The cable example as a solver's figures: at its own scale the steps give its plan, and
/// multipliers of the same gap. At a scale that has no eighths the lines are rounded up, to the
/// limit and no further, alike in both directions.
#[test]
fn lines_are_rounded_within_their_limit() {
    let input = read_lines(CABLE).expect("no Frame");
    let model = Model::read(&input.data).expect("sound data");
    let plan = input.plan.iter();
    let entries: Vec<f64> = plan.map(|&entry| f64::from(entry) / 1000.0).collect();
    assert_eq!(rounding::plan(&model, 1000, &entries, true), input.plan);
    let solved: Vec<f64> = input.multipliers.iter().map(|&m| m as f64).collect();
    let multipliers = rounding::multipliers(&model, &solved, true);
    let answer = certify(&input.data, 1000, &input.plan, &multipliers);
    assert_eq!(answer_line(answer), run(CABLE));
    const SCALE: u32 = 7;
    let plan = rounding::plan(&model, SCALE, &entries, true);
    assert!(check(&input.data, SCALE, &plan).is_ok());
    for [z, z2] in [[0, 1], [1, 0]] {
        let entry = |column, y: usize| plan[model.columns.index(column, &[y, z, z2])];
        // 7/8 and 1/8 of a line are 6.125 and 0.875 Nths: 7 and 1 would be 8 of 7.
        let built = [entry(Column::Built, 0), entry(Column::Built, 1)];
        let total = [entry(Column::Total, 0), entry(Column::Total, 1)];
        assert_eq!((built, total), ([6, 1], [6, 7]));
    }
}

/// A line so dear that it would have to earn more than 2^40: the steps take 2^40 in that place,
/// and certify accepts the multipliers.
#[test]
fn a_dear_line_is_no_multiplier_out_of_range() {
    let mut input = read_lines(CABLE).expect("no Frame");
    let shape = read_shape(&input.data).expect("counts in range");
    let annuity = DataLayout::new(shape).index(Table::LineAnnuity, &[0, 1]);
    input.data[annuity] = u32::MAX;
    let model = Model::read(&input.data).expect("sound data");
    let solved = vec![0.0; input.multipliers.len()];
    let multipliers = rounding::multipliers(&model, &solved, true);
    let largest = multipliers.iter().max().copied();
    assert_eq!(largest, Some(LARGEST_MULTIPLIER));
    let answer = certify(&input.data, input.scale(), &input.plan, &multipliers);
    assert!(answer.is_ok(), "{answer:?}");
}

/// Multipliers that are some units off, mended: a column is never underpriced.
#[test]
fn mended_multipliers_price_every_column_well() {
    let mut accepted = 0;
    for seed in 0..300 {
        let case = generator::case(seed).case;
        let Ok(model) = Model::read(&case.data) else {
            continue;
        };
        let checked = check(&case.data, case.scale, &case.plan).is_ok();
        let rows = model.rows.count();
        if !checked || case.multipliers.len() != rows || rows > MOST_ROWS {
            continue;
        }
        let mut multipliers = case.multipliers.clone();
        for (row, m) in multipliers.iter_mut().enumerate() {
            let noise = (seed as i64 * 31 + row as i64 * 17) % 41 - 20;
            *m = (*m).clamp(-(1 << 36), 1 << 36) + noise;
            if !model.row(row).equality {
                *m = (*m).max(0);
            }
        }
        let multipliers = rounding::mended(&model, multipliers);
        match certify(&case.data, case.scale, &case.plan, &multipliers) {
            Ok(_) => accepted += 1,
            Err(refusal) => assert!(
                matches!(refusal.number, 10 | 11 | 13),
                "seed {seed}: {refusal:?}"
            ),
        }
    }
    assert!(accepted > 30, "{accepted} cases accepted");
}
