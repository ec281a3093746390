//! The examples of docs/FORMAT.md, and the answers that the page names to all but two years, which
//! is in `rounding.rs`.

use epm_reference::columns::{Column, ColumnLayout};
use epm_reference::data::{DataLayout, Table, TABLES};
use epm_reference::fraction::Fraction;
use epm_reference::generator::draft::Case;
use epm_reference::generator::frames::{join, plain_lines};
use epm_reference::model::Model;
use epm_reference::optimum::optimum;
use epm_reference::program::{answer_line, read_lines, Input};
use epm_reference::rows::RowLayout;
use epm_reference::shape::Shape;
use epm_reference::{certify, check, explain, run, Refusal};

const STATION: &[u8] = include_bytes!("../../../examples/station.txt");
const TWO_ZONES: &[u8] = include_bytes!("../../../examples/two-zones.txt");
const BATTERY: &[u8] = include_bytes!("../../../examples/battery.txt");
const CABLE: &[u8] = include_bytes!("../../../examples/cable.txt");
const SEASONS: &[u8] = include_bytes!("../../../examples/seasons.txt");
const PAGE: &str = include_str!("../../../docs/FORMAT.md");

fn battery() -> Shape {
    Shape::new([1, 4, 2, 1, 1, 4, 1])
}

fn cable() -> Shape {
    Shape::new([2, 2, 1, 1, 1, 2, 2])
}

fn seasons() -> Shape {
    Shape::new([2, 2, 1, 2, 1, 1, 1])
}

fn two_zones() -> Shape {
    Shape::new([2, 2, 1, 1, 1, 2, 1])
}

/// An example, changed, and its answer.
fn changed(example: &[u8], change: impl FnOnce(&mut Input)) -> Result<(u64, u64), Refusal> {
    let mut input = read_lines(example).expect("no Frame");
    change(&mut input);
    let scale = input.scale.expect("a SCAL line");
    certify(&input.data, scale, &input.plan, &input.multipliers)
}

/// The two-zone example, changed, and its answer.
fn answer(change: impl FnOnce(&mut Input)) -> Result<(u64, u64), Refusal> {
    changed(TWO_ZONES, change)
}

#[test]
fn the_examples_are_answered_as_the_page_says() {
    assert_eq!(run(STATION), "A 40000000000 0\n");
    assert_eq!(run(TWO_ZONES), "A 219320800000000 0\n");
    assert_eq!(run(BATTERY), "A 595600000000 0\n");
    assert_eq!(run(CABLE), "A 93785000000000000 0\n");
    assert_eq!(run(SEASONS), "A 12951600000000000 0\n");
}

#[test]
fn lengths_of_the_examples() {
    let two_years = Shape::new([2, 4, 2, 1, 1, 6, 2]);
    for (shape, data, columns, rows) in [
        (battery(), 146, 95, 221),
        (cable(), 134, 104, 177),
        (seasons(), 111, 52, 94),
        (two_zones(), 104, 52, 92),
        (two_years, 228, 356, 707),
    ] {
        assert_eq!(DataLayout::new(shape).length(), data);
        assert_eq!(ColumnLayout::new(shape).count(), columns);
        assert_eq!(RowLayout::new(shape).count(), rows);
    }
}

/// The largest MaxCapital·N that the page names, 4,611,686,018, is on scale at N 2, and the next is not.
#[test]
fn the_largest_capital_is_on_scale() {
    let station = read_lines(STATION).expect("no Frame");
    let plan: Vec<u32> = station.plan.iter().map(|entry| 2 * entry).collect();
    let capital = RowLayout::new(Shape::new([1; 7])).index(18, &[]);
    for (max_capital, refusal) in [
        (2_305_843_009, None),
        (2_305_843_010, Some(Refusal::at(6, capital))),
    ] {
        let mut data = station.data.clone();
        data[48] = max_capital;
        assert_eq!(check(&data, 2, &plan).err(), refusal);
    }
}

#[test]
fn first_entries_of_tables_named_on_the_page() {
    let data = DataLayout::new(two_zones());
    assert_eq!(data.index(Table::Zone, &[0]), 12);
    assert_eq!(data.index(Table::Availability, &[0, 0]), 44);
    assert_eq!(data.index(Table::Demand, &[0, 0, 0]), 56);
    assert_eq!(data.index(Table::Tl, &[0, 0, 1, 0]), 67);
    assert_eq!(data.index(Table::Loss, &[0, 0, 1]), 71);
    assert_eq!(data.index(Table::MaxCapital, &[]), 85);
    assert_eq!(data.index(Table::Battery, &[0]), 86);
    assert_eq!(data.index(Table::LineLimit, &[0, 0]), 92);
    assert_eq!(data.index(Table::LineMw, &[0, 0]), 96);
    assert_eq!(data.index(Table::LineAnnuity, &[0, 0]), 100);
}

#[test]
fn answers_to_changes_named_on_the_page() {
    let columns = ColumnLayout::new(two_zones());
    let rows = RowLayout::new(two_zones());
    let gen = columns.index(Column::Gen, &[0, 0, 0]);
    let refused = |number, place| Err(Refusal::at(number, place));

    let no_reserve_price = |input: &mut Input| input.multipliers[rows.index(3, &[0, 0, 0])] = 0;
    assert_eq!(
        answer(no_reserve_price),
        Ok((219_320_800_000_000, 400_000_000_000))
    );

    let one_less = |input: &mut Input| input.plan[gen] -= 1;
    assert_eq!(answer(one_less), refused(7, 0));

    let one_more = |input: &mut Input| input.multipliers[rows.index(1, &[0, 0, 0])] += 1;
    assert_eq!(answer(one_more), refused(12, gen));

    let sign_turned = |input: &mut Input| input.multipliers[rows.index(12, &[0, 1])] *= -1;
    assert_eq!(
        answer(sign_turned),
        refused(12, columns.index(Column::Cap, &[0, 1]))
    );

    let below_zero = |input: &mut Input| input.multipliers[rows.index(15, &[1])] = -1;
    assert_eq!(answer(below_zero), refused(10, rows.index(15, &[1])));

    let short = |input: &mut Input| input.data.truncate(103);
    assert_eq!(answer(short), refused(2, 104));

    let line_within_a_zone = |input: &mut Input| input.data[66] = 1;
    assert_eq!(answer(line_within_a_zone), refused(3, 66));
}

/// The station's text with another PLAN line or SCAL line; without one where `scale` is none.
fn station_text(plan: &str, scale: Option<&str>) -> String {
    let station = std::str::from_utf8(STATION).expect("letters and digits");
    let mut text = String::new();
    for line in station.lines() {
        let (word, numbers) = line.split_once(' ').expect("a word and numbers");
        let numbers = match word {
            "PLAN" => Some(plan),
            "SCAL" => scale,
            _ => Some(numbers),
        };
        if let Some(numbers) = numbers {
            text += &format!("{word} {numbers}\n");
        }
    }
    text
}

/// What the page says of the station with and without a SCAL line.
#[test]
fn the_station_without_a_scal_line() {
    let zeros = |count| " 00000000".repeat(count);
    let megawatts = format!("0000000A{} 00000008{}", zeros(2), zeros(10));
    let kilowatts = format!("00002710{} 00001F40{}", zeros(2), zeros(10));
    for (words, plan, scale) in [
        ("MW, `SCAL 00000001`", &megawatts, Some("00000001")),
        ("MW, no SCAL line", &megawatts, None),
        ("kW, no SCAL line", &kilowatts, None),
        ("kW, `SCAL 000003E8`", &kilowatts, Some("000003E8")),
        ("kW, `SCAL 00000000`", &kilowatts, Some("00000000")),
    ] {
        let line = run(station_text(plan, scale).as_bytes());
        let shown = format!("| the plan in {words} | `{}` |", line.trim_end());
        assert!(PAGE.contains(&shown), "the page lacks {shown}");
    }
    let in_file = station_text(&megawatts, Some("00000001"));
    assert_eq!(in_file.as_bytes(), STATION);
    said_of_text_is_shown(station_text(&megawatts, None).as_bytes());
}

/// A line of a table of changes on the page: an example's plan, data or multipliers
/// changed, and the answer, which the page names beside the change.
fn answers_as_shown(example: &[u8], words: &str, change: impl FnOnce(&mut Input)) {
    let line = answer_line(changed(example, change));
    let shown = format!("| {words} | `{}` |", line.trim_end());
    assert!(PAGE.contains(&shown), "the page lacks {shown}");
}

fn battery_answers(words: &str, change: impl FnOnce(&mut Input)) {
    answers_as_shown(BATTERY, words, change);
}

fn cable_answers(words: &str, change: impl FnOnce(&mut Input)) {
    answers_as_shown(CABLE, words, change);
}

fn season_answers(words: &str, change: impl FnOnce(&mut Input)) {
    answers_as_shown(SEASONS, words, change);
}

#[test]
fn answers_to_changes_of_the_battery_example() {
    battery_answers("column 89 (level in hour 0) 4000", |input| {
        input.plan[89] = 4000;
    });
    battery_answers("columns 73 and 74 (charge) 5 and 0, column 53 (surplus in hour 1) 1000, column 52 (surplus in hour 0) 0, columns 89 to 92 (level) 4000, 4000, 1000, 0", |input| {
        input.plan[73..75].copy_from_slice(&[5, 0]);
        input.plan[52..54].copy_from_slice(&[0, 1000]);
        input.plan[89..93].copy_from_slice(&[4000, 4000, 1000, 0]);
    });
    battery_answers("place 142 (energy capacity) 3999", |input| {
        input.data[142] = 3999;
    });
    battery_answers("row 215's multiplier 0", |input| {
        input.multipliers[215] = 0;
    });
    battery_answers("row 166's multiplier 14599999999", |input| {
        input.multipliers[166] = 14_599_999_999;
    });
    battery_answers("row 166's multiplier −1", |input| {
        input.multipliers[166] = -1;
    });
    battery_answers("row 138's multiplier −1 (family 21, wind)", |input| {
        input.multipliers[138] = -1;
    });
    battery_answers("place 29 (VRE of the battery) 1", |input| {
        input.data[29] = 1;
    });
}

/// Every number that the page prints of the battery example: places with their tables, entries and
/// multipliers; all entries and multipliers beside them are 0.
#[test]
fn the_numbers_of_the_battery_example() {
    let input = read_lines(BATTERY).expect("no Frame");
    let data = DataLayout::new(battery());
    for (table, first, numbers) in [
        (Table::Vre, 26, vec![1, 0, 0, 0]),
        (Table::GenCap, 30, vec![10, 8, 8, 4]),
        (Table::Duration, 9, vec![365; 4]),
        (Table::Demand, 110, vec![5, 7, 14, 12]),
        (Table::Battery, 131, vec![0, 0, 0, 1]),
        (Table::Efficiency, 135, vec![0, 0, 0, 800]),
        (Table::EnergyCapacity, 139, vec![0, 0, 0, 4000]),
    ] {
        let axes = TABLES[table as usize].axes;
        assert_eq!(data.index(table, &vec![0; axes.len()]), first, "{table:?}");
        assert_eq!(input.data[first..first + 4], numbers, "{table:?}");
    }
    let mut plan = vec![0; input.plan.len()];
    for (first, entries) in [
        (0, &[10, 8, 8, 4][..]),
        (12, &[10, 3, 2, 2, 0, 5, 8, 8, 0, 0, 1, 1, 0, 0, 3, 1]),
        (52, &[1000]),
        (73, &[4, 1]),
        (89, &[3200, 4000, 1000]),
    ] {
        plan[first..first + entries.len()].copy_from_slice(entries);
    }
    assert_eq!(input.plan, plan);
    let mut multipliers = vec![0; input.multipliers.len()];
    for (first, part) in [
        (1, &[14_600_000, 36_500_000, 36_500_000][..]),
        (19, &[21_900_000, 21_900_000]),
        (98, &[14_600_000, 36_500_000, 36_500_000]),
        (
            113,
            &[
                -8_980_000_000,
                -35_800_000_000,
                4_000_000_000,
                -9_600_000_000,
            ],
        ),
        (150, &[-18_250_000, -18_250_000, -36_500_000, -36_500_000]),
        (166, &[14_600_000_000]),
        (215, &[18_250_000]),
    ] {
        multipliers[first..first + part.len()].copy_from_slice(part);
    }
    assert_eq!(input.multipliers, multipliers);
}

/// Entries of a list by their places.
fn set<T: Copy>(list: &mut [T], numbers: &[(usize, T)]) {
    for &(place, number) in numbers {
        list[place] = number;
    }
}

/// The plan of the cable example with engines in the line's place.
fn without_line(input: &mut Input) {
    input.plan[88..104].fill(0);
    set(
        &mut input.plan,
        &[
            (1, 4200),
            (5, 4200),
            (3, 7200),
            (7, 3000),
            (13, 30_000),
            (15, 4200),
            (17, 33_000),
            (19, 7200),
            (31, 5000),
            (39, 5000),
            (69, 700_000),
            (71, 1_000_000),
        ],
    );
}

/// What the rows of the cable example are worth where no line is built.
fn worth_without_line(input: &mut Input) {
    set(
        &mut input.multipliers,
        &[
            (3, 1_375_000_000),
            (11, 720_000_000_000),
            (39, 500_000_000),
            (158, 0),
            (162, 0),
            (166, 0),
        ],
    );
}

#[test]
fn answers_to_changes_of_plan_and_data_of_the_cable_example() {
    cable_answers("columns 97 and 98 (total in year 1) 1000 each", |input| {
        input.plan[97..99].fill(1000);
    });
    cable_answers(
        "column 90 (built 1→0 in year 1) 874, columns 98 and 102 (total 1→0) 874 and 999",
        |input| set(&mut input.plan, &[(90, 874), (98, 874), (102, 999)]),
    );
    cable_answers("place 123 (line limit 0→1) 0", |input| {
        input.data[123] = 0
    });
    cable_answers(
        "columns 88, 96 and 100 (built and total 0→0) 1 each",
        |input| set(&mut input.plan, &[(88, 1), (96, 1), (100, 1)]),
    );
    cable_answers("columns 89, 90, 97 and 98 (built and total in year 1) 1000 each, columns 93 and 94 (built in year 2) 0", |input| {
        input.plan[89..91].fill(1000);
        input.plan[97..99].fill(1000);
        input.plan[93..95].fill(0);
    });
    cable_answers("no line", without_line);
    cable_answers("place 132 (line annuity 1→0) 0", |input| {
        input.data[132] = 0;
    });
    cable_answers("place 130 (line annuity 0→0) 1", |input| {
        input.data[130] = 1;
    });
    cable_answers(
        "place 127 (MW per line 0→1) and column 97 (total 0→1 in year 1) 4294967295 each",
        |input| {
            input.data[127] = u32::MAX;
            input.plan[97] = u32::MAX;
        },
    );
}

#[test]
fn answers_to_changes_of_multipliers_of_the_cable_example() {
    cable_answers("place 131 (line annuity 0→1) 800000000, no line, rows 3, 11 and 39's multipliers 1375000000, 720000000000 and 500000000, rows 158, 162 and 166's 0", |input| {
        input.data[131] = 800_000_000;
        without_line(input);
        worth_without_line(input);
    });
    cable_answers(
        "place 131 (line annuity 0→1) 720000000, the same multipliers",
        |input| {
            input.data[131] = 720_000_000;
            without_line(input);
            worth_without_line(input);
        },
    );
    cable_answers("row 166's multiplier 359999999999", |input| {
        input.multipliers[166] = 359_999_999_999;
    });
    cable_answers("row 11's multiplier 600000000001", |input| {
        input.multipliers[11] = 600_000_000_001;
    });
    cable_answers("row 166's multiplier −1", |input| {
        input.multipliers[166] = -1;
    });
    cable_answers("row 171's multiplier −1 (family 28, 1→0)", |input| {
        input.multipliers[171] = -1;
    });
}

/// The page has what explain says of two of these changes.
#[test]
fn the_cable_example_explained() {
    let mut first = read_lines(CABLE).expect("no Frame");
    first.plan[97..99].fill(1000);
    let mut third = read_lines(CABLE).expect("no Frame");
    third.data[123] = 0;
    for input in [first, third] {
        sentence_is_shown(input);
    }
}

/// The page has what explain says of an input.
fn sentence_is_shown(input: Input) {
    let case = Case {
        scale: input.scale(),
        data: input.data,
        plan: input.plan,
        multipliers: input.multipliers,
        ..Case::default()
    };
    said_of_text_is_shown(&join(&plain_lines(&case, 64)));
}

/// The page has what explain says of a text.
fn said_of_text_is_shown(text: &[u8]) {
    let lines = String::from_utf8(explain(text)).expect("ASCII");
    let sentence = lines.lines().nth(1).expect("two lines");
    assert!(PAGE.contains(sentence), "the page lacks {sentence}");
}

/// What the page prints of the cable example: places with their tables, entries and
/// multipliers; all entries and multipliers beside them are 0.
#[test]
fn the_numbers_of_the_cable_example() {
    let input = read_lines(CABLE).expect("no Frame");
    let data = DataLayout::new(cable());
    for (table, first, numbers) in [
        (Table::ReturnRate, 7, vec![1000, 600]),
        (Table::Weight, 9, vec![5, 5]),
        (Table::Duration, 11, vec![6260, 2500]),
        (Table::GenCap, 22, vec![45, 0]),
        (Table::MaxNewCap, 26, vec![0, 20]),
        (Table::Demand, 64, vec![18, 25, 3, 9, 20, 28, 3, 12]),
        (Table::Tl, 82, vec![0, 5, 5, 0, 0, 5, 5, 0]),
        (Table::Loss, 90, vec![0, 40, 40, 0, 0, 40, 40, 0]),
        (Table::ResVoll, 112, vec![10_000]),
        (Table::LineLimit, 122, vec![0, 1, 1, 0]),
        (Table::LineMw, 126, vec![0, 5, 5, 0]),
        (
            Table::LineAnnuity,
            130,
            vec![0, 600_000_000, 600_000_000, 0],
        ),
    ] {
        let axes = TABLES[table as usize].axes;
        assert_eq!(data.index(table, &vec![0; axes.len()]), first, "{table:?}");
        let end = first + numbers.len();
        assert_eq!(input.data[first..end], numbers, "{table:?}");
    }
    let mut plan = vec![0; input.plan.len()];
    for (first, entries) in [
        (0, &[45_000, 0, 45_000, 2400][..]),
        (7, &[2400]),
        (12, &[21_125, 34_375, 0, 0, 23_125, 38_000, 0, 2400]),
        (30, &[3125, 9375]),
        (38, &[3125, 10_000]),
        (69, &[4_900_000, 0, 5_800_000]),
        (89, &[875, 875]),
        (93, &[125, 125]),
        (97, &[875, 875]),
        (101, &[1000, 1000]),
    ] {
        plan[first..first + entries.len()].copy_from_slice(entries);
    }
    assert_eq!(input.plan, plan);
    let mut multipliers = vec![0; input.multipliers.len()];
    let balance = [
        1_502_400_000,
        600_000_000,
        1_565_000_000,
        1_250_000_000,
        901_440_000,
        360_000_000,
        939_000_000,
        825_000_000,
    ];
    multipliers[..balance.len()].copy_from_slice(&balance);
    set(
        &mut multipliers,
        &[
            (11, 600_000_000_000),
            (19, 432_000_000_000),
            (33, 50_000_000),
            (35, 30_000_000),
            (39, 375_000_000),
            (43, 300_000_000),
            (158, -360_000_000_000),
            (162, -360_000_000_000),
            (166, 360_000_000_000),
        ],
    );
    assert_eq!(input.multipliers, multipliers);
}

/// The simplex finds this least cost, in money units.
fn is_least_cost(data: &[u32], cost: i128) {
    let model = Model::read(data).expect("sound data");
    let found = optimum(&model).expect("an optimum");
    let mut least = Fraction::ZERO;
    for (column, &entry) in found.entries.iter().enumerate() {
        let price = Fraction::whole(model.price(column));
        let part = entry.times(price).expect("128 bits");
        least = least.plus(part).expect("128 bits");
    }
    let millionths = 1_000_000 * cost;
    assert_eq!((least.numerator, least.denominator), (millionths, 1));
}

/// The cable example was worked out by hand; the simplex finds the same least cost, and the
/// page's least costs at the other annuities.
#[test]
fn the_cable_example_is_of_least_cost() {
    for (annuity, cost) in [
        (600_000_000, 93_785_000),
        (720_000_000, 94_670_000),
        (800_000_000, 94_670_000),
    ] {
        let mut input = read_lines(CABLE).expect("no Frame");
        input.data[131] = annuity;
        is_least_cost(&input.data, cost);
    }
}

/// Cap and build of the engines of the season example.
fn set_engines(input: &mut Input, mw: u32) {
    set(&mut input.plan, &[(1, mw), (3, mw)]);
}

/// The earlier plan and the new one, each with the earlier multipliers, in which row 17 has 0.
#[test]
fn answers_to_the_earlier_plan_and_multipliers_of_the_season_example() {
    season_answers(
        "columns 1 and 3 (cap and build of the engines) 0, row 17's multiplier 0",
        |input| {
            set_engines(input, 0);
            input.multipliers[17] = 0;
        },
    );
    season_answers("row 17's multiplier 0", |input| input.multipliers[17] = 0);
    season_answers(
        "columns 1 and 3 0, column 35 (firmshort in zone 1) 4800000, row 17's multiplier 0",
        |input| {
            set_engines(input, 0);
            input.plan[35] = 4_800_000;
            input.multipliers[17] = 0;
        },
    );
    season_answers(
        "columns 1 and 3 0, column 35 (firmshort in zone 1) 4800000",
        |input| {
            set_engines(input, 0);
            input.plan[35] = 4_800_000;
        },
    );
}

#[test]
fn answers_to_changes_of_the_season_example() {
    season_answers(
        "columns 1 and 3 (cap and build of the engines) 4799",
        |input| set_engines(input, 4799),
    );
    season_answers("place 72 (TL 0→1 in the wet season) 5", |input| {
        input.data[72] = 5;
    });
    season_answers("place 72 (TL 0→1 in the wet season) 10", |input| {
        input.data[72] = 10;
    });
    season_answers("place 71 (TL 0→1 in the dry season) 12", |input| {
        input.data[71] = 12;
    });
    season_answers("place 74 (TL 1→0 in the wet season) 0", |input| {
        input.data[74] = 0;
    });
    season_answers("row 17's multiplier 110000001", |input| {
        input.multipliers[17] = 110_000_001;
    });
}

/// The page has what explain says of the earlier plan.
#[test]
fn the_season_example_explained() {
    let mut input = read_lines(SEASONS).expect("no Frame");
    set_engines(&mut input, 0);
    input.multipliers[17] = 0;
    sentence_is_shown(input);
}

/// What the page prints of the season example: places with their tables, entries and
/// multipliers; all entries and multipliers beside them are 0.
#[test]
fn the_numbers_of_the_season_example() {
    let input = read_lines(SEASONS).expect("no Frame");
    let data = DataLayout::new(seasons());
    for (table, first, numbers) in [
        (Table::ReturnRate, 7, vec![1000]),
        (Table::Weight, 8, vec![1]),
        (Table::Duration, 9, vec![5000, 3760]),
        (Table::GenCap, 21, vec![45, 0]),
        (Table::MaxNewCap, 25, vec![0, 20]),
        (Table::CapCredit, 37, vec![1000, 1000]),
        (Table::Annuity, 53, vec![0, 90_000_000]),
        (Table::FixedOm, 55, vec![0, 20_000_000]),
        (Table::GenCost, 57, vec![48_000, 70_000]),
        (Table::Demand, 59, vec![25, 20, 9, 3]),
        (Table::Prm, 67, vec![200, 200]),
        (Table::Tl, 69, vec![0, 0, 10, 6, 10, 6, 0, 0]),
        (Table::Loss, 77, vec![0, 40, 40, 0]),
        (Table::ResVoll, 89, vec![150_000]),
    ] {
        let axes = TABLES[table as usize].axes;
        assert_eq!(data.index(table, &vec![0; axes.len()]), first, "{table:?}");
        let end = first + numbers.len();
        assert_eq!(input.data[first..end], numbers, "{table:?}");
    }
    assert_eq!(input.scale, Some(1000));
    let mut plan = vec![0; input.plan.len()];
    set(&mut plan, &[(0, 45_000), (1, 4800), (3, 4800)]);
    set(
        &mut plan,
        &[(6, 34_375), (7, 23_125), (16, 9375), (17, 3125)],
    );
    assert_eq!(input.plan, plan);
    let mut multipliers = vec![0; input.multipliers.len()];
    let balance = [240_000_000, 180_480_000, 250_000_000, 188_000_000];
    multipliers[..balance.len()].copy_from_slice(&balance);
    multipliers[17] = 110_000_000;
    assert_eq!(input.multipliers, multipliers);
}

/// The season example was worked out by hand; the simplex finds the same least cost, and that
/// 4 MW of engines fewer are needed where the cable carries 10 MW in both seasons.
#[test]
fn the_season_example_is_of_least_cost() {
    for (wet, cost) in [(6, 12_951_600), (10, 12_511_600)] {
        let mut input = read_lines(SEASONS).expect("no Frame");
        input.data[72] = wet;
        is_least_cost(&input.data, cost);
    }
}

/// The same plan rounded to whole MW: what comes too much is surplus, in kW.
#[test]
fn the_plan_at_scale_1() {
    let columns = ColumnLayout::new(two_zones());
    let rounded = |input: &mut Input| {
        input.scale = Some(1);
        let mut set =
            |column, indices: &[usize], entry| input.plan[columns.index(column, indices)] = entry;
        for (g, cap) in [(0, 30), (1, 8)] {
            set(Column::Cap, &[0, g], cap);
        }
        set(Column::Build, &[0, 1], 8);
        for (s, gen) in [(0, 15), (1, 24)] {
            set(Column::Gen, &[0, 0, s], gen);
            set(Column::Reserve, &[0, 0, s], 2);
        }
        for (s, gen) in [(0, 4), (1, 0)] {
            set(Column::Gen, &[0, 1, s], gen);
        }
        for (s, trans) in [(0, 3), (1, 9)] {
            set(Column::Trans, &[0, 0, 1, s], trans);
        }
        for (s, surplus) in [(0, 880), (1, 640)] {
            set(Column::Surplus, &[0, 1, s], surplus);
        }
    };
    assert_eq!(answer(rounded), Ok((12_510_080_000_000, 1_544_040_000_000)));
}
