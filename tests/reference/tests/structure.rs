//! Numbers of data, columns and rows, and the rows against column formulas
//! written apart from them.

use epm_reference::calls::column_loads;
use epm_reference::check;
use epm_reference::columns::{Column, ColumnLayout, COLUMNS};
use epm_reference::data::{Data, DataLayout, Table, TABLES};
use epm_reference::generator::random::Random;
use epm_reference::generator::{shape, sound_case, LARGEST_COUNTS};
use epm_reference::model::Model;
use epm_reference::rows::{RowLayout, FAMILIES, NO_NUMBER};
use epm_reference::shape::Shape;
use std::cmp::Ordering;

fn shapes(count: u64) -> Vec<Shape> {
    let mut random = Random::new(11);
    let mut shapes = vec![Shape::new([1; 7]), Shape::new([2, 3, 4, 3, 2, 5, 3])];
    shapes.extend((0..count).map(|_| shape(&mut random)));
    shapes
}

#[test]
fn lists_of_tables_are_in_the_order_of_their_numbers() {
    for (place, entry) in TABLES.iter().enumerate() {
        assert_eq!(entry.table as usize, place);
    }
    for (place, entry) in COLUMNS.iter().enumerate() {
        assert_eq!(entry.column as usize, place);
    }
    for (place, family) in FAMILIES.iter().enumerate() {
        assert_eq!(family.number, place + 1);
    }
}

/// The equation numbers and equality flags of document 01's list and of requests (i) and
/// (ii); the source prints the rows of lines without a number.
#[test]
fn families_have_the_equations_of_the_page() {
    let equations = [
        14, 15, 19, 21, 22, 23, 24, 25, 26, 27, 28, 34, 37, 61, 55, 58, 62, 64, 66, 68, 43, 45, 47,
        48, 46, NO_NUMBER, NO_NUMBER, NO_NUMBER,
    ];
    assert_eq!(FAMILIES.each_ref().map(|family| family.equation), equations);
    let equalities: Vec<usize> = FAMILIES
        .iter()
        .filter(|family| family.equality)
        .map(|family| family.number)
        .collect();
    assert_eq!(equalities, [1, 12, 21, 26, 28]);
}

#[test]
fn largest_shape_has_its_numbers() {
    let shape = Shape::new(LARGEST_COUNTS);
    // Document 01's, by request (i) five families and two tables of [y,g,s], and by
    // request (ii) two families and two tables of [y,z,z2] and a family of [z,z2].
    let by_plant_and_slice = 10 * 32 * 384;
    let by_pair = 8 * 8;
    let by_year_and_pair = 10 * by_pair;
    assert_eq!(
        RowLayout::new(shape).count(),
        1_047_883 + 5 * by_plant_and_slice + 2 * by_year_and_pair + by_pair
    );
    assert_eq!(
        ColumnLayout::new(shape).count(),
        584_720 + 2 * by_plant_and_slice + 2 * by_year_and_pair
    );
}

#[test]
fn one_of_each_has_its_numbers() {
    let shape = Shape::new([1; 7]);
    assert_eq!(DataLayout::new(shape).length(), 55);
    assert_eq!(ColumnLayout::new(shape).count(), 14);
    assert_eq!(RowLayout::new(shape).count(), 28);
}

/// Walks each index set with the last index fastest and counts.
#[test]
fn numbers_count_without_gaps() {
    for shape in shapes(40) {
        let data = DataLayout::new(shape);
        let mut next = 7;
        for entry in &TABLES {
            for place in 0..shape.size(entry.axes) {
                let indices = shape.indices(entry.axes, place);
                assert_eq!(data.index(entry.table, &indices), next);
                assert_eq!(data.locate(next), Some((entry.table, indices)));
                next += 1;
            }
        }
        assert_eq!(data.length(), next);

        let columns = ColumnLayout::new(shape);
        let mut next = 0;
        for entry in &COLUMNS {
            for place in 0..shape.size(entry.axes) {
                let indices = shape.indices(entry.axes, place);
                assert_eq!(columns.index(entry.column, &indices), next);
                assert_eq!(columns.locate(next), Some((entry.column, indices)));
                next += 1;
            }
        }
        assert_eq!(columns.count(), next);
        assert_eq!(columns.locate(next), None);

        let rows = RowLayout::new(shape);
        let mut next = 0;
        for family in &FAMILIES {
            for place in 0..shape.size(family.axes) {
                let indices = shape.indices(family.axes, place);
                assert_eq!(rows.index(family.number, &indices), next);
                assert_eq!(rows.locate(next), Some((family.number, indices)));
                next += 1;
            }
        }
        assert_eq!(rows.count(), next);
        assert_eq!(rows.locate(next), None);
    }
}

/// The last index runs fastest: places worked out by hand.
#[test]
fn last_index_runs_fastest() {
    let shape = Shape::new([2, 3, 4, 3, 2, 5, 3]);
    let slices = 30;
    let columns = ColumnLayout::new(shape);
    let by_plant = 3 * 3;
    let dispatch = 3 * 3 * slices;
    let gen = columns.index(Column::Gen, &[1, 2, 7]);
    assert_eq!(gen, 3 * by_plant + (3 + 2) * slices + 7);
    let trans = columns.index(Column::Trans, &[2, 1, 0, 29]);
    let expected = 3 * by_plant + 2 * dispatch + ((2 * 2 + 1) * 2) * slices + 29;
    assert_eq!(trans, expected);
    // s = (q·D + d)·T + t with q 2, d 1, t 3.
    let slice = (2 * 2 + 1) * 5 + 3;
    assert_eq!(shape.season_of(slice), 2);
    assert_eq!(shape.day_of(slice), 1);
    assert_eq!(shape.hour_of(slice), 3);
    assert_eq!(shape.slices_of_season(1), 10..20);
}

#[test]
fn names_tell_family_and_indices() {
    let shape = Shape::new([2, 3, 4, 3, 2, 5, 3]);
    let rows = RowLayout::new(shape);
    let row = rows.index(7, &[1, 2, 9]);
    assert_eq!(rows.name(row), "7 ramp down (24)[y 1, g 2, s 9]");
    assert_eq!(rows.name(rows.index(18, &[])), "18 capital (64)");
    let lines = rows.index(27, &[1, 0]);
    assert_eq!(rows.name(lines), "27 new lines[z 1, z2 0]");
    let columns = ColumnLayout::new(shape);
    let column = columns.index(Column::Trans, &[0, 1, 0, 4]);
    assert_eq!(columns.name(column), "trans[y 0, z 1, z2 0, s 4]");
    assert_eq!(
        columns.name(columns.count()),
        format!("no column {}", columns.count())
    );
}

#[test]
fn no_row_names_a_column_twice() {
    for (seed, shape) in shapes(30).into_iter().enumerate() {
        let case = sound_case(shape, seed as u64);
        let model = Model::read(&case.data).expect("sound data");
        for number in 0..model.rows.count() {
            let row = model.row(number);
            let mut columns: Vec<usize> = row.terms.iter().map(|term| term.0).collect();
            let terms = columns.len();
            columns.sort_unstable();
            columns.dedup();
            assert_eq!(columns.len(), terms, "{}", model.rows.name(number));
            assert!(row.terms.iter().all(|term| term.1 != 0));
            assert!(columns.iter().all(|&column| column < model.columns.count()));
        }
    }
}

/// Σ m·a of a column, written column by column: which rows the column stands in
/// and with which coefficient.
fn load_by_column(data: &Data, m: &dyn Fn(usize, &[usize]) -> i128, column: usize) -> i128 {
    let columns = ColumnLayout::new(data.shape);
    let (table, i) = columns.locate(column).expect("a column");
    let shape = data.shape;
    let last_year = shape.years - 1;
    match table {
        Column::Cap => {
            let (y, g) = (i[0], i[1]);
            let z = data.zone_of(g);
            let mut load = data.at(Table::CapCredit, &[g]) * m(4, &[y, z]);
            for s in 0..shape.slices() {
                load += (1000 + data.at(Table::OverLoad, &[g])) * m(5, &[y, g, s]);
                load += data.at(Table::ResOffer, &[g]) * m(6, &[y, g, s]);
                if shape.hour_of(s) != 0 {
                    load += data.at(Table::RampDn, &[g]) * m(7, &[y, g, s]);
                    load += data.at(Table::RampUp, &[g]) * m(8, &[y, g, s]);
                }
                let day = [shape.season_of(s), shape.day_of(s)];
                if data.at(Table::MinimumLoadDay, &day) == 1 {
                    load -= data.at(Table::MinCapFac, &[g]) * m(9, &[y, g, s]);
                }
                let available = data.at(Table::Availability, &[g, shape.season_of(s)]);
                let hours = data.at(Table::Duration, &[s]);
                load += available * hours * m(10, &[y, g, shape.season_of(s)]);
                if data.at(Table::Vre, &[g]) == 1 {
                    load += data.at(Table::Profile, &[g, s]) * m(11, &[y, g, s]);
                }
                if data.at(Table::Battery, &[g]) == 1 {
                    load += m(22, &[y, g, s]);
                    if shape.hour_of(s) != 0 {
                        load += data.at(Table::RampDn, &[g]) * m(23, &[y, g, s]);
                        load += data.at(Table::RampUp, &[g]) * m(24, &[y, g, s]);
                    }
                }
            }
            load += m(12, &[y, g]);
            if y < last_year {
                load -= m(12, &[y + 1, g]);
            }
            let year = data.at(Table::Year, &[g]);
            if data.at(Table::Kind, &[g]) == 1 {
                if y as i128 + 1 < year {
                    load -= m(13, &[y, g]);
                }
                let rate = data.at(Table::ReturnRate, &[y]) * data.at(Table::Weight, &[y]);
                load -= rate * data.at(Table::Annuity, &[y, g]) * m(18, &[]);
            } else if y as i128 + 1 >= year {
                load -= m(13, &[y, g]);
            }
            load
        }
        Column::Build => {
            let (y, g) = (i[0], i[1]);
            match data.at(Table::Kind, &[g]) {
                1 => -m(12, &[y, g]) - m(15, &[g]) - m(16, &[y, g]),
                _ => -m(14, &[y, g]),
            }
        }
        Column::Retire => {
            let (y, g) = (i[0], i[1]);
            match (data.at(Table::Kind, &[g]), y) {
                (1, _) | (0, 0) => -m(14, &[y, g]),
                _ => m(12, &[y, g]),
            }
        }
        Column::Gen => {
            let (y, g, s) = (i[0], i[1], i[2]);
            let z = data.zone_of(g);
            let hours = data.at(Table::Duration, &[s]);
            let vre = data.at(Table::Vre, &[g]) == 1;
            let mut load = 1000 * (m(1, &[y, z, s]) - m(5, &[y, g, s]));
            if vre {
                load -= data.at(Table::Err, &[]) * m(3, &[y, z, s]);
                load -= 1000 * m(11, &[y, g, s]);
            }
            if shape.hour_of(s) > 0 {
                load += 1000 * (m(7, &[y, g, s]) - m(8, &[y, g, s]));
            }
            if shape.hour_of(s) + 1 < shape.hours {
                load += 1000 * (m(8, &[y, g, s + 1]) - m(7, &[y, g, s + 1]));
            }
            let day = [shape.season_of(s), shape.day_of(s)];
            if data.at(Table::MinimumLoadDay, &day) == 1 {
                load += 1000 * m(9, &[y, g, s]);
            }
            load -= 1000 * hours * m(10, &[y, g, shape.season_of(s)]);
            let fuel = data.fuel_of(g);
            load -= hours * data.at(Table::HeatRate, &[g]) * m(17, &[y, z, fuel]);
            if data.at(Table::Battery, &[g]) == 1 {
                load += 1000 * m(21, &[y, g, s]);
            }
            let emitted = hours * data.at(Table::Emission, &[g]);
            load - emitted * (m(19, &[y, z]) + m(20, &[y]))
        }
        Column::Reserve => {
            let (y, g, s) = (i[0], i[1], i[2]);
            let z = data.zone_of(g);
            1000 * (m(3, &[y, z, s]) - m(5, &[y, g, s]) - m(6, &[y, g, s]))
        }
        Column::Trans => {
            let (y, z, z2, s) = (i[0], i[1], i[2], i[3]);
            let limit = m(2, &[y, z, z2, s]);
            if z == z2 {
                return -limit;
            }
            // The sender gives up 1000 a unit; the loss lessens what z2 receives.
            let received = 1000 - data.at(Table::Loss, &[y, z, z2]);
            let balance = received * m(1, &[y, z2, s]) - 1000 * m(1, &[y, z, s]);
            balance - limit - 1000 * m(3, &[y, z2, s])
        }
        Column::Unmet => m(1, &i),
        Column::Surplus => -m(1, &i),
        Column::SpinShort => m(3, &i),
        Column::FirmShort => m(4, &i),
        Column::Charge => {
            let (y, g, s) = (i[0], i[1], i[2]);
            let mut load = -1000 * m(1, &[y, data.zone_of(g), s]) - m(22, &[y, g, s]);
            if data.at(Table::Battery, &[g]) == 0 {
                return load;
            }
            load -= data.at(Table::Efficiency, &[g]) * m(21, &[y, g, s]);
            if shape.hour_of(s) > 0 {
                load += 1000 * (m(24, &[y, g, s]) - m(23, &[y, g, s]));
            }
            if shape.hour_of(s) + 1 < shape.hours {
                load += 1000 * (m(23, &[y, g, s + 1]) - m(24, &[y, g, s + 1]));
            }
            load
        }
        Column::Level => {
            let (y, g, s) = (i[0], i[1], i[2]);
            let limit = m(25, &[y, g, s]);
            if data.at(Table::Battery, &[g]) == 0 {
                return -limit;
            }
            // What a day's last hour leaves is lost.
            let next = match shape.hour_of(s) + 1 < shape.hours {
                true => m(21, &[y, g, s + 1]),
                false => 0,
            };
            m(21, &[y, g, s]) - next - limit
        }
        Column::Built => {
            let (y, z, z2) = (i[0], i[1], i[2]);
            -m(26, &[y, z, z2]) - m(27, &[z, z2])
        }
        Column::Total => {
            let (y, z, z2) = (i[0], i[1], i[2]);
            // A line adds to what flows from z to z2, and to the reserve of z2.
            let slices = 0..shape.slices();
            let flow: i128 = slices.clone().map(|s| m(2, &[y, z, z2, s])).sum();
            let reserve: i128 = slices.map(|s| m(3, &[y, z2, s])).sum();
            let mw = data.at(Table::LineMw, &[z, z2]);
            let mut load = mw * (flow + 1000 * reserve) + m(26, &[y, z, z2]);
            if y < last_year {
                load -= m(26, &[y + 1, z, z2]);
            }
            match z.cmp(&z2) {
                Ordering::Less => load + m(28, &[y, z, z2]),
                Ordering::Equal => load,
                Ordering::Greater => load - m(28, &[y, z2, z]),
            }
        }
    }
}

/// The rows re-added through the columns give the column formulas above.
#[test]
fn rows_and_columns_give_one_bilinear_form() {
    let mut random = Random::new(5);
    for (seed, shape) in shapes(60).into_iter().enumerate() {
        let case = sound_case(shape, 1000 + seed as u64);
        let model = Model::read(&case.data).expect("sound data");
        let multipliers: Vec<i64> = (0..model.rows.count())
            .map(|_| random.signed(-(1 << 40), 1 << 40) as i64)
            .collect();
        let by_row = column_loads(&model, &multipliers);
        let m = |family: usize, indices: &[usize]| {
            i128::from(multipliers[model.rows.index(family, indices)])
        };
        for (column, load) in by_row.iter().enumerate() {
            let expected = load_by_column(&model.data, &m, column);
            assert_eq!(load.value(), expected, "{}", model.columns.name(column));
        }
    }
}

/// The constants of the rows, family by family, from the data list itself.
#[test]
fn constants_are_those_of_the_page() {
    for (seed, shape) in shapes(30).into_iter().enumerate() {
        let case = sound_case(shape, 2000 + seed as u64);
        let model = Model::read(&case.data).expect("sound data");
        let data = &model.data;
        for number in 0..model.rows.count() {
            let (family, i) = model.rows.locate(number).expect("a row");
            let expected = constant(data, family, &i);
            assert_eq!(
                model.row(number).constant,
                expected,
                "{}",
                model.rows.name(number)
            );
        }
    }
}

fn constant(data: &Data, family: usize, i: &[usize]) -> i128 {
    let shape = data.shape;
    let links_into = |y: usize, z: usize, q: usize| -> i128 {
        (0..shape.zones)
            .filter(|&z2| z2 != z)
            .map(|z2| data.at(Table::Tl, &[y, z2, z, q]))
            .sum()
    };
    // Within one zone TL is 0 in every season.
    let lowest = |y: usize, z: usize, z2: usize| -> i128 {
        let mut limits: Vec<i128> = (0..shape.seasons)
            .map(|q| data.at(Table::Tl, &[y, z, z2, q]))
            .collect();
        limits.sort();
        limits[0]
    };
    match family {
        1 => -(data.at(Table::Demand, i) * data.at(Table::Ee, &i[..2])),
        2 => data.at(Table::Tl, &[i[0], i[1], i[2], shape.season_of(i[3])]),
        3 => 1000 * (links_into(i[0], i[1], shape.season_of(i[2])) - data.at(Table::SRes, &i[..2])),
        4 => {
            let links: i128 = (0..shape.zones).map(|z2| lowest(i[0], z2, i[1])).sum();
            let demand = (0..shape.slices()).map(|s| data.at(Table::Demand, &[i[0], i[1], s]));
            let peak = demand.max().expect("a slice");
            1000 * links - (1000 + data.at(Table::Prm, &i[1..])) * peak
        }
        12 if i[0] == 0 => -data.at(Table::GenCap, &i[1..]),
        15 => data.at(Table::MaxNewCap, i),
        16 if data.at(Table::Kind, &i[1..]) == 1 => {
            data.at(Table::BuildLimit, &i[..1]) * data.at(Table::Weight, &i[..1])
        }
        17 => 1000 * data.at(Table::MaxFuel, &[i[0], i[2]]),
        18 => 1_000_000_000 * data.at(Table::MaxCapital, &[]),
        19 => 1000 * data.at(Table::ZoneCap, i),
        20 => 1000 * data.at(Table::SystemCap, i),
        25 if data.at(Table::Battery, &i[1..2]) == 1 => data.at(Table::EnergyCapacity, &i[1..2]),
        27 => data.at(Table::LineLimit, i),
        _ => 0,
    }
}

/// The price of a column in millionths, from the data's own units: mills per MW,
/// per MWh, per kW, per kWh and per line, times the year's weight in thousandths.
fn price(data: &Data, column: Column, i: &[usize]) -> i128 {
    let year = i[0];
    let weight = data.at(Table::ReturnRate, &[year]) * data.at(Table::Weight, &[year]);
    let hours = |place: usize| data.at(Table::Duration, &[i[place]]);
    let mills = match column {
        Column::Cap if data.at(Table::Kind, &[i[1]]) == 0 => data.at(Table::FixedOm, i),
        Column::Cap => data.at(Table::FixedOm, i) + data.at(Table::Annuity, i),
        Column::Gen => {
            let taxed = data.at(Table::Tax, &[year]) * data.at(Table::Emission, &[i[1]]);
            hours(2) * data.at(Table::GenCost, &i[..2]) + hours(2) * taxed
        }
        Column::Reserve => hours(2) * data.at(Table::ResCost, &[i[1]]),
        Column::Unmet => hours(2) * data.at(Table::Voll, &[]),
        Column::Surplus => hours(2) * data.at(Table::SurplusPenalty, &[]),
        Column::SpinShort => hours(2) * data.at(Table::SresVoll, &[]),
        Column::FirmShort => data.at(Table::ResVoll, &[]),
        Column::Build | Column::Retire | Column::Trans => 0,
        Column::Charge | Column::Level | Column::Built => 0,
        Column::Total if i[1] < i[2] => data.at(Table::LineAnnuity, &i[1..]),
        Column::Total => 0,
    };
    weight * mills
}

#[test]
fn prices_and_cost_are_those_of_the_page() {
    for (seed, shape) in shapes(40).into_iter().enumerate() {
        let case = sound_case(shape, 3000 + seed as u64);
        let model = Model::read(&case.data).expect("sound data");
        let mut cost = 0;
        for (number, &entry) in case.plan.iter().enumerate() {
            let (column, i) = model.columns.locate(number).expect("a column");
            let expected = price(&model.data, column, &i);
            assert_eq!(
                model.price(number),
                expected,
                "{}",
                model.columns.name(number)
            );
            cost += expected * i128::from(entry);
        }
        let answer = check(&case.data, case.scale, &case.plan).expect("a sound plan");
        assert_eq!(i128::from(answer), cost);
    }
}
