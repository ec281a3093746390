//! The explain program's sentences, written out by hand.

use epm_reference::columns::Column;
use epm_reference::coverage::text;
use epm_reference::data::{DataLayout, Table};
use epm_reference::explain;
use epm_reference::generator::draft::{Case, Draft};
use epm_reference::generator::frames::{join, plain_lines, without_scale_line};
use epm_reference::generator::stations::stations;
use epm_reference::generator::thousandths::station_text;
use epm_reference::generator::{case, sound_case};
use epm_reference::program::{read_lines, Input};
use epm_reference::rows::RowLayout;
use epm_reference::run;
use epm_reference::shape::Shape;

const BATTERY: &[u8] = include_bytes!("../../../examples/battery.txt");

/// The bytes that the program has room for (`crates/explain`).
const ROOM: usize = 1024;

/// The two lines for a text.
fn explained(text: &[u8]) -> String {
    String::from_utf8(explain(text)).expect("ASCII")
}

/// How every sentence ends that is not of a Frame, where the scale was read from a SCAL line.
fn from_scal(scale: u32) -> String {
    format!("; the scale N is {scale}, from the SCAL line\n")
}

/// How it ends where there is no SCAL line.
const BY_DEFAULT: &str = "; the scale N is 1000, the default where there is no SCAL line\n";

/// The two lines for a case without how they end, which is the case's scale: its SCAL line is
/// written.
fn said(case: &Case) -> String {
    let lines = explained(&join(&plain_lines(case, 64)));
    let before = lines.strip_suffix(&from_scal(case.scale));
    before.expect(&lines).to_string()
}

/// The first station with a change, said as above.
fn station(change: impl FnOnce(&mut Case)) -> String {
    let mut case = stations()[0].case();
    change(&mut case);
    said(&case)
}

/// Two zones, plants, fuels, seasons and days, three hours, two years.
const SHAPE: [usize; 7] = [2, 2, 2, 2, 2, 3, 2];

/// Season 2, day 1, hour 3 of that shape, counted from 0.
const SLICE: usize = 8;

/// A sound case of that shape with one entry of the data changed.
fn with_entry(table: Table, indices: &[usize], value: u32) -> String {
    let shape = Shape::new(SHAPE);
    let mut case = sound_case(shape, 1);
    case.data[DataLayout::new(shape).index(table, indices)] = value;
    said(&case)
}

/// A sound case of that shape with the multiplier of one row −1.
fn with_multiplier(family: usize, indices: &[usize]) -> String {
    let shape = Shape::new(SHAPE);
    let mut case = sound_case(shape, 1);
    case.multipliers[RowLayout::new(shape).index(family, indices)] = -1;
    said(&case)
}

/// The sentence without the line of certify and the words before the table's or
/// the equation's name.
fn from<'a>(lines: &'a str, name: &str) -> &'a str {
    let sentence = lines.lines().nth(1).expect("two lines");
    &sentence[sentence.find(name).expect(name)..]
}

#[test]
fn the_refused_stations() {
    let lines = stations().map(|station| explained(&station.text()));
    assert_eq!(lines[3], "R 12 3\nUnderpriced: column 3, gen, year 1, plant 1, season 1, day 1, hour 1: its terms m*a come to 5000001000 above zero and 0 below, its price is 5000000000, so it is underpriced by 1000; the scale N is 1, from the SCAL line\n");
    assert_eq!(lines[6], "R 7 0\nBroken: row 0, equation (14) demand balance, year 1, zone 1, season 1, day 1, hour 1: its positive terms come to 7999, its negative terms to 8000, and the two must be equal; the scale N is 1, from the SCAL line\n");
    assert_eq!(lines[8], "R 7 4\nBroken: row 4, equation (22) output and reserve, year 1, plant 1, season 1, day 1, hour 1: its positive terms come to 10000, its negative terms to 11000, and the first must not be less; the scale N is 1, from the SCAL line\n");
    assert_eq!(lines[9], "R 7 11\nBroken: row 11, equation (34) capacity balance, year 1, plant 1: its positive terms come to 11, its negative terms to 10, and the two must be equal; the scale N is 1, from the SCAL line\n");
}

#[test]
fn the_accepted_stations() {
    let lines = stations().map(|station| explained(&station.text()));
    assert_eq!(lines[0], "A 40000000000 0\nAccepted: the plan costs 40000000000 and no other plan costs less by more than 0, in millionths of a money unit times N; the scale N is 1, from the SCAL line\n");
    assert_eq!(lines[4], "A 80000000000 0\nAccepted: the plan costs 80000000000 and no other plan costs less by more than 0, in millionths of a money unit times N; the scale N is 2, from the SCAL line\n");
    for (station, lines) in stations().iter().zip(lines) {
        let accepted = lines.contains("\nAccepted: ");
        assert_eq!(accepted, station.certified.is_ok(), "{lines}");
    }
}

#[test]
fn refusals_of_the_data() {
    assert_eq!(
        station(|case| case.data[0] = 9),
        "R 1 0\nShape: entry 0 of DATA, the number of zones: it is 9 and must be from 1 to 8"
    );
    assert_eq!(
        station(|case| case.data[6] = 0),
        "R 1 6\nShape: entry 6 of DATA, the number of years: it is 0 and must be from 1 to 10"
    );
    assert_eq!(
        station(|case| case.data.truncate(54)),
        "R 2 55\nData length: DATA has 54 numbers and must have 55"
    );
    assert_eq!(
        station(|case| case.data[8] = 21),
        "R 3 8\nEntry: entry 8 of DATA, V, year 1: it is 21 and must be from 1 to 20"
    );
    assert_eq!(
        station(|case| case.data[49] = 2),
        "R 3 49\nEntry: entry 49 of DATA, battery, plant 1: it is 2 and must be from 0 to 1"
    );
    assert_eq!(
        station(|case| case.data[50] = 1001),
        "R 3 50\nEntry: entry 50 of DATA, efficiency, plant 1: it is 1001 and must be from 0 to 1000"
    );
    for (place, table) in [
        (52, "line limit"),
        (53, "MW per line"),
        (54, "line annuity"),
    ] {
        assert_eq!(
            station(|case| case.data[place] = 1),
            format!("R 3 {place}\nEntry: entry {place} of DATA, {table}, zone 1, to zone 1: it is 1 and must be from 0 to 0")
        );
    }
    let sun_battery = station(|case| {
        case.data[14] = 1;
        case.data[49] = 1;
    });
    assert_eq!(
        sun_battery,
        "R 16 0\nStorage: plant 1 is a battery and has VRE set"
    );
}

#[test]
fn refusals_of_the_plan() {
    let mut case = stations()[0].case();
    case.scale = 1001;
    assert_eq!(
        explained(&join(&plain_lines(&case, 64))),
        "R 4 0\nScale: N: it is 1001 and must be from 1 to 1000; the scale N is 1001, from the SCAL line\n"
    );
    assert_eq!(
        station(|case| case.plan.truncate(9)),
        "R 5 14\nPlan length: PLAN has 9 numbers and must have 14"
    );
    // N·10^9·MaxCapital of the capital row; the entries before it are N times the station's.
    let off_scale = station(|case| {
        case.scale = 1000;
        case.plan[0] = 10_000;
        case.plan[3] = 8_000;
        case.data[48] = u32::MAX;
    });
    assert_eq!(off_scale, "R 6 17\nRow off scale: row 17, equation (64) capital: its positive terms come to more than 2^62 - 1, its negative terms to 0, and neither may be more than 2^62 - 1");
    // All demand unmet at scale 2, at 10^5·(2^32 − 1) a kW.
    let dear = station(|case| {
        case.scale = 2;
        case.plan[..7].copy_from_slice(&[20, 0, 0, 0, 0, 0, 16_000]);
        case.data[43] = u32::MAX;
    });
    assert_eq!(
        dear,
        "R 8 0\nCost off scale: the cost is more than 2^62 - 1"
    );
}

#[test]
fn refusals_of_the_multipliers() {
    assert_eq!(
        station(|case| case.multipliers.truncate(19)),
        "R 9 28\nMultiplier count: DUAL has 19 numbers and must have 28"
    );
    assert_eq!(station(|case| case.multipliers[0] = i64::MIN), "R 10 0\nMultiplier: row 0, equation (14) demand balance, year 1, zone 1, season 1, day 1, hour 1: it is -9223372036854775808 and must be from -2^40 to 2^40");
    assert_eq!(station(|case| case.multipliers[11] = (1 << 40) + 1), "R 10 11\nMultiplier: row 11, equation (34) capacity balance, year 1, plant 1: it is 1099511627777 and must be from -2^40 to 2^40");
    assert_eq!(
        station(|case| case.multipliers[17] = -1),
        "R 10 17\nMultiplier: row 17, equation (64) capital: it is -1 and must be from 0 to 2^40"
    );
    // Availability·Dur = 8,784,000 times 2^40.
    let off_scale = station(|case| {
        case.data[9] = 8784;
        case.multipliers[9] = 1 << 40;
    });
    assert_eq!(off_scale, "R 11 0\nColumn off scale: column 0, cap, year 1, plant 1: its terms m*a come to more than 2^62 - 1 above zero and 0 below, its price is 0, and neither sum of terms may be more than 2^62 - 1");
    // 10^4·10^9·MaxCapital; no plant is a candidate, so no column has the capital row.
    let far = station(|case| {
        case.data[48] = 1_000_000;
        case.multipliers[17] = 10_000;
    });
    assert_eq!(
        far,
        "R 13 0\nGap off scale: a sum of the terms N*m*k is more than 2^62 - 1"
    );
}

#[test]
fn a_frame_is_told_by_its_line() {
    let mut text = stations()[0].text();
    text.extend(b"DATA\n");
    assert_eq!(explained(&text), "R 15 5\nFrame: line 5 of the input is not a line of DATA, PLAN, SCAL or DUAL as docs/FORMAT.md has them, or brings more numbers than may come\n");
}

/// The default scale is said with every answer but a Frame, of which no scale was taken.
#[test]
fn the_default_scale_is_said() {
    let kilowatts = station_text();
    assert_eq!(explained(&kilowatts), "A 40000000000000 0\nAccepted: the plan costs 40000000000000 and no other plan costs less by more than 0, in millionths of a money unit times N; the scale N is 1000, the default where there is no SCAL line\n");
    // A plan in MW, as it was read before request (v).
    let megawatts = without_scale_line(&stations()[0].text());
    assert_eq!(explained(&megawatts), "R 7 0\nBroken: row 0, equation (14) demand balance, year 1, zone 1, season 1, day 1, hour 1: its positive terms come to 8000, its negative terms to 8000000, and the two must be equal; the scale N is 1000, the default where there is no SCAL line\n");
    assert_eq!(explained(b""), "R 2 7\nData length: DATA has 0 numbers and must have 7; the scale N is 1000, the default where there is no SCAL line\n");
    let unended = &kilowatts[..kilowatts.len() - 1];
    assert_eq!(explained(unended), "R 15 3\nFrame: line 3 of the input is not a line of DATA, PLAN, SCAL or DUAL as docs/FORMAT.md has them, or brings more numbers than may come\n");
}

/// N is said as the SCAL line has it, before it was tested too.
#[test]
fn a_scale_out_of_range_is_said() {
    for scale in [0, u32::MAX] {
        let mut case = stations()[0].case();
        case.scale = scale;
        assert_eq!(
            said(&case),
            format!("R 4 0\nScale: N: it is {scale} and must be from 1 to 1000")
        );
        case.data[0] = 9;
        assert!(said(&case).starts_with("R 1 0\nShape: "));
    }
}

#[test]
fn indices_of_entries() {
    let lines = with_entry(Table::Tl, &[1, 1, 1, 1], 5);
    assert_eq!(
        from(&lines, "TL"),
        "TL, year 2, zone 2, to zone 2, season 2: it is 5 and must be from 0 to 0"
    );
    let lines = with_entry(Table::Profile, &[1, SLICE], 1001);
    assert_eq!(
        from(&lines, "Profile"),
        "Profile, plant 2, season 2, day 1, hour 3: it is 1001 and must be from 0 to 1000"
    );
    let lines = with_entry(Table::MinimumLoadDay, &[1, 0], 2);
    assert_eq!(
        from(&lines, "minimum"),
        "minimum-load day, season 2, day 1: it is 2 and must be from 0 to 1"
    );
    let lines = with_entry(Table::Availability, &[0, 1], u32::MAX);
    assert_eq!(
        from(&lines, "Avail"),
        "Availability, plant 1, season 2: it is 4294967295 and must be from 0 to 1000"
    );
    let lines = with_entry(Table::Loss, &[0, 1, 0], 1001);
    assert_eq!(
        from(&lines, "Loss"),
        "Loss, year 1, zone 2, to zone 1: it is 1001 and must be from 0 to 1000"
    );
    let lines = with_entry(Table::Zone, &[1], 2);
    assert_eq!(
        from(&lines, "zone"),
        "zone, plant 2: it is 2 and must be from 0 to 1"
    );
    let lines = with_entry(Table::Err, &[], 1001);
    assert_eq!(
        from(&lines, "Err"),
        "Err: it is 1001 and must be from 0 to 1000"
    );
}

#[test]
fn indices_of_rows() {
    let lines = with_multiplier(2, &[1, 0, 1, SLICE]);
    assert_eq!(
        from(&lines, "equation"),
        "equation (15) transfer limit, year 2, zone 1, to zone 2, season 2, day 1, hour 3: it is -1 and must be from 0 to 2^40"
    );
    let lines = with_multiplier(10, &[0, 1, 1]);
    assert_eq!(
        from(&lines, "equation"),
        "equation (27) availability, year 1, plant 2, season 2: it is -1 and must be from 0 to 2^40"
    );
    let lines = with_multiplier(17, &[1, 0, 1]);
    assert_eq!(
        from(&lines, "equation"),
        "equation (62) fuel, year 2, zone 1, fuel 2: it is -1 and must be from 0 to 2^40"
    );
    let lines = with_multiplier(20, &[1]);
    assert_eq!(
        from(&lines, "equation"),
        "equation (68) system emissions, year 2: it is -1 and must be from 0 to 2^40"
    );
}

/// The battery example of docs/FORMAT.md with a change, and the second line.
fn battery(change: impl FnOnce(&mut Input)) -> String {
    let mut input = read_lines(BATTERY).expect("no Frame");
    change(&mut input);
    let lines = said(&Case {
        scale: input.scale(),
        data: input.data,
        plan: input.plan,
        multipliers: input.multipliers,
        ..Case::default()
    });
    lines.lines().nth(1).expect("two lines").to_string()
}

#[test]
fn rows_and_columns_of_a_battery() {
    let level = battery(|input| input.plan[89] = 4000);
    assert_eq!(level, "Broken: row 150, equation (43) battery level, year 1, plant 4, season 1, day 1, hour 1: its positive terms come to 4000, its negative terms to 3200, and the two must be equal");
    let full = battery(|input| input.data[142] = 3999);
    assert_eq!(full, "Broken: row 215, equation (46) level limit, year 1, plant 4, season 1, day 1, hour 2: its positive terms come to 3999, its negative terms to 4000, and the first must not be less");
    let charge = battery(|input| input.multipliers[166] -= 1);
    assert_eq!(charge, "Underpriced: column 73, charge, year 1, plant 4, season 1, day 1, hour 1: its terms m*a come to 14600000000 above zero and 14599999999 below, its price is 0, so it is underpriced by 1");
    let held = battery(|input| input.multipliers[215] = 0);
    assert_eq!(held, "Underpriced: column 90, level, year 1, plant 4, season 1, day 1, hour 2: its terms m*a come to 36500000 above zero and 18250000 below, its price is 0, so it is underpriced by 18250000");
    for (row, name, least) in [
        (150, "(43) battery level", "-2^40"),
        (166, "(45) charge limit", "0"),
        (182, "(47) charge rise", "0"),
        (198, "(48) charge fall", "0"),
        (214, "(46) level limit", "0"),
    ] {
        let refused = battery(|input| input.multipliers[row] = i64::MIN);
        assert_eq!(refused, format!("Multiplier: row {row}, equation {name}, year 1, plant 4, season 1, day 1, hour 1: it is -9223372036854775808 and must be from {least} to 2^40"));
    }
    let vre = battery(|input| input.data[29] = 1);
    assert_eq!(vre, "Storage: plant 4 is a battery and has VRE set");
}

/// Two zones of one plant, a line of 3 MW towards zone 2 that may be built four times in
/// two years, and what is said after a change.
fn isles(change: impl FnOnce(&mut Draft)) -> String {
    let mut draft = Draft::empty(Shape::new([2, 1, 1, 1, 1, 1, 2]), 1);
    draft.set_data(Table::Year, &[0], 3);
    for y in 0..2 {
        draft.set_data(Table::ReturnRate, &[y], 1000);
        draft.set_data(Table::Weight, &[y], 1);
    }
    for link in [[0, 1], [1, 0]] {
        draft.set_data(Table::LineLimit, &link, 4);
        draft.set_data(Table::LineAnnuity, &link, 5);
    }
    draft.set_data(Table::LineMw, &[0, 1], 3);
    change(&mut draft);
    let lines = said(&draft.case);
    lines.lines().nth(1).expect("two lines").to_string()
}

/// The families of lines have no equation number. Before them stand 64 rows: 4 + 8 + 4 + 4 of
/// families 1 to 4, 2 in each of 5 to 14, 1 + 2 + 4 + 1 + 4 + 2 of 15 to 20 and 2 in each of 21
/// to 25; and 38 columns.
#[test]
fn rows_and_columns_of_lines() {
    let balance = isles(|draft| draft.set_entry(Column::Built, &[1, 1, 0], 2));
    assert_eq!(balance, "Broken: row 70, line balance, year 2, zone 2, to zone 1: its positive terms come to 0, its negative terms to 2, and the two must be equal");
    let limit = isles(|draft| {
        draft.build_lines([0, 0, 1], 5).expect("32 bits");
    });
    assert_eq!(limit, "Broken: row 73, new lines, zone 1, to zone 2: its positive terms come to 4, its negative terms to 5, and the first must not be less");
    let both_ways = isles(|draft| {
        draft.build_lines([1, 0, 1], 4).expect("32 bits");
        draft.build_lines([1, 1, 0], 3).expect("32 bits");
    });
    assert_eq!(both_ways, "Broken: row 81, lines both ways, year 2, zone 1, to zone 2: its positive terms come to 4, its negative terms to 3, and the two must be equal");
    for (row, name, least) in [
        (70, "line balance, year 2, zone 2, to zone 1", "-2^40"),
        (73, "new lines, zone 1, to zone 2", "0"),
        (81, "lines both ways, year 2, zone 1, to zone 2", "-2^40"),
        (83, "lines both ways, year 2, zone 2, to zone 2", "-2^40"),
    ] {
        let refused = isles(|draft| draft.case.multipliers[row] = i64::MIN);
        assert_eq!(refused, format!("Multiplier: row {row}, {name}: it is -9223372036854775808 and must be from {least} to 2^40"));
    }
    let built = isles(|draft| draft.set_multiplier(26, &[1, 0, 1], -7));
    assert_eq!(built, "Underpriced: column 43, built, year 2, zone 1, to zone 2: its terms m*a come to 7 above zero and 0 below, its price is 0, so it is underpriced by 7");
    let total = isles(|draft| draft.set_multiplier(2, &[0, 0, 1, 0], 2000));
    assert_eq!(total, "Underpriced: column 47, total, year 1, zone 1, to zone 2: its terms m*a come to 6000 above zero and 0 below, its price is 5000, so it is underpriced by 1000");
    let off_scale = isles(|draft| {
        draft.set_data(Table::LineMw, &[0, 1], i128::from(u32::MAX));
        draft.set_entry(Column::Total, &[1, 0, 1], i128::from(u32::MAX));
    });
    assert_eq!(off_scale, "Row off scale: row 9, equation (15) transfer limit, year 2, zone 1, to zone 2, season 1, day 1, hour 1: its positive terms come to more than 2^62 - 1, its negative terms to 0, and neither may be more than 2^62 - 1");
}

/// How the lines of a text have to end: a Frame's without a scale, all others with that of
/// their SCAL line or with the default.
fn ending(text: &[u8]) -> String {
    match read_lines(text).map(|read| read.scale) {
        Ok(Some(scale)) => from_scal(scale),
        Ok(None) => BY_DEFAULT.to_string(),
        Err(_) => " brings more numbers than may come\n".to_string(),
    }
}

/// The line of certify comes first, and the program has room for both.
#[test]
fn two_lines_for_every_input() {
    for seed in 0..500 {
        let Some(text) = text(seed, &case(seed).case) else {
            continue;
        };
        let lines = explained(&text.bytes);
        assert!(lines.starts_with(&run(&text.bytes)), "seed {seed}: {lines}");
        assert_eq!(lines.lines().count(), 2, "seed {seed}: {lines}");
        let ending = ending(&text.bytes);
        assert!(lines.ends_with(&ending), "seed {seed}: {lines}");
        assert!(lines.is_ascii(), "seed {seed}: {lines}");
        assert!(lines.len() < ROOM, "seed {seed}: {lines}");
    }
}
