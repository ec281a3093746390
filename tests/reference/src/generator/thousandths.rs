//! Request (v), the scale of a text without a SCAL line: texts whose answers are worked out by
//! hand from the one-plant station, and seeded texts without the line.
//!
//! At N 1000 the station's entries, which are in MW and kW, are in kW and W. So the ten cases of
//! the page's table come back with entries, costs and gaps 1000 times as large and the same
//! refusals.

use super::bytes::Labelled;
use super::damage::{damage, Damage};
use super::draft::Case;
use super::frames::{fits, join, plain_lines, scale_line, text_of, without_scale_line};
use super::random::Random;
use super::stations::{stations, Station};
use super::{shape, sound_draft_at};
use crate::program::answer_line;
use crate::refusal::Refusal;

/// N where a text has no SCAL line.
const DEFAULT: u32 = 1000;

/// A text without a SCAL line is answered as the same bytes with this line behind them.
pub const DEFAULT_LINE: &[u8] = b"SCAL 000003E8\n";

/// A text and the line that certify prints for it, worked out by hand.
#[derive(Clone, Debug)]
pub struct Worked {
    pub name: String,
    pub text: Vec<u8>,
    pub line: String,
}

fn worked(name: String, text: Vec<u8>, answer: Result<(u64, u64), Refusal>) -> Worked {
    let line = answer_line(answer);
    Worked { name, text, line }
}

fn refused(name: String, lines: &[Vec<u8>], number: u32, place: usize) -> Worked {
    worked(name, join(lines), Err(Refusal::at(number, place)))
}

/// A station's case and its answer, in thousandths.
fn in_thousandths(station: &Station) -> (Case, Result<(u64, u64), Refusal>) {
    let mut case = station.case();
    let times = DEFAULT / case.scale;
    case.plan.iter_mut().for_each(|entry| *entry *= times);
    case.scale = DEFAULT;
    let figure = |figure: u64| u64::from(times) * figure;
    let answer = station.certified;
    (case, answer.map(|(cost, gap)| (figure(cost), figure(gap))))
}

/// The lines of DATA, PLAN and DUAL of a station's case, without SCAL.
fn lines_without_scale(case: &Case) -> Vec<Vec<u8>> {
    let mut lines = plain_lines(case, 64);
    lines.retain(|line| !line.starts_with(b"SCAL"));
    assert_eq!(lines.len(), 3, "one line of each word");
    lines
}

/// The first station's lines in thousandths and in MW.
fn first_station() -> [(&'static str, Vec<Vec<u8>>); 2] {
    let [station, ..] = stations();
    let (kilowatts, _) = in_thousandths(&station);
    [
        ("thousandths", lines_without_scale(&kilowatts)),
        ("MW", lines_without_scale(&station.case())),
    ]
}

/// The lines with one more, which comes to stand at a place.
fn with_line(lines: &[Vec<u8>], place: usize, line: &[u8]) -> Vec<Vec<u8>> {
    let mut lines = lines.to_vec();
    lines.insert(place, line.to_vec());
    lines
}

/// The first station's text in thousandths without a SCAL line.
pub fn station_text() -> Vec<u8> {
    let [(_, lines), _] = first_station();
    join(&lines)
}

/// The ten stations in thousandths: with a SCAL line of 1000, and without one.
pub fn ten_stations() -> Vec<Worked> {
    let mut all = vec![];
    for (number, station) in stations().iter().enumerate() {
        let (case, answer) = in_thousandths(station);
        let lines = lines_without_scale(&case);
        let name = format!("station {number} in thousandths");
        let with = with_line(&lines, 2, &scale_line(DEFAULT));
        all.push(worked(format!("{name}, SCAL"), join(&with), answer));
        all.push(worked(name, join(&lines), answer));
    }
    all
}

/// Plans that are read at another scale than theirs. Family 1 asks 8,000,000 of a plan in MW
/// that is read in thousandths, and 8000 of one in thousandths that is read at N 1.
pub fn other_units() -> Vec<Worked> {
    let [(_, thousandths), (_, megawatts)] = first_station();
    let with = |lines: &[Vec<u8>], scale| with_line(lines, 2, &scale_line(scale));
    let name = |text: &str| text.to_string();
    vec![
        refused(name("MW without SCAL"), &megawatts, 7, 0),
        refused(name("MW at 1000"), &with(&megawatts, 1000), 7, 0),
        refused(name("thousandths at 1"), &with(&thousandths, 1), 7, 0),
        refused(name("thousandths at 999"), &with(&thousandths, 999), 7, 0),
        worked(
            name("MW at 1"),
            join(&with(&megawatts, 1)),
            Ok((40_000_000_000, 0)),
        ),
    ]
}

/// A SCAL line that is out of range, at every place: refusal 4, and not the default.
pub fn scales_out_of_range() -> Vec<Worked> {
    let mut all = vec![];
    for (unit, lines) in first_station() {
        for scale in [0, 1001, u32::MAX] {
            for place in 0..=lines.len() {
                let name = format!("{unit}, SCAL {scale} as line {}", place + 1);
                let lines = with_line(&lines, place, &scale_line(scale));
                all.push(refused(name, &lines, 4, 0));
            }
        }
    }
    all
}

/// Two SCAL lines, at every two places and whatever their numbers: a Frame at the second.
pub fn second_lines() -> Vec<Worked> {
    let [(_, lines), _] = first_station();
    let scales = [0, 1, 1000];
    let mut all = vec![];
    for (first, second) in scales.iter().flat_map(|&a| scales.map(|b| (a, b))) {
        for place in 0..=lines.len() {
            for later in place + 1..=lines.len() + 1 {
                let one = with_line(&lines, place, &scale_line(first));
                let two = with_line(&one, later, &scale_line(second));
                let (line, earlier) = (later + 1, place + 1);
                let name = format!("SCAL {first} as line {earlier}, {second} as line {line}");
                all.push(refused(name, &two, 15, line));
            }
        }
    }
    all
}

/// Lines that open like a SCAL line and are none, at every place: a Frame there, and not the
/// default.
pub fn bad_lines() -> Vec<Worked> {
    let [(_, lines), _] = first_station();
    let bad = [
        "SCAL 000003E8 000003E8",
        "SCAL 00000000 000003E8",
        "SCAL 00000001 00000000",
        "SCAL",
        "SCAL ",
        "SCAL 3E8",
        "SCAL 000003e8",
        "SCAL  000003E8",
        "SCAL 000003E8 ",
        "SCAL 00000000000003E8",
        "scal 000003E8",
    ];
    let mut all = vec![];
    for bad in bad {
        for place in 0..=lines.len() {
            let lines = with_line(&lines, place, bad.as_bytes());
            let name = format!("{bad:?} as line {}", place + 1);
            all.push(refused(name, &lines, 15, place + 1));
        }
    }
    all
}

/// Texts whose last line has no line feed: a Frame there, also where it would be the SCAL line.
pub fn unended() -> Vec<Worked> {
    let [(_, lines), _] = first_station();
    let scales = [0, 1, 1000].map(|scale| with_line(&lines, 3, &scale_line(scale)));
    let texts = [vec![lines], scales.into()].concat();
    let cut = texts.into_iter().map(|lines| {
        let mut text = join(&lines);
        text.pop();
        let name = format!("{} lines, the last without a line feed", lines.len());
        worked(name, text, Err(Refusal::at(15, lines.len())))
    });
    cut.collect()
}

pub fn all() -> Vec<Worked> {
    [
        ten_stations(),
        other_units(),
        scales_out_of_range(),
        second_lines(),
        bad_lines(),
        unended(),
    ]
    .concat()
}

/// Damages that most refusals of certify are made by; of all damages together most give 7 or 12.
const BESIDE_ROWS_AND_COLUMNS: [Damage; 11] = [
    Damage::Count,
    Damage::DataLength,
    Damage::Entry,
    Damage::Storage,
    Damage::PlanLength,
    Damage::RowOffScale,
    Damage::CostOffScale,
    Damage::MultiplierCount,
    Damage::MultiplierRange,
    Damage::ColumnOffScale,
    Damage::GapOffScale,
];

/// A case in thousandths: sound, or with a damage where it can take the one drawn.
fn case_in_thousandths(random: &mut Random) -> Case {
    let shape = shape(random);
    let draft = sound_draft_at(random, shape, DEFAULT);
    let sound = draft.case.clone();
    let chosen = match random.below(3) {
        0 => return sound,
        1 => *random.pick(&BESIDE_ROWS_AND_COLUMNS),
        _ => *random.pick(&Damage::all()),
    };
    damage(random, draft, chosen).map_or(sound, |(case, _)| case)
}

/// So many texts without a SCAL line, of cases in thousandths; half of the texts are damaged.
pub fn texts_without_scale_line(random: &mut Random, count: u64) -> Vec<Labelled> {
    let mut texts = vec![];
    for _ in 0..count {
        let case = case_in_thousandths(random);
        if fits(&case) {
            let text = text_of(random, &case);
            texts.push((
                "thousandths without SCAL".to_string(),
                without_scale_line(&text.bytes),
            ));
        }
    }
    texts
}
