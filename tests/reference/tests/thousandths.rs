//! Request (v), "plans come in thousandths": a text without a SCAL line is read with N = 1000,
//! one with the line as before, and the calls take the N that they are handed.

use epm_reference::generator::bytes::{one_byte_damages, Labelled};
use epm_reference::generator::draft::Case;
use epm_reference::generator::frames::{
    has_scale_line, join, noise, scale_line, without_scale_line,
};
use epm_reference::generator::large::{larger_than_any_buffer, largest_accepted};
use epm_reference::generator::random::Random;
use epm_reference::generator::stations::stations;
use epm_reference::generator::thousandths::{
    self, station_text, texts_without_scale_line, Worked, DEFAULT_LINE,
};
use epm_reference::generator::{case, shape, sound_case};
use epm_reference::program::{answer, answer_line};
use epm_reference::refusal::{BROKEN, FRAME, SCALE, UNDERPRICED};
use epm_reference::{certify, check, coverage, explain, post, run, Refusal};
use std::collections::BTreeMap;

/// Stands among the refusals' numbers for an acceptance.
const ACCEPTED: u32 = 0;

fn hold(worked: Vec<Worked>) {
    assert!(!worked.is_empty());
    for Worked { name, text, line } in worked {
        assert_eq!(run(&text), line, "{name}");
    }
}

/// The request's example in numbers: 10 MW, of which 8 run, are 10000 and 8000 kW.
#[test]
fn the_first_station_in_thousandths_and_in_mw() {
    let data = stations()[0].text();
    let data = String::from_utf8(data).expect("letters and digits");
    let lines: Vec<&str> = data.lines().collect();
    let text = |cap: &str, gen: &str, scale: &str| {
        let zero = "00000000";
        let plan = format!("PLAN {cap} {zero} {zero} {gen}") + &format!(" {zero}").repeat(10);
        format!("{}\n{plan}\n{scale}{}\n", lines[0], lines[3])
    };
    let (kilowatts, megawatts) = (("00002710", "00001F40"), ("0000000A", "00000008"));
    for ((cap, gen), scale, line) in [
        (kilowatts, "", "A 40000000000000 0\n"),
        (kilowatts, "SCAL 000003E8\n", "A 40000000000000 0\n"),
        (kilowatts, "SCAL 00000001\n", "R 7 0\n"),
        (megawatts, "SCAL 00000001\n", "A 40000000000 0\n"),
        (megawatts, "", "R 7 0\n"),
        (megawatts, "SCAL 00000000\n", "R 4 0\n"),
        (kilowatts, "SCAL 00000000\n", "R 4 0\n"),
    ] {
        assert_eq!(run(text(cap, gen, scale).as_bytes()), line, "{cap} {scale}");
    }
}

#[test]
fn the_ten_stations_in_thousandths_need_no_scal_line() {
    hold(thousandths::ten_stations());
}

#[test]
fn a_plan_in_mw_needs_its_scal_line() {
    hold(thousandths::other_units());
}

#[test]
fn a_scal_line_out_of_range_is_refused_as_before() {
    hold(thousandths::scales_out_of_range());
}

#[test]
fn a_second_scal_line_is_a_frame_whatever_its_number() {
    hold(thousandths::second_lines());
}

#[test]
fn a_line_that_is_nearly_a_scal_line_is_a_frame() {
    hold(thousandths::bad_lines());
}

#[test]
fn a_last_line_without_line_feed_is_a_frame() {
    hold(thousandths::unended());
}

// The two theorems over many texts

/// Texts without a SCAL line: of cases in thousandths and of seeded ones, sound and damaged;
/// put together at random; a station byte by byte and cut off at every byte; the largest
/// texts and larger ones.
fn without_the_line() -> Vec<Labelled> {
    let mut random = Random::new(5);
    let mut texts = texts_without_scale_line(&mut random, 400);
    for seed in 0..300 {
        if let Some(text) = coverage::text(seed, &case(seed).case) {
            texts.push((text.label, text.bytes));
        }
        texts.push(("noise".to_string(), noise(&mut random)));
    }
    texts.extend(one_byte_damages(&station_text()));
    texts.extend(largest_accepted());
    texts.extend(larger_than_any_buffer());
    for (_, text) in &mut texts {
        *text = without_scale_line(text);
    }
    texts
}

/// The same with one SCAL line each, of a drawn number at a drawn line; and texts that have
/// theirs, among them one byte by byte.
fn with_the_line() -> Vec<Labelled> {
    let mut random = Random::new(6);
    let mut texts = one_byte_damages(&stations()[4].text());
    for seed in 0..300 {
        if let Some(text) = coverage::text(seed, &case(seed).case) {
            texts.push((text.label, text.bytes));
        }
    }
    for (label, text) in without_the_line() {
        let scale = *random.pick(&[0, 1, 2, 999, 1000, 1000, 1001, u32::MAX]);
        let ends: Vec<usize> = (0..text.len()).filter(|&at| text[at] == b'\n').collect();
        let place = match random.below(ends.len() as u64 + 1) {
            0 => 0,
            line => ends[line as usize - 1] + 1,
        };
        let line = join(&[scale_line(scale)]);
        texts.push((label, [&text[..place], &line, &text[place..]].concat()));
    }
    texts.retain(|(_, text)| has_scale_line(text));
    texts
}

/// How many of the texts are answered by a number: that of the refusal, 0 where certify accepts.
fn answers(texts: &[Labelled]) -> BTreeMap<u32, usize> {
    let mut answers = BTreeMap::new();
    for (_, text) in texts {
        let number = answer(text)
            .err()
            .map_or(ACCEPTED, |refusal| refusal.number);
        *answers.entry(number).or_default() += 1;
    }
    answers
}

/// Each of these answers was met more than a few times.
fn were_met(answers: &BTreeMap<u32, usize>, numbers: &[u32]) {
    for number in numbers {
        assert!(answers.get(number) > Some(&3), "{number}: {answers:?}");
    }
}

fn shown(text: &[u8]) -> String {
    String::from_utf8_lossy(&text[..text.len().min(200)]).into_owned()
}

/// A text without a SCAL line, sound or not, is answered as the same bytes with a SCAL line of
/// 1000 behind them.
#[test]
fn a_text_without_the_line_is_answered_as_with_1000_behind_it() {
    let texts = without_the_line();
    for (label, text) in &texts {
        let behind = [text, DEFAULT_LINE].concat();
        assert_eq!(run(text), run(&behind), "{label}: {}", shown(text));
    }
    let answers = answers(&texts);
    were_met(
        &answers,
        &[ACCEPTED, 1, 2, 3, 5, BROKEN, 8, 10, UNDERPRICED, 13, FRAME],
    );
    // The default is in range.
    assert_eq!(answers.get(&SCALE), None);
}

/// Both are explained in the same words but for those that say where the scale comes from.
#[test]
fn the_words_differ_in_where_the_scale_comes_from() {
    let default = "; the scale N is 1000, the default where there is no SCAL line\n";
    let read = "; the scale N is 1000, from the SCAL line\n";
    let explained = |text: &[u8]| String::from_utf8(explain(text)).expect("ASCII");
    for (label, text) in texts_without_scale_line(&mut Random::new(7), 300) {
        let lines = explained(&text);
        let behind = explained(&[&text, DEFAULT_LINE].concat());
        match lines.strip_suffix(default) {
            Some(before) => assert_eq!(behind, format!("{before}{read}"), "{label}"),
            None => {
                assert!(lines.starts_with("R 15 "), "{label}: {lines}");
                assert_eq!(behind, lines, "{label}");
            }
        }
    }
}

/// The words with the digits and the most numbers of each, document 01 once more.
const WORDS: [(&str, usize, usize); 4] = [
    ("DATA", 8, 4096),
    ("PLAN", 8, 2048),
    ("SCAL", 8, 1),
    ("DUAL", 16, 4096),
];

fn number(digits: &str, count: usize) -> Option<u64> {
    let capital = |digit: u8| matches!(digit, b'0'..=b'9' | b'A'..=b'F');
    if digits.len() != count || !digits.bytes().all(capital) {
        return None;
    }
    u64::from_str_radix(digits, 16).ok()
}

/// Joins a line with its line feed to the lists of the four words; none where it is a Frame.
fn join_line(lists: &mut [Vec<u64>; 4], line: &[u8]) -> Option<()> {
    let line = std::str::from_utf8(line).ok()?.strip_suffix('\n')?;
    let (word, numbers) = line.split_once(' ')?;
    let place = WORDS.iter().position(|entry| entry.0 == word)?;
    let (_, digits, most) = WORDS[place];
    let numbers = numbers.split(' ').map(|part| number(part, digits));
    let numbers: Vec<u64> = numbers.collect::<Option<_>>()?;
    lists[place].extend(&numbers);
    (numbers.len() <= 64 && lists[place].len() <= most).then_some(())
}

/// The line of the program, read anew, where a text without a SCAL line has this N. With 1 it
/// is the program before request (v).
fn read_with_default(text: &[u8], default: u32) -> String {
    let mut lists: [Vec<u64>; 4] = Default::default();
    for (place, line) in text.split_inclusive(|&byte| byte == b'\n').enumerate() {
        if join_line(&mut lists, line).is_none() {
            return answer_line(Err(Refusal::at(FRAME, place + 1)));
        }
    }
    let words = |list: &[u64]| -> Vec<u32> { list.iter().map(|&n| n as u32).collect() };
    let [data, plan, scale, duals] = lists;
    let scale = words(&scale).first().copied().unwrap_or(default);
    let duals: Vec<i64> = duals.iter().map(|&m| m as i64).collect();
    answer_line(certify(&words(&data), scale, &words(&plan), &duals))
}

/// A text with a SCAL line is answered as before the request.
#[test]
fn a_text_with_the_line_is_answered_as_before() {
    let texts = with_the_line();
    for (label, text) in &texts {
        let before = read_with_default(text, 1);
        assert_eq!(run(text), before, "{label}: {}", shown(text));
    }
    were_met(
        &answers(&texts),
        &[ACCEPTED, 1, 2, 3, SCALE, 5, BROKEN, UNDERPRICED, FRAME],
    );
}

/// The reading above tells the two defaults apart, and with 1000 it is the program.
#[test]
fn a_text_without_the_line_is_read_in_thousandths() {
    let mut otherwise = 0;
    for (label, text) in without_the_line() {
        let line = run(&text);
        assert_eq!(read_with_default(&text, 1000), line, "{label}");
        otherwise += usize::from(read_with_default(&text, 1) != line);
    }
    assert!(otherwise > 100, "{otherwise} were answered otherwise");
}

// The calls

/// Certify, check and post on a case.
fn called(case: &Case) -> [Option<Refusal>; 3] {
    let (data, scale, plan) = (&case.data, case.scale, &case.plan);
    let mut board = case.board.clone();
    let posted = post(data, scale, plan, case.year, &mut board, case.start);
    [
        certify(data, scale, plan, &case.multipliers).err(),
        check(data, scale, plan).err(),
        posted.err(),
    ]
}

/// The library calls always took N and keep doing so: 0 is not a scale that is left out.
#[test]
fn the_calls_have_no_default() {
    let mut random = Random::new(8);
    for seed in 0..40 {
        let mut case = sound_case(shape(&mut random), seed);
        assert_eq!(called(&case), [None; 3], "seed {seed}");
        case.scale = 0;
        let refused = Some(Refusal::at(SCALE, 0));
        assert_eq!(called(&case), [refused; 3], "seed {seed}");
    }
    let station = stations()[0].case();
    let plan: Vec<u32> = station.plan.iter().map(|entry| 1000 * entry).collect();
    for (scale, plan, answer) in [
        (1, &station.plan, Ok((40_000_000_000, 0))),
        (1000, &plan, Ok((40_000_000_000_000, 0))),
        (0, &plan, Err(Refusal::at(SCALE, 0))),
        (0, &station.plan, Err(Refusal::at(SCALE, 0))),
    ] {
        let certified = certify(&station.data, scale, plan, &station.multipliers);
        assert_eq!(certified, answer, "N {scale}");
    }
}
