//! Request (v), N = 1000 without a SCAL line: the proved programs on the texts that are worked
//! out by hand, and on texts without the line beside the same texts with it.

use epm_agreement::Program;
use epm_reference::explain;
use epm_reference::generator::frames::{noise, without_scale_line};
use epm_reference::generator::large::largest_accepted;
use epm_reference::generator::random::Random;
use epm_reference::generator::thousandths::{
    self, station_text, texts_without_scale_line, Worked, DEFAULT_LINE,
};

fn printed(program: Program, input: &[u8]) -> String {
    program.run(input).expect("an answer")
}

/// Certify prints the line, and explain the line and what the second implementation says.
fn hold(worked: Vec<Worked>) {
    assert!(!worked.is_empty());
    for Worked { name, text, line } in worked {
        assert_eq!(printed(Program::Certify, &text), line, "{name}");
        let lines = printed(Program::Explain, &text);
        assert!(lines.starts_with(&line), "{name}: {lines}");
        let expected = String::from_utf8(explain(&text)).expect("ASCII");
        assert_eq!(lines, expected, "{name}");
    }
}

#[test]
fn the_ten_stations_in_thousandths_need_no_scal_line() {
    hold(thousandths::ten_stations());
}

#[test]
fn a_plan_in_mw_needs_its_scal_line() {
    hold(thousandths::other_units());
}

#[test]
fn a_scal_line_out_of_range_is_refused_as_before() {
    hold(thousandths::scales_out_of_range());
}

#[test]
fn a_second_scal_line_is_a_frame_whatever_its_number() {
    hold(thousandths::second_lines());
}

#[test]
fn a_line_that_is_nearly_a_scal_line_is_a_frame() {
    hold(thousandths::bad_lines());
}

#[test]
fn a_last_line_without_line_feed_is_a_frame() {
    hold(thousandths::unended());
}

/// Texts without a SCAL line: of cases in thousandths, sound and damaged; put together at
/// random; a station cut off within every number and about the end of every line; the largest.
fn without_the_line() -> Vec<Vec<u8>> {
    let mut random = Random::new(5);
    let seeded = texts_without_scale_line(&mut random, 300);
    let mut texts: Vec<Vec<u8>> = seeded.into_iter().map(|(_, text)| text).collect();
    texts.extend((0..60).map(|_| without_scale_line(&noise(&mut random))));
    let station = station_text();
    for (at, byte) in station.iter().enumerate() {
        if *byte == b'\n' {
            texts.extend([at, at + 1].map(|end| station[..end].to_vec()));
        } else if at % 8 == 0 {
            texts.push(station[..at].to_vec());
        }
    }
    texts.extend(
        largest_accepted()
            .iter()
            .map(|(_, text)| without_scale_line(text)),
    );
    texts
}

/// A text without a SCAL line, sound or not, is answered as the same bytes with a SCAL line of
/// 1000 behind them; explain says the same but for where the scale comes from.
#[test]
fn a_text_without_the_line_is_answered_as_with_1000_behind_it() {
    let default = "; the scale N is 1000, the default where there is no SCAL line\n";
    let read = "; the scale N is 1000, from the SCAL line\n";
    let (mut accepted, mut refused, mut frames) = (0, 0, 0);
    for text in without_the_line() {
        let behind = [&text, DEFAULT_LINE].concat();
        let line = printed(Program::Certify, &text);
        assert_eq!(line, printed(Program::Certify, &behind));
        let lines = printed(Program::Explain, &text);
        let lines_behind = printed(Program::Explain, &behind);
        if line.starts_with("R 15 ") {
            frames += 1;
            assert_eq!(lines, lines_behind);
            continue;
        }
        match line.starts_with("A ") {
            true => accepted += 1,
            false => refused += 1,
        }
        let before = lines.strip_suffix(default).expect(&lines);
        assert_eq!(lines_behind, format!("{before}{read}"));
    }
    for count in [accepted, refused, frames] {
        assert!(count > 30, "{accepted}, {refused} and {frames} Frames");
    }
}
