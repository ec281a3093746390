//! The program's text input.

use epm_reference::generator::draft::Case;
use epm_reference::generator::frames::{
    damaged, fits, join, noise, sound_lines, LineDamage, LINE_DAMAGES, MOST_DUAL,
};
use epm_reference::generator::large::largest_accepted;
use epm_reference::generator::random::Random;
use epm_reference::generator::{case, shape, sound_case};
use epm_reference::program::{answer_line, read_lines};
use epm_reference::{certify, run};

fn small_case(seed: u64) -> Case {
    let mut random = Random::new(seed);
    loop {
        let shape = shape(&mut random);
        let case = sound_case(shape, seed);
        if fits(&case) {
            return case;
        }
    }
}

fn line_of(case: &Case) -> String {
    answer_line(certify(
        &case.data,
        case.scale,
        &case.plan,
        &case.multipliers,
    ))
}

/// However the lines are cut and mixed, they join to the case.
#[test]
fn lines_join_to_the_case() {
    let mut random = Random::new(1);
    for seed in 0..400 {
        let generated = case(seed);
        if !fits(&generated.case) {
            continue;
        }
        let text = join(&sound_lines(&mut random, &generated.case));
        let read = read_lines(&text).expect("sound lines");
        assert_eq!(read.data, generated.case.data);
        assert_eq!(read.plan, generated.case.plan);
        assert_eq!(read.multipliers, generated.case.multipliers);
        assert_eq!(read.scale.unwrap_or(1000), generated.case.scale);
        assert_eq!(run(&text), line_of(&generated.case), "seed {seed}");
    }
}

/// Each damage of a line is a Frame at that line, before any other refusal.
#[test]
fn damaged_lines_are_frames_at_their_line() {
    let mut random = Random::new(2);
    for chosen in LINE_DAMAGES {
        for seed in 0..12 {
            let mut case = small_case(seed);
            if seed % 2 == 1 {
                case.scale = 0;
                case.data[0] = 0;
            }
            let text = damaged(&mut random, &case, chosen);
            let line = text.frame_line.expect("a damaged line");
            let shown = String::from_utf8_lossy(&text.bytes);
            assert_eq!(
                run(&text.bytes),
                format!("R 15 {line}\n"),
                "{chosen:?} seed {seed}: {shown}"
            );
        }
    }
}

/// The largest shapes are accepted, and refused for their plan where one number more
/// follows; one of them has as many rows as DUAL may have numbers.
#[test]
fn the_largest_shapes_are_read_whole() {
    let inputs = largest_accepted();
    for pair in inputs.chunks(2) {
        let [(_, whole), (_, longer)] = pair else {
            panic!("each text with a longer one");
        };
        assert!(run(whole).starts_with("A "), "{}", run(whole));
        assert!(run(longer).starts_with("R 5 "), "{}", run(longer));
    }
    let full = |text: &[u8]| read_lines(text).is_ok_and(|read| read.multipliers.len() == MOST_DUAL);
    assert!(inputs.iter().any(|(_, text)| full(text)));
}

#[test]
fn every_kind_of_line_damage_is_listed_once() {
    let mut seen: Vec<LineDamage> = vec![];
    for damage in LINE_DAMAGES {
        assert!(!seen.contains(&damage));
        seen.push(damage);
    }
}

fn line(word: &str, digits: usize, numbers: usize) -> String {
    format!(
        "{word}{}\n",
        format!(" {}", "0".repeat(digits)).repeat(numbers)
    )
}

#[test]
fn short_inputs() {
    let one = "0000000000000001";
    let cases: Vec<(String, &str)> = vec![
        (String::new(), "R 2 7\n"),
        ("\n".to_string(), "R 15 1\n"),
        ("DATA".to_string(), "R 15 1\n"),
        ("DATA\n".to_string(), "R 15 1\n"),
        ("DATA \n".to_string(), "R 15 1\n"),
        ("DATA 00000001".to_string(), "R 15 1\n"),
        ("DATA 00000001\n".to_string(), "R 2 7\n"),
        ("DATA 00000001\n\n".to_string(), "R 15 2\n"),
        ("DATA 0000000a\n".to_string(), "R 15 1\n"),
        ("DATA 0000000A\r\n".to_string(), "R 15 1\n"),
        ("DATA  0000000A\n".to_string(), "R 15 1\n"),
        ("DATA 0000000A \n".to_string(), "R 15 1\n"),
        (" DATA 0000000A\n".to_string(), "R 15 1\n"),
        (format!("DATA {one}\n"), "R 15 1\n"),
        (format!("DUAL {one}\n"), "R 2 7\n"),
        ("DUAL 00000001\n".to_string(), "R 15 1\n"),
        // Two numbers of 8 digits are not one of 16: the space is no digit.
        ("DUAL 00000001 0000001\n".to_string(), "R 15 1\n"),
        ("SCAL 00000000\n".to_string(), "R 2 7\n"),
        ("SCAL 00000001\nSCAL 00000001\n".to_string(), "R 15 2\n"),
        ("SCAL 00000001 00000001\n".to_string(), "R 15 1\n"),
        (line("DATA", 8, 6), "R 2 7\n"),
        (line("DATA", 8, 7), "R 1 0\n"),
        (line("DATA", 8, 64), "R 1 0\n"),
        (line("DATA", 8, 65), "R 15 1\n"),
        (line("DATA", 8, 64).repeat(64), "R 1 0\n"),
        (
            line("DATA", 8, 64).repeat(64) + &line("DATA", 8, 1),
            "R 15 65\n",
        ),
        (line("DATA", 8, 64).repeat(65), "R 15 65\n"),
        (line("PLAN", 8, 64).repeat(32), "R 2 7\n"),
        (
            line("PLAN", 8, 64).repeat(32) + &line("PLAN", 8, 1),
            "R 15 33\n",
        ),
        (line("DUAL", 16, 64).repeat(64), "R 2 7\n"),
        (
            line("DUAL", 16, 64).repeat(64) + &line("DUAL", 16, 1),
            "R 15 65\n",
        ),
        (line("DATA", 8, 64).repeat(64) + "DATA", "R 15 65\n"),
        ("LOGS 00000001\n".to_string(), "R 15 1\n"),
        ("data 00000001\n".to_string(), "R 15 1\n"),
    ];
    for (input, expected) in cases {
        assert_eq!(run(input.as_bytes()), expected, "{input:?}");
    }
}

/// Two's complement: FFFFFFFFFFFFFFFF is −1.
#[test]
fn multipliers_are_twos_complement() {
    let text = "DUAL FFFFFFFFFFFFFFFF 8000000000000000 7FFFFFFFFFFFFFFF\n";
    let read = read_lines(text.as_bytes()).expect("a sound line");
    assert_eq!(read.multipliers, [-1, i64::MIN, i64::MAX]);
}

/// A scale out of range is refusal 4, after the data's tests.
#[test]
fn scale_out_of_range_comes_after_the_data() {
    for seed in 0..20 {
        let mut case = small_case(seed);
        for scale in [0, 1001, u32::MAX] {
            case.scale = scale;
            let text = join(&sound_lines(&mut Random::new(seed), &case));
            assert_eq!(run(&text), "R 4 0\n");
        }
        case.data[0] = 9;
        let text = join(&sound_lines(&mut Random::new(seed), &case));
        assert_eq!(run(&text), "R 1 0\n");
    }
}

/// Whatever the bytes, one line is printed.
#[test]
fn any_bytes_are_answered() {
    let mut random = Random::new(4);
    for _ in 0..20_000 {
        let input = noise(&mut random);
        let answer = run(&input);
        assert!(answer.ends_with('\n') && answer.len() > 4, "{answer:?}");
        assert!(answer.starts_with("R ") || answer.starts_with("A "));
    }
}
