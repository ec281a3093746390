//! Inputs of the program as large as any that can be accepted, and larger.
//!
//! The longest lines that are no Frame have one number each: 4096 + 2048 + 4096
//! numbers and a SCAL line make 176,142 bytes. Whatever follows them is a Frame
//! within its first line.

use super::bytes::Labelled;
use super::draft::Case;
use super::frames::{join, line_of, plain_lines, MOST_DATA, MOST_DUAL, MOST_PLAN};
use super::sound_case;
use crate::shape::Shape;

/// More than any buffer of the program.
const FAR: usize = 2_000_000;

/// Of all shapes that fit the program these have the longest text and as many
/// rows as DUAL may have numbers.
const LARGEST_SHAPES: [[usize; 7]; 2] = [[8, 28, 8, 4, 1, 1, 2], [7, 32, 6, 2, 1, 2, 2]];

/// Lists as long as the program takes, all 0, at scale 0.
fn full_lists() -> Case {
    Case {
        data: vec![0; MOST_DATA],
        scale: 0,
        plan: vec![0; MOST_PLAN],
        multipliers: vec![0; MOST_DUAL],
        ..Case::default()
    }
}

/// What may follow the lines: nothing, a line too many, a line that never ends.
fn tails() -> Vec<Vec<u8>> {
    let line = |word: &str, digits: usize, numbers: usize| join(&[line_of(word, digits, numbers)]);
    let endless = |word: &str, digits: usize| line_of(word, digits, FAR / (digits + 1));
    vec![
        vec![],
        line("DATA", 8, 1),
        line("DATA", 8, 64),
        line("PLAN", 8, 1),
        line("SCAL", 8, 1),
        line("DUAL", 16, 1),
        line("DUAL", 16, 64),
        line("DUAL", 16, 65),
        line_of("DUAL", 16, 64),
        b"\n".to_vec(),
        b"D".to_vec(),
        b"DATA".to_vec(),
        endless("DATA", 8),
        endless("SCAL", 8),
        endless("DUAL", 16),
        line("DATA", 8, 1).repeat(FAR / 14),
        line("DUAL", 16, 64).repeat(FAR / 1093),
        b"\n".repeat(FAR),
        b"X\n".repeat(FAR),
        vec![b'X'; FAR],
        vec![0; FAR],
    ]
}

/// Every tail after no line, after one good line and after lines up to every
/// limit, one number to a line and 64; and lines one short of a limit, so that
/// one more good line comes before the tail.
pub fn larger_than_any_buffer() -> Vec<Labelled> {
    let full = full_lists();
    let mut short = full.clone();
    short.data.pop();
    let one_to_a_line = join(&plain_lines(&full, 1));
    let starts = [
        vec![],
        join(&[line_of("SCAL", 8, 1)]),
        join(&plain_lines(&full, 64)),
        join(&[plain_lines(&short, 1), vec![line_of("DATA", 8, 1)]].concat()),
        one_to_a_line,
    ];
    let mut inputs = vec![];
    for start in &starts {
        for tail in tails() {
            inputs.push((
                "limits and beyond".to_string(),
                [&start[..], &tail].concat(),
            ));
        }
    }
    inputs
}

/// Inputs of a length given to the byte: good lines up to every limit, then a
/// line that never ends.
pub fn of_lengths(lengths: &[usize]) -> Vec<Labelled> {
    let start = join(&plain_lines(&full_lists(), 1));
    let input = |&length: &usize| {
        let mut bytes = start.clone();
        bytes.extend(line_of("DUAL", 16, length / 17));
        bytes.truncate(length);
        ("about the buffer's length".to_string(), bytes)
    };
    lengths.iter().map(input).collect()
}

/// Sound cases of the largest shapes, one number to a line and 64; each whole,
/// and with one good line more after which the plan is too long.
pub fn largest_accepted() -> Vec<Labelled> {
    let mut inputs = vec![];
    for counts in LARGEST_SHAPES {
        let case = sound_case(Shape::new(counts), 1);
        for most in [1, 64] {
            let text = join(&plain_lines(&case, most));
            let longer = [&text[..], &join(&[line_of("PLAN", 8, 1)])].concat();
            inputs.push(("largest shapes".to_string(), text));
            inputs.push(("largest shapes".to_string(), longer));
        }
    }
    inputs
}
