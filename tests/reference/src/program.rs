//! Document 01, "The certify program", its open words as docs/DECISIONS.md decides
//! them under the same heading.

use crate::calls::certify;
use crate::refusal::{Refusal, FRAME};

const NUMBERS_IN_LINE: usize = 64;
const DATA_NUMBERS: usize = 4096;
const PLAN_NUMBERS: usize = 2048;
const DUAL_NUMBERS: usize = 4096;

/// N without a SCAL line: request (v), "plans come in thousandths". The program alone has it;
/// the calls are handed their N.
const SCALE_WHEN_ABSENT: u32 = 1000;

/// What the lines of an input join to.
#[derive(Clone, Debug, Default, PartialEq, Eq)]
pub struct Input {
    pub data: Vec<u32>,
    pub plan: Vec<u32>,
    pub scale: Option<u32>,
    pub multipliers: Vec<i64>,
}

/// The line the program prints for an input.
pub fn run(input: &[u8]) -> String {
    answer_line(answer(input))
}

/// The line that tells an answer of certify.
pub fn answer_line(answer: Result<(u64, u64), Refusal>) -> String {
    match answer {
        Ok((cost, gap)) => format!("A {cost} {gap}\n"),
        Err(refusal) => format!("R {} {}\n", refusal.number, refusal.place),
    }
}

/// The answer that `run` prints. Every line is read before anything else is
/// tested, so a Frame comes before every other refusal.
pub fn answer(input: &[u8]) -> Result<(u64, u64), Refusal> {
    let read = read_lines(input)?;
    certify(&read.data, read.scale(), &read.plan, &read.multipliers)
}

/// The lines joined by word, or the first line that is a Frame.
pub fn read_lines(input: &[u8]) -> Result<Input, Refusal> {
    let mut read = Input::default();
    let mut rest = input;
    let mut line_number = 0;
    while !rest.is_empty() {
        line_number += 1;
        let frame = Refusal::at(FRAME, line_number);
        let end = rest.iter().position(|&byte| byte == b'\n').ok_or(frame)?;
        read.join(&rest[..end]).ok_or(frame)?;
        rest = &rest[end + 1..];
    }
    Ok(read)
}

impl Input {
    /// N as the SCAL line has it, in range or not; only where there is none, the default.
    pub fn scale(&self) -> u32 {
        self.scale.unwrap_or(SCALE_WHEN_ABSENT)
    }

    /// Joins a line given without its line feed; `None` when it is not a line of
    /// the program or takes a total past its limit.
    fn join(&mut self, line: &[u8]) -> Option<()> {
        let (word, numbers) = line.split_at_checked(4)?;
        match word {
            b"DATA" => {
                let numbers = read_numbers(numbers, 8)?;
                self.data
                    .extend(numbers.iter().map(|&number| number as u32));
            }
            b"PLAN" => {
                let numbers = read_numbers(numbers, 8)?;
                self.plan
                    .extend(numbers.iter().map(|&number| number as u32));
            }
            b"SCAL" => {
                let numbers = read_numbers(numbers, 8)?;
                if numbers.len() != 1 || self.scale.is_some() {
                    return None;
                }
                self.scale = Some(numbers[0] as u32);
            }
            b"DUAL" => {
                let numbers = read_numbers(numbers, 16)?;
                // Two's complement: the 64 bits are taken as they are.
                self.multipliers
                    .extend(numbers.iter().map(|&number| number as i64));
            }
            _ => return None,
        }
        let fits = self.data.len() <= DATA_NUMBERS
            && self.plan.len() <= PLAN_NUMBERS
            && self.multipliers.len() <= DUAL_NUMBERS;
        fits.then_some(())
    }
}

/// 1..64 numbers, each after one space, of `digits` digits each.
fn read_numbers(text: &[u8], digits: usize) -> Option<Vec<u64>> {
    let width = 1 + digits;
    let count = text.len() / width;
    if !text.len().is_multiple_of(width) || !(1..=NUMBERS_IN_LINE).contains(&count) {
        return None;
    }
    text.chunks(width).map(read_number).collect()
}

/// One space and capital hexadecimal digits.
fn read_number(text: &[u8]) -> Option<u64> {
    let (space, digits) = text.split_first()?;
    if *space != b' ' {
        return None;
    }
    let mut number = 0;
    for &digit in digits {
        number = number << 4 | u64::from(digit_value(digit)?);
    }
    Some(number)
}

fn digit_value(digit: u8) -> Option<u8> {
    match digit {
        b'0'..=b'9' => Some(digit - b'0'),
        b'A'..=b'F' => Some(digit - b'A' + 10),
        _ => None,
    }
}
