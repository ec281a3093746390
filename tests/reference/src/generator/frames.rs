//! The program's text input: a case written as lines, and damaged lines.

use super::draft::Case;
use super::random::Random;

/// The most numbers of DATA, PLAN and DUAL that an input may have.
pub const MOST_DATA: usize = 4096;
pub const MOST_PLAN: usize = 2048;
pub const MOST_DUAL: usize = 4096;

/// An input and, where it is a Frame, its line.
#[derive(Clone, Debug)]
pub struct Text {
    pub label: String,
    pub bytes: Vec<u8>,
    pub frame_line: Option<u64>,
}

/// Whether a case is small enough for the program.
pub fn fits(case: &Case) -> bool {
    case.data.len() <= MOST_DATA
        && case.plan.len() <= MOST_PLAN
        && case.multipliers.len() <= MOST_DUAL
}

/// The case as lines of varying length, the words mixed. A scale of 1000, which is
/// taken where there is no SCAL line, is left out half of the time.
pub fn sound_lines(random: &mut Random, case: &Case) -> Vec<Vec<u8>> {
    let [data, plan, duals] = digits(case);
    let data = split(random, "DATA", &data);
    let plan = split(random, "PLAN", &plan);
    let dual = split(random, "DUAL", &duals);
    let mut scale = vec![];
    if case.scale != 1000 || random.chance(1, 2) {
        scale.push(scale_line(case.scale));
    }
    mix(random, vec![data, plan, dual, scale])
}

/// The case as lines of `most` numbers, the last of each word with what is left:
/// DATA, PLAN, SCAL, DUAL. The scale is written whatever it is.
pub fn plain_lines(case: &Case, most: usize) -> Vec<Vec<u8>> {
    let [data, plan, duals] = digits(case);
    let mut lines = cut("DATA", &data, || most);
    lines.extend(cut("PLAN", &plan, || most));
    lines.push(scale_line(case.scale));
    lines.extend(cut("DUAL", &duals, || most));
    lines
}

/// The numbers of DATA, PLAN and DUAL in their digits.
fn digits(case: &Case) -> [Vec<String>; 3] {
    let words = |list: &[u32]| list.iter().map(|number| format!("{number:08X}")).collect();
    let duals = case.multipliers.iter().map(|m| format!("{m:016X}"));
    [words(&case.data), words(&case.plan), duals.collect()]
}

pub fn scale_line(scale: u32) -> Vec<u8> {
    format!("SCAL {scale:08X}").into_bytes()
}

/// Whether a line of the text opens with SCAL, be it a good line or a Frame.
pub fn has_scale_line(text: &[u8]) -> bool {
    text.split(|&byte| byte == b'\n')
        .any(|line| line.starts_with(b"SCAL"))
}

/// The text without the lines that open with SCAL; every other line stays as it is.
pub fn without_scale_line(text: &[u8]) -> Vec<u8> {
    let lines = text.split_inclusive(|&byte| byte == b'\n');
    let others = lines.filter(|line| !line.starts_with(b"SCAL"));
    others.collect::<Vec<_>>().concat()
}

/// Lines of 64 numbers, or of 1..64.
fn split(random: &mut Random, word: &str, numbers: &[String]) -> Vec<Vec<u8>> {
    match random.chance(1, 3) {
        true => cut(word, numbers, || 64),
        false => cut(word, numbers, || random.between(1, 64) as usize),
    }
}

/// Lines of as many numbers as `count` says for each.
fn cut(word: &str, numbers: &[String], mut count: impl FnMut() -> usize) -> Vec<Vec<u8>> {
    let mut lines = vec![];
    let mut rest = numbers;
    while !rest.is_empty() {
        let (line, later) = rest.split_at(count().min(rest.len()));
        lines.push(format!("{word} {}", line.join(" ")).into_bytes());
        rest = later;
    }
    lines
}

/// Takes lines from the lists in a drawn order, each list in its own order.
fn mix(random: &mut Random, mut lists: Vec<Vec<Vec<u8>>>) -> Vec<Vec<u8>> {
    let mut lines = vec![];
    for list in &mut lists {
        list.reverse();
    }
    loop {
        lists.retain(|list| !list.is_empty());
        if lists.is_empty() {
            return lines;
        }
        let chosen = random.below(lists.len() as u64) as usize;
        lines.extend(lists[chosen].pop());
    }
}

/// Every line with its line feed.
pub fn join(lines: &[Vec<u8>]) -> Vec<u8> {
    let mut bytes = vec![];
    for line in lines {
        bytes.extend_from_slice(line);
        bytes.push(b'\n');
    }
    bytes
}

/// What is done to one line.
#[derive(Clone, Copy, Debug, PartialEq, Eq)]
pub enum LineDamage {
    EmptyLine,
    CarriageReturn,
    LowerCaseDigit,
    OtherDigit,
    DoubleSpace,
    TrailingSpace,
    LeadingSpace,
    Tab,
    NoSpaceAfterWord,
    MissingDigit,
    ExtraDigit,
    OtherWidth,
    OtherWord,
    LowerCaseWord,
    WordAlone,
    WordAndSpace,
    ShortLine,
    SixtyFiveNumbers,
    SecondScale,
    TwoScales,
    SplitLine,
    OtherByte,
    NoLastLineFeed,
    TooMuchData,
    TooMuchPlan,
    TooManyMultipliers,
}

pub const LINE_DAMAGES: [LineDamage; 26] = [
    LineDamage::EmptyLine,
    LineDamage::CarriageReturn,
    LineDamage::LowerCaseDigit,
    LineDamage::OtherDigit,
    LineDamage::DoubleSpace,
    LineDamage::TrailingSpace,
    LineDamage::LeadingSpace,
    LineDamage::Tab,
    LineDamage::NoSpaceAfterWord,
    LineDamage::MissingDigit,
    LineDamage::ExtraDigit,
    LineDamage::OtherWidth,
    LineDamage::OtherWord,
    LineDamage::LowerCaseWord,
    LineDamage::WordAlone,
    LineDamage::WordAndSpace,
    LineDamage::ShortLine,
    LineDamage::SixtyFiveNumbers,
    LineDamage::SecondScale,
    LineDamage::TwoScales,
    LineDamage::SplitLine,
    LineDamage::OtherByte,
    LineDamage::NoLastLineFeed,
    LineDamage::TooMuchData,
    LineDamage::TooMuchPlan,
    LineDamage::TooManyMultipliers,
];

/// A damaged input and the line at which it is a Frame. The lines before it are
/// sound; what follows it does not matter.
pub fn damaged(random: &mut Random, case: &Case, chosen: LineDamage) -> Text {
    let mut lines = sound_lines(random, case);
    let at = random.below(lines.len() as u64) as usize;
    let frame_at = match chosen {
        LineDamage::NoLastLineFeed => {
            let mut bytes = join(&lines);
            bytes.pop();
            return text(chosen, bytes, lines.len());
        }
        LineDamage::TooMuchData => too_many(random, &mut lines, "DATA", 8, MOST_DATA),
        LineDamage::TooMuchPlan => too_many(random, &mut lines, "PLAN", 8, MOST_PLAN),
        LineDamage::TooManyMultipliers => too_many(random, &mut lines, "DUAL", 16, MOST_DUAL),
        LineDamage::EmptyLine => {
            lines.insert(at, vec![]);
            at
        }
        LineDamage::SixtyFiveNumbers => {
            lines.insert(at, line_of("DATA", 8, 65));
            at
        }
        LineDamage::TwoScales => {
            lines.retain(|line| !line.starts_with(b"SCAL"));
            let at = at.min(lines.len());
            lines.insert(at, line_of("SCAL", 8, 2));
            at
        }
        LineDamage::SecondScale => {
            if !lines.iter().any(|line| line.starts_with(b"SCAL")) {
                lines.insert(at, line_of("SCAL", 8, 1));
            }
            let first = lines.iter().position(|line| line.starts_with(b"SCAL"));
            let first = first.expect("a SCAL line");
            let later = random.between(first as u64 + 1, lines.len() as u64) as usize;
            lines.insert(later, line_of("SCAL", 8, 1));
            later
        }
        LineDamage::SplitLine => {
            // A line feed inside a number: the first part is bad.
            let line = lines[at].clone();
            let place = line.len() - 1 - random.below(6) as usize;
            lines[at] = line[..place].to_vec();
            lines.insert(at + 1, line[place..].to_vec());
            at
        }
        _ => {
            damage_line(random, &mut lines[at], chosen);
            at
        }
    };
    text(chosen, join(&lines), frame_at + 1)
}

fn text(chosen: LineDamage, bytes: Vec<u8>, line: usize) -> Text {
    Text {
        label: format!("{chosen:?}"),
        bytes,
        frame_line: Some(line as u64),
    }
}

/// A line of as many numbers, each 0.
pub fn line_of(word: &str, digits: usize, numbers: usize) -> Vec<u8> {
    let mut line = word.to_string();
    for _ in 0..numbers {
        line.push(' ');
        line.push_str(&"0".repeat(digits));
    }
    line.into_bytes()
}

/// Adds lines of a word until its total is past the most; answers the place of
/// the line on which it passes.
fn too_many(
    random: &mut Random,
    lines: &mut Vec<Vec<u8>>,
    word: &str,
    digits: usize,
    most: usize,
) -> usize {
    let present: usize = lines
        .iter()
        .filter(|line| line.starts_with(word.as_bytes()))
        .map(|line| (line.len() - word.len()) / (digits + 1))
        .sum();
    let mut total = present;
    // At times the most itself is met exactly, and one number more passes it.
    let exact = random.chance(1, 2);
    loop {
        let room = most - total;
        let count = match exact {
            true if room == 0 => 1,
            true => room.min(64),
            false => random.between(1, 64) as usize,
        };
        lines.push(line_of(word, digits, count));
        total += count;
        if total > most {
            let passing = lines.len() - 1;
            lines.push(line_of("DATA", 8, 1));
            return passing;
        }
    }
}

/// The places of the first byte of each number of a line.
fn number_starts(line: &[u8]) -> Vec<usize> {
    (1..line.len())
        .filter(|&place| line[place - 1] == b' ')
        .collect()
}

/// Damages that stay within one line.
fn damage_line(random: &mut Random, line: &mut Vec<u8>, chosen: LineDamage) {
    let start = *random.pick(&number_starts(line));
    let digit = start + random.below(8) as usize;
    match chosen {
        LineDamage::CarriageReturn => line.push(b'\r'),
        LineDamage::LowerCaseDigit => line[digit] = *random.pick(b"abcdef"),
        LineDamage::OtherDigit => line[digit] = *random.pick(b"GZ@/:`gx-+.,_"),
        LineDamage::DoubleSpace => line.insert(start, b' '),
        LineDamage::TrailingSpace => line.push(b' '),
        LineDamage::LeadingSpace => line.insert(0, b' '),
        LineDamage::Tab => line[start - 1] = b'\t',
        LineDamage::NoSpaceAfterWord => {
            line.remove(4);
        }
        LineDamage::MissingDigit => {
            line.remove(digit);
        }
        LineDamage::ExtraDigit => line.insert(digit, b'0'),
        LineDamage::OtherWidth => {
            let (word, digits) = match &line[..4] {
                b"DUAL" => ("DUAL", 8),
                b"PLAN" => ("PLAN", 16),
                b"SCAL" => ("SCAL", 16),
                _ => ("DATA", 16),
            };
            *line = line_of(word, digits, 1);
        }
        LineDamage::OtherWord => {
            let word = random.pick(&[b"DATB", b"PLAM", b"SCAM", b"DUEL", b"LOGS", b"\0\0\0\0"]);
            line[..4].copy_from_slice(*word);
        }
        LineDamage::LowerCaseWord => line[..4].make_ascii_lowercase(),
        LineDamage::WordAlone => line.truncate(4),
        LineDamage::WordAndSpace => line.truncate(5),
        LineDamage::ShortLine => line.truncate(random.between(1, 3) as usize),
        LineDamage::OtherByte => {
            let place = random.below(line.len() as u64) as usize;
            line[place] = *random.pick(&[0, 0x0B, 0x0C, 0x1A, 0x7F, 0x80, 0xA0, 0xFF]);
        }
        _ => unreachable!("{chosen:?} is not a damage within one line"),
    }
}

/// An input for the program, sound or damaged, of a case that fits.
pub fn text_of(random: &mut Random, case: &Case) -> Text {
    if random.chance(1, 2) && !sound_lines(random, case).is_empty() {
        let chosen = *random.pick(&LINE_DAMAGES);
        return damaged(random, case, chosen);
    }
    Text {
        label: "sound lines".to_string(),
        bytes: join(&sound_lines(random, case)),
        frame_line: None,
    }
}

/// Bytes that look like the program's input but were put together at random.
pub fn noise(random: &mut Random) -> Vec<u8> {
    let pieces: [&[u8]; 12] = [
        b"DATA",
        b"PLAN",
        b"SCAL",
        b"DUAL",
        b" 00000001",
        b" 00000001",
        b" 0000000000000000",
        b" FFFFFFFF",
        b"\n",
        b"\n",
        b" ",
        b"\r",
    ];
    let mut bytes = vec![];
    for _ in 0..random.below(40) {
        if random.chance(1, 12) {
            bytes.push(random.bits() as u8);
        } else {
            bytes.extend_from_slice(random.pick::<&[u8]>(&pieces));
        }
    }
    bytes
}
