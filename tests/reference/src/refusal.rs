//! Document 01, "Refusals by number", and the refusals that requests append.

use std::fmt;

/// The answer of a call that refuses: the number of the table and the place.
#[derive(Clone, Copy, Debug, PartialEq, Eq)]
pub struct Refusal {
    pub number: u32,
    pub place: u64,
}

pub const SHAPE: u32 = 1;
pub const DATA_LENGTH: u32 = 2;
pub const ENTRY: u32 = 3;
pub const SCALE: u32 = 4;
pub const PLAN_LENGTH: u32 = 5;
pub const ROW_OFF_SCALE: u32 = 6;
pub const BROKEN: u32 = 7;
pub const COST_OFF_SCALE: u32 = 8;
pub const MULTIPLIER_COUNT: u32 = 9;
pub const MULTIPLIER: u32 = 10;
pub const COLUMN_OFF_SCALE: u32 = 11;
pub const UNDERPRICED: u32 = 12;
pub const GAP_OFF_SCALE: u32 = 13;
pub const BOARD: u32 = 14;
pub const FRAME: u32 = 15;
pub const STORAGE: u32 = 16;

/// How many refusals there are; they number from 1.
pub const REFUSAL_COUNT: usize = 16;

/// The refusals of data, scale and plan, which check, certify and post all test.
pub const OF_ALL_CALLS: [u32; 9] = [
    SHAPE,
    DATA_LENGTH,
    ENTRY,
    STORAGE,
    SCALE,
    PLAN_LENGTH,
    ROW_OFF_SCALE,
    BROKEN,
    COST_OFF_SCALE,
];

/// The refusals that certify tests beside them, and the one that post does.
pub const OF_CERTIFY: [u32; 5] = [
    MULTIPLIER_COUNT,
    MULTIPLIER,
    COLUMN_OFF_SCALE,
    UNDERPRICED,
    GAP_OFF_SCALE,
];
pub const OF_POST: [u32; 1] = [BOARD];

/// The refusals whose place is a row, a column or an entry: one of a family or a table.
pub const PLACED: [u32; 6] = [
    ENTRY,
    ROW_OFF_SCALE,
    BROKEN,
    MULTIPLIER,
    COLUMN_OFF_SCALE,
    UNDERPRICED,
];

/// The word of each refusal; refusal `n` is at place `n - 1`.
pub const WORDS: [&str; REFUSAL_COUNT] = [
    "Shape",
    "Data length",
    "Entry",
    "Scale",
    "Plan length",
    "Row off scale",
    "Broken",
    "Cost off scale",
    "Multiplier count",
    "Multiplier",
    "Column off scale",
    "Underpriced",
    "Gap off scale",
    "Board",
    "Frame",
    "Storage",
];

impl Refusal {
    pub fn at(number: u32, place: usize) -> Refusal {
        Refusal {
            number,
            place: place as u64,
        }
    }

    pub fn word(&self) -> &'static str {
        WORDS[self.number as usize - 1]
    }
}

impl fmt::Display for Refusal {
    fn fmt(&self, f: &mut fmt::Formatter<'_>) -> fmt::Result {
        write!(f, "{} ({}) at {}", self.number, self.word(), self.place)
    }
}
