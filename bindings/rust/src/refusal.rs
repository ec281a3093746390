//! The refusals by number (`docs/FORMAT.md`, "Refusals"), but for 15, which only the
//! programs give.

use std::error::Error;
use std::fmt;

/// What is wrong; as a number, that of `docs/FORMAT.md`, "Refusals". `include/epm.h`
/// says when each is given.
#[derive(Clone, Copy, Debug, PartialEq, Eq)]
pub enum Reason {
    Shape = 1,
    DataLength = 2,
    Entry = 3,
    Scale = 4,
    PlanLength = 5,
    RowOffScale = 6,
    Broken = 7,
    CostOffScale = 8,
    MultiplierCount = 9,
    Multiplier = 10,
    ColumnOffScale = 11,
    Underpriced = 12,
    GapOffScale = 13,
    Board = 14,
    Storage = 16,
}

/// All of them, by number.
const REASONS: [Reason; 15] = [
    Reason::Shape,
    Reason::DataLength,
    Reason::Entry,
    Reason::Scale,
    Reason::PlanLength,
    Reason::RowOffScale,
    Reason::Broken,
    Reason::CostOffScale,
    Reason::MultiplierCount,
    Reason::Multiplier,
    Reason::ColumnOffScale,
    Reason::Underpriced,
    Reason::GapOffScale,
    Reason::Board,
    Reason::Storage,
];

/// A refusal: what is wrong, and where. Printed, it says both in words.
#[derive(Clone, Copy, Debug, PartialEq, Eq)]
pub struct Refusal {
    pub reason: Reason,
    /// The count, entry, plant, row or column, numbered from 0; or the length that a
    /// list should have; or 0.
    pub place: u64,
}

impl Refusal {
    /// Its number in `docs/FORMAT.md`, "Refusals".
    pub fn number(&self) -> u32 {
        self.reason as u32
    }

    /// The refusal of a number that a call returned.
    pub(crate) fn of(number: u32, place: u64) -> Refusal {
        let reason = REASONS.into_iter().find(|reason| *reason as u32 == number);
        Refusal {
            reason: reason.expect("the contract of the calls has no other number"),
            place,
        }
    }
}

impl fmt::Display for Refusal {
    fn fmt(&self, f: &mut fmt::Formatter<'_>) -> fmt::Result {
        let place = self.place;
        write!(f, "refusal {}: ", self.number())?;
        match self.reason {
            Reason::Shape => write!(
                f,
                "count {place} (0 zones, 1 plants, 2 fuels, 3 seasons, 4 days, 5 hours, 6 years) is out of range"
            ),
            Reason::DataLength if place == 7 => write!(f, "the data are shorter than the 7 counts"),
            Reason::DataLength => write!(
                f,
                "the data do not have the length that their counts give, {place}"
            ),
            Reason::Entry => write!(f, "entry {place} of the data is out of its range"),
            Reason::Scale => write!(f, "the scale is not 1 to 1000"),
            Reason::PlanLength => write!(
                f,
                "the plan does not have {place} entries, one for each column"
            ),
            Reason::RowOffScale => write!(f, "a sum of row {place} passes 2^62 - 1"),
            Reason::Broken => write!(f, "the plan does not meet row {place}"),
            Reason::CostOffScale => write!(f, "the cost passes 2^62 - 1"),
            Reason::MultiplierCount => write!(
                f,
                "there are not {place} multipliers, one for each row"
            ),
            Reason::Multiplier => write!(f, "the multiplier of row {place} is out of its range"),
            Reason::ColumnOffScale => write!(f, "a sum of column {place} passes 2^62 - 1"),
            Reason::Underpriced => write!(
                f,
                "the multipliers ask more of column {place} than its price"
            ),
            Reason::GapOffScale => write!(f, "a sum of the gap passes 2^62 - 1"),
            Reason::Board => write!(
                f,
                "there is no such year, or the board has too few places from the start place on"
            ),
            Reason::Storage => write!(f, "plant {place} is a battery and has VRE set"),
        }
    }
}

impl Error for Refusal {}

#[cfg(test)]
mod tests {
    use super::*;

    #[test]
    fn each_number_is_its_reasons() {
        for number in (1..=14).chain([16]) {
            assert_eq!(Refusal::of(number, 3).number(), number);
        }
    }

    #[test]
    #[should_panic(expected = "no other number")]
    fn no_call_refuses_with_15() {
        Refusal::of(15, 1);
    }

    #[test]
    #[should_panic(expected = "no other number")]
    fn no_call_refuses_with_17() {
        Refusal::of(17, 1);
    }

    #[test]
    fn a_refusal_says_its_place() {
        let words = Refusal::of(7, 4).to_string();
        assert_eq!(words, "refusal 7: the plan does not meet row 4");
        let words = Refusal::of(16, 2).to_string();
        assert_eq!(words, "refusal 16: plant 2 is a battery and has VRE set");
    }
}
