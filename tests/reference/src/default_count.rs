//! What a run of texts had without a SCAL line, which are read at the default scale: how many
//! were accepted, and by which refusals the others were refused.

use crate::generator::frames::has_scale_line;
use crate::met::{absent, Met};
use crate::program::read_lines;
use crate::refusal::{Refusal, FRAME, OF_ALL_CALLS, OF_CERTIFY, SCALE};
use std::fmt;

/// Counts over a run of texts; those with a SCAL line are passed over.
#[derive(Clone, Debug, Default, PartialEq, Eq)]
pub struct DefaultCount {
    accepted: u64,
    met: Met,
}

/// The refusals that a text without a SCAL line can meet: all of the program but that of the
/// scale, since the default is in range.
fn refusals() -> Vec<u32> {
    let mut numbers = [&[FRAME], &OF_ALL_CALLS[..], &OF_CERTIFY].concat();
    numbers.retain(|&number| number != SCALE);
    numbers
}

impl DefaultCount {
    /// Counts a text with its answer.
    pub fn count(&mut self, text: &[u8], answer: Result<(u64, u64), Refusal>) {
        if has_scale_line(text) {
            return;
        }
        match answer {
            Ok(_) => self.accepted += 1,
            Err(refusal) => {
                let read = read_lines(text).unwrap_or_default();
                self.met.count(&read.data, refusal);
            }
        }
    }

    /// The counts that are 0, in words.
    pub fn missing(&self) -> Vec<String> {
        let mut missing = self.met.missing(&refusals());
        missing.extend(absent(&[(self.accepted, "accepted")]));
        let without = |word: &String| format!("{word}, without a SCAL line");
        missing.iter().map(without).collect()
    }
}

impl fmt::Display for DefaultCount {
    fn fmt(&self, f: &mut fmt::Formatter<'_>) -> fmt::Result {
        let (accepted, refused) = (self.accepted, self.met.line(&refusals()));
        writeln!(
            f,
            "without a SCAL line: {accepted} accepted, refused {refused}"
        )
    }
}
