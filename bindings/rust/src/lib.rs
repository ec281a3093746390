//! check, certify and post: electricity capacity and dispatch plans tested, priced
//! and bounded, proved in Rattle and linked from `target/staticlib/libepm_c.a`. Any
//! lists may be handed over, of any length and content. `include/epm.h` says what
//! the lists are, what is promised of the answers and by what; `docs/FORMAT.md` has
//! the equations, the prices, the refusals, and the order, unit and range of every
//! table.
//!
//! ```
//! // The data list is shorter than its seven counts.
//! let refusal = epm::check(&[1, 1], 1, &[]).unwrap_err();
//! assert_eq!(refusal.reason, epm::Reason::DataLength);
//! assert_eq!(refusal.to_string(), "refusal 2: the data are shorter than the 7 counts");
//! ```

pub mod raw;
mod refusal;

pub use refusal::{Reason, Refusal};

/// What certify answers of a plan that it accepts, both in millionths of a money
/// unit times the plan's scale. No plan that meets the equations costs less than
/// cost − gap, at the same scale.
#[derive(Clone, Copy, Debug, PartialEq, Eq)]
pub struct Certificate {
    pub cost: u64,
    /// It may be larger than the cost.
    pub gap: u64,
}

/// Tests the plan, in `scale`ths, against every equation; its cost in millionths
/// of a money unit times the scale, or the first refusal of 1 to 3, 16 and 4 to 8,
/// which are tested in this order.
pub fn check(data: &[u32], scale: u32, plan: &[u32]) -> Result<u64, Refusal> {
    let mut out = UNWRITTEN;
    let answer = raw::check(data, scale, plan, &mut out);
    cost_of(answer, out)
}

/// The tests of check, then those of the multipliers, one for each row; the cost
/// and the gap, or the first refusal of check's and 9 to 13.
pub fn certify(
    data: &[u32],
    scale: u32,
    plan: &[u32],
    multipliers: &[i64],
) -> Result<Certificate, Refusal> {
    let mut out = UNWRITTEN;
    let answer = raw::certify(data, scale, plan, multipliers, &mut out);
    let [cost, gap] = figures(answer, out)?;
    Ok(Certificate { cost, gap })
}

/// The tests of check, then that the year and the board's places exist. Writes the
/// year's generation to the board from place `start` on; every other place keeps
/// its number, and all do on a refusal. The cost, or the first refusal of check's
/// and 14.
pub fn post(
    data: &[u32],
    scale: u32,
    plan: &[u32],
    year: usize,
    board: &mut [u32],
    start: usize,
) -> Result<u64, Refusal> {
    let mut out = UNWRITTEN;
    let answer = raw::post(data, scale, plan, year, board, start, &mut out);
    cost_of(answer, out)
}

/// What stands in `out` before a call; no answer leaves it there.
const UNWRITTEN: [u64; 2] = [u64::MAX; 2];

fn figures(answer: u32, out: [u64; 2]) -> Result<[u64; 2], Refusal> {
    match answer {
        raw::ACCEPTED => Ok(out),
        number => {
            debug_assert_eq!(out[1], 0, "a refusal has one figure");
            Err(Refusal::of(number, out[0]))
        }
    }
}

fn cost_of(answer: u32, out: [u64; 2]) -> Result<u64, Refusal> {
    let [cost, other] = figures(answer, out)?;
    debug_assert_eq!(other, 0, "a cost has one figure");
    Ok(cost)
}
