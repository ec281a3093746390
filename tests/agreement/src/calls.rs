//! The proved calls by the crate `epm`, their answers in the second
//! implementation's types.

use epm_reference::Refusal;

/// The cost, or the refusal.
pub fn check(data: &[u32], scale: u32, plan: &[u32]) -> Result<u64, Refusal> {
    epm::check(data, scale, plan).map_err(numbered)
}

/// The cost and the gap, or the refusal.
pub fn certify(
    data: &[u32],
    scale: u32,
    plan: &[u32],
    multipliers: &[i64],
) -> Result<(u64, u64), Refusal> {
    epm::certify(data, scale, plan, multipliers)
        .map(|certificate| (certificate.cost, certificate.gap))
        .map_err(numbered)
}

/// The cost, or the refusal; the board is written where the cost is answered.
pub fn post(
    data: &[u32],
    scale: u32,
    plan: &[u32],
    year: usize,
    board: &mut [u32],
    start: usize,
) -> Result<u64, Refusal> {
    epm::post(data, scale, plan, year, board, start).map_err(numbered)
}

fn numbered(refusal: epm::Refusal) -> Refusal {
    Refusal {
        number: refusal.number(),
        place: refusal.place,
    }
}
