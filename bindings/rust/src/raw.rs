//! The calls as they are exported. `include/epm.h` documents them: what is
//! returned, what is written, and what the caller of the `epm_` functions sees to.

extern "C" {
    pub fn epm_check(
        data: *const u32,
        data_len: usize,
        scale: u32,
        plan: *const u32,
        plan_len: usize,
        out: *mut u64,
        out_len: usize,
    ) -> u32;

    pub fn epm_certify(
        data: *const u32,
        data_len: usize,
        scale: u32,
        plan: *const u32,
        plan_len: usize,
        multipliers: *const i64,
        multipliers_len: usize,
        out: *mut u64,
        out_len: usize,
    ) -> u32;

    pub fn epm_post(
        data: *const u32,
        data_len: usize,
        scale: u32,
        plan: *const u32,
        plan_len: usize,
        year: usize,
        board: *mut u32,
        board_len: usize,
        start: usize,
        out: *mut u64,
        out_len: usize,
    ) -> u32;
}

/// Returned where the plan is accepted.
pub const ACCEPTED: u32 = 0;

/// Returned where `out` is shorter than 2; nothing is written then.
pub const OUT_TOO_SHORT: u32 = 255;

/// `epm_check` over slices.
pub fn check(data: &[u32], scale: u32, plan: &[u32], out: &mut [u64]) -> u32 {
    // SAFETY: each pointer and length is that of one slice, borrowed for the
    // call; the one slice that is written overlaps no other.
    unsafe {
        epm_check(
            data.as_ptr(),
            data.len(),
            scale,
            plan.as_ptr(),
            plan.len(),
            out.as_mut_ptr(),
            out.len(),
        )
    }
}

/// `epm_certify` over slices.
pub fn certify(
    data: &[u32],
    scale: u32,
    plan: &[u32],
    multipliers: &[i64],
    out: &mut [u64],
) -> u32 {
    // SAFETY: as in `check`.
    unsafe {
        epm_certify(
            data.as_ptr(),
            data.len(),
            scale,
            plan.as_ptr(),
            plan.len(),
            multipliers.as_ptr(),
            multipliers.len(),
            out.as_mut_ptr(),
            out.len(),
        )
    }
}

/// `epm_post` over slices.
pub fn post(
    data: &[u32],
    scale: u32,
    plan: &[u32],
    year: usize,
    board: &mut [u32],
    start: usize,
    out: &mut [u64],
) -> u32 {
    // SAFETY: as in `check`; `board` is borrowed mutably too.
    unsafe {
        epm_post(
            data.as_ptr(),
            data.len(),
            scale,
            plan.as_ptr(),
            plan.len(),
            year,
            board.as_mut_ptr(),
            board.len(),
            start,
            out.as_mut_ptr(),
            out.len(),
        )
    }
}
