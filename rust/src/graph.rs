//! Graph design. A graph has `n_b` base columns (4 to 64), `k_b` of them for information and `m_b = n_b - k_b` rows; its
//! information columns are lent as `3 * k_b` rows and as many shifts, column after column.
use crate::{call, sys, Refusal};

/// How many of `n_b` columns carry information at a rate in percent.
pub fn information_columns(n_b: usize, percent: usize) -> Result<usize, Refusal> {
    // SAFETY: as `call` says.
    let answer =
        call(|answer, len| unsafe { sys::fuyegbo_information_columns(n_b, percent, answer, len) })?;
    Ok(answer[0])
}

/// Progressive edge growth: writes the rows.
pub fn peg(n_b: usize, k_b: usize, rows: &mut [u8]) -> Result<(), Refusal> {
    // SAFETY: as `call` says.
    call(|answer, len| unsafe {
        sys::fuyegbo_peg(n_b, k_b, rows.as_mut_ptr(), rows.len(), answer, len)
    })?;
    Ok(())
}

/// Writes a shift below 512 for each row.
pub fn assign_shifts(
    n_b: usize,
    k_b: usize,
    rows: &[u8],
    seed: u64,
    shifts: &mut [u16],
) -> Result<(), Refusal> {
    // SAFETY: as `call` says.
    call(|answer, len| unsafe {
        sys::fuyegbo_assign_shifts(
            n_b,
            k_b,
            rows.as_ptr(),
            rows.len(),
            seed,
            shifts.as_mut_ptr(),
            shifts.len(),
            answer,
            len,
        )
    })?;
    Ok(())
}

/// `peg` and then `assign_shifts`, for a rate in percent.
pub fn build(
    n_b: usize,
    percent: usize,
    seed: u64,
    rows: &mut [u8],
    shifts: &mut [u16],
) -> Result<(), Refusal> {
    // SAFETY: as `call` says.
    call(|answer, len| unsafe {
        sys::fuyegbo_build(
            n_b,
            percent,
            seed,
            rows.as_mut_ptr(),
            rows.len(),
            shifts.as_mut_ptr(),
            shifts.len(),
            answer,
            len,
        )
    })?;
    Ok(())
}

/// The four-cycles among the information columns at lift `z`, each counted once.
pub fn four_cycles(
    n_b: usize,
    k_b: usize,
    rows: &[u8],
    shifts: &[u16],
    z: usize,
) -> Result<usize, Refusal> {
    // SAFETY: as `call` says.
    let answer = call(|answer, len| unsafe {
        sys::fuyegbo_four_cycles(
            n_b,
            k_b,
            rows.as_ptr(),
            rows.len(),
            shifts.as_ptr(),
            shifts.len(),
            z,
            answer,
            len,
        )
    })?;
    Ok(answer[0])
}
