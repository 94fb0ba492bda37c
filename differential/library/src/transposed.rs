//! On the transposed matrix (document 02, N3): straight on slices, with three buffers lent for it.

use std::ops::Deref;

use jobs::{Buffers, Job};

use crate::{called, exported, slices::lent, told, Slices, Told};

exported!(hazhendu_phi_combination_transposed, u32, f64, [u32, u32, f64], [degree: u32], [], u32, u32, u64);
exported!(hazhendu_phi_action_transposed, u32, f64, [u32, u32, f64], [degree: u32], [], u32, u32, u64);
exported!(hazhendu_phi_action_batched_transposed, u32, f64, [u32, u32, f64], [degree: u32], [], u32, u32, u64);
exported!(hazhendu_phi_combination_krylov_transposed, u32, f64, [u32, u32, f64], [], [tol: f64, m: usize, max_substeps: usize], usize, usize, usize, shortest: f64, last: f64);

extern "C" {
    pub fn hazhendu_check_transposed(
        n: usize,
        starts: *const u32,
        starts_len: usize,
        cols: *const u32,
        cols_len: usize,
        vals: *const f64,
        vals_len: usize,
        with_mass: bool,
        mass: *const f64,
        mass_len: usize,
        t_starts: *mut u32,
        t_starts_len: usize,
        t_cols: *mut u32,
        t_cols_len: usize,
        t_vals: *mut f64,
        t_vals_len: usize,
        value: *mut f64,
        row: *mut usize,
    ) -> u32;
}

/// The matrix answer alone: number, double and row.
pub fn check(job: &Job, buffers: &mut Buffers) -> (u32, f64, usize) {
    put_matrix(job, &lent::<&[u32], &[f64]>(job), buffers)
}

pub fn put<N, D>(job: &Job, s: &Slices<N, D>, b: &mut Buffers, out: &mut [f64], work: &mut [f64]) -> Told
where
    N: Deref<Target = [u32]>,
    D: Deref<Target = [f64]>,
{
    told!(
        job,
        s,
        [b.starts, b.columns, b.values],
        out,
        work,
        hazhendu_phi_combination_transposed,
        hazhendu_phi_action_transposed,
        hazhendu_phi_action_batched_transposed,
        hazhendu_phi_combination_krylov_transposed
    )
}

/// SAFETY: as of `called!`.
pub fn put_matrix<N, D>(job: &Job, s: &Slices<N, D>, b: &mut Buffers) -> (u32, f64, usize)
where
    N: Deref<Target = [u32]>,
    D: Deref<Target = [f64]>,
{
    let (mut value, mut row) = (jobs::mark(0), !0);
    let number = unsafe {
        hazhendu_check_transposed(
            job.n,
            s.starts.as_ptr(),
            s.starts.len(),
            s.cols.as_ptr(),
            s.cols.len(),
            s.vals.as_ptr(),
            s.vals.len(),
            job.mass.is_some(),
            s.mass.as_ptr(),
            s.mass.len(),
            b.starts.as_mut_ptr(),
            b.starts.len(),
            b.columns.as_mut_ptr(),
            b.columns.len(),
            b.values.as_mut_ptr(),
            b.values.len(),
            &mut value,
            &mut row,
        )
    };
    (number, value, row)
}
