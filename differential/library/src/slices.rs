//! Straight on slices of u32 and doubles.

use std::ops::Deref;

use jobs::Job;

use crate::{called, exported, told, Slices, Told};

exported!(hazhendu_phi_combination, u32, f64, [], [degree: u32], [], u32, u32, u64);
exported!(hazhendu_phi_action, u32, f64, [], [degree: u32], [], u32, u32, u64);
exported!(hazhendu_phi_action_batched, u32, f64, [], [degree: u32], [], u32, u32, u64);
exported!(hazhendu_phi_combination_krylov, u32, f64, [], [], [tol: f64, m: usize, max_substeps: usize], usize, usize, usize, shortest: f64, last: f64);

extern "C" {
    pub fn hazhendu_check_generator(
        n: usize,
        starts: *const u32,
        starts_len: usize,
        cols: *const u32,
        cols_len: usize,
        vals: *const f64,
        vals_len: usize,
        with_mass: bool,
        mass: *const f64,
        mass_len: usize,
        value: *mut f64,
        row: *mut usize,
    ) -> u32;

    pub fn hazhendu_taylor_plan(
        n: usize,
        starts: *const u32,
        starts_len: usize,
        cols: *const u32,
        cols_len: usize,
        vals: *const f64,
        vals_len: usize,
        with_mass: bool,
        mass: *const f64,
        mass_len: usize,
        tau: f64,
        degree: u32,
        work: *mut f64,
        work_len: usize,
        value: *mut f64,
        s: *mut u32,
        m: *mut u32,
        applications: *mut u64,
    ) -> u32;

    pub fn hazhendu_join(
        n_a: usize,
        starts_a: *const u32,
        starts_a_len: usize,
        cols_a: *const u32,
        cols_a_len: usize,
        vals_a: *const f64,
        vals_a_len: usize,
        n_b: usize,
        starts_b: *const u32,
        starts_b_len: usize,
        cols_b: *const u32,
        cols_b_len: usize,
        vals_b: *const f64,
        vals_b_len: usize,
        starts: *mut u32,
        starts_len: usize,
        cols: *mut u32,
        cols_len: usize,
        vals: *mut f64,
        vals_len: usize,
        value: *mut f64,
        entries: *mut usize,
    ) -> u32;
}

/// The matrices of two jobs joined: 0 or the refusal's number, the double, and the number of entries. SAFETY: as of `called!`.
pub fn join(a: &Job, b: &Job, starts: &mut [u32], cols: &mut [u32], vals: &mut [f64]) -> (u32, f64, usize) {
    let (mut value, mut entries) = (jobs::mark(0), !0);
    let number = unsafe {
        hazhendu_join(
            a.n,
            a.starts.as_ptr(),
            a.starts.len(),
            a.cols.as_ptr(),
            a.cols.len(),
            a.vals.as_ptr(),
            a.vals.len(),
            b.n,
            b.starts.as_ptr(),
            b.starts.len(),
            b.cols.as_ptr(),
            b.cols.len(),
            b.vals.as_ptr(),
            b.vals.len(),
            starts.as_mut_ptr(),
            starts.len(),
            cols.as_mut_ptr(),
            cols.len(),
            vals.as_mut_ptr(),
            vals.len(),
            &mut value,
            &mut entries,
        )
    };
    (number, value, entries)
}

/// The plan of a job's matrix, mass, time and highest degree alone. SAFETY: as of `called!`.
pub fn plan(job: &Job, work: &mut [f64]) -> Told {
    let s = lent::<Box<[u32]>, Box<[f64]>>(job);
    let (mut value, mut sweeps, mut m, mut applications) = (jobs::mark(0), !0, !0, !0);
    let number = unsafe {
        hazhendu_taylor_plan(
            job.n,
            s.starts.as_ptr(),
            s.starts.len(),
            s.cols.as_ptr(),
            s.cols.len(),
            s.vals.as_ptr(),
            s.vals.len(),
            job.mass.is_some(),
            s.mass.as_ptr(),
            s.mass.len(),
            job.tau,
            job.degree,
            work.as_mut_ptr(),
            work.len(),
            &mut value,
            &mut sweeps,
            &mut m,
            &mut applications,
        )
    };
    Told { number, value, counts: [sweeps.into(), m.into(), applications], steps: [0.0; 2] }
}

/// The matrix answer alone: number, double and row.
pub fn check(job: &Job) -> (u32, f64, usize) {
    put_matrix(job, &lent::<&[u32], &[f64]>(job))
}

/// The call alone.
pub fn call(job: &Job, out: &mut [f64], work: &mut [f64]) -> Told {
    put(job, &lent::<&[u32], &[f64]>(job), out, work)
}

/// The job's lists, borrowed or copied.
pub fn lent<'a, N: From<&'a [u32]>, D: From<&'a [f64]>>(job: &'a Job) -> Slices<N, D> {
    Slices {
        starts: N::from(&job.starts),
        cols: N::from(&job.cols),
        vals: D::from(&job.vals),
        mass: D::from(job.mass.as_deref().unwrap_or(&[])),
        w: D::from(&job.w),
    }
}

pub fn put<N, D>(job: &Job, s: &Slices<N, D>, out: &mut [f64], work: &mut [f64]) -> Told
where
    N: Deref<Target = [u32]>,
    D: Deref<Target = [f64]>,
{
    told!(
        job,
        s,
        [],
        out,
        work,
        hazhendu_phi_combination,
        hazhendu_phi_action,
        hazhendu_phi_action_batched,
        hazhendu_phi_combination_krylov
    )
}

/// SAFETY: as of `called!`.
pub fn put_matrix<N, D>(job: &Job, s: &Slices<N, D>) -> (u32, f64, usize)
where
    N: Deref<Target = [u32]>,
    D: Deref<Target = [f64]>,
{
    let (mut value, mut row) = (jobs::mark(0), !0);
    let number = unsafe {
        hazhendu_check_generator(
            job.n,
            s.starts.as_ptr(),
            s.starts.len(),
            s.cols.as_ptr(),
            s.cols.len(),
            s.vals.as_ptr(),
            s.vals.len(),
            job.mass.is_some(),
            s.mass.as_ptr(),
            s.mass.len(),
            &mut value,
            &mut row,
        )
    };
    (number, value, row)
}
