//! A soak in stages (document 02, N11), on slices.

use std::ops::Deref;

use jobs::stages::{Left, Schedule};
use jobs::Job;

use crate::slices::lent;
use crate::Slices;

extern "C" {
    fn hazhendu_stages(
        n: usize,
        starts: *const u32,
        starts_len: usize,
        cols: *const u32,
        cols_len: usize,
        vals: *const f64,
        vals_len: usize,
        with_mass: bool,
        mass: *const f64,
        mass_len: usize,
        taus: *const f64,
        taus_len: usize,
        counts: *const usize,
        counts_len: usize,
        solvers: *const u32,
        solvers_len: usize,
        degrees: *const u32,
        degrees_len: usize,
        tols: *const f64,
        tols_len: usize,
        ms: *const usize,
        ms_len: usize,
        limits: *const usize,
        limits_len: usize,
        start: *const f64,
        start_len: usize,
        further: *const f64,
        further_len: usize,
        out: *mut f64,
        out_len: usize,
        work: *mut f64,
        work_len: usize,
        value: *mut f64,
        stage: *mut u32,
        applications: *mut u64,
        substeps: *mut u64,
        rejected: *mut u64,
    ) -> u32;
}

/// The call with each slice as a pointer and a length.
macro_rules! call {
    ($name:ident, [$($before:expr),*], [$($slice:expr),*], [$($written:expr),*], [$($told:expr),*]) => {
        $name($($before,)* $($slice.as_ptr(), $slice.len(),)* $($written.as_mut_ptr(), $written.len(),)* $($told,)*)
    };
}

/// What the call tells: 0 or the refusal's number, the double, the stage, applications, substeps and rejections.
pub struct Told {
    pub number: u32,
    pub value: f64,
    pub stage: u32,
    pub counts: [u64; 3],
}

/// The call alone, over the matrix and mass of a job.
pub fn call(job: &Job, schedule: &Schedule, out: &mut [f64], work: &mut [f64]) -> Told {
    put(job, &lent::<&[u32], &[f64]>(job), schedule, out, work)
}

fn put<N, D>(job: &Job, s: &Slices<N, D>, schedule: &Schedule, out: &mut [f64], work: &mut [f64]) -> Told
where
    N: Deref<Target = [u32]>,
    D: Deref<Target = [f64]>,
{
    let Schedule { taus, counts, solvers, degrees, tols, ms, limits, start, further } = schedule;
    let (mut value, mut stage, mut told) = (jobs::mark(0), !0, [!0; 3]);
    let [applications, substeps, rejected] = &mut told;
    // SAFETY: as of `called!`.
    let number = unsafe {
        call!(
            hazhendu_stages,
            [job.n, s.starts.as_ptr(), s.starts.len(), s.cols.as_ptr(), s.cols.len(), s.vals.as_ptr(), s.vals.len(), job.mass.is_some()],
            [s.mass, taus, counts, solvers, degrees, tols, ms, limits, start, further],
            [out, work],
            [&mut value, &mut stage, applications, substeps, rejected]
        )
    };
    Told { number, value, stage, counts: told }
}

/// What the call leaves, with the job's lengths of output and working memory, which are marked beforehand. Every slice is a heap block of
/// just its length.
pub fn answer(job: &Job, schedule: &Schedule) -> Left {
    let mut out = job.marked_out().into_boxed_slice();
    let mut work = job.marked_work().into_boxed_slice();
    let mut cut = schedule.clone();
    cut.shrink();
    let Told { number, value, stage, counts } = put(job, &lent::<Box<[u32]>, Box<[f64]>>(job), &cut, &mut out, &mut work);
    Left { number, value, stage, counts, out: out.into_vec(), work: work.into_vec() }
}
