//! The proved library (the crates that `scripts/exports` names): its exported functions, and a job put to them.

pub mod ambient;
#[cfg(feature = "bytes")]
mod bytes;
pub mod paused;
pub mod rotation;
mod slices;
pub mod stages;
mod transposed;

#[cfg(feature = "bytes")]
pub use bytes::{answer as answer_on_bytes, matrix as matrix_on_bytes};
pub use slices::{call, check, join, plan};
pub use transposed::check as check_transposed;

use jobs::{Answer, Job};

/// The answer on slices. Output, working memory and the buffers of a transposed job are marked beforehand, and every slice is a
/// heap block of just its length, so that a memory checker sees an access beyond it.
pub fn answer(job: &Job) -> Answer {
    let mut out = job.marked_out().into_boxed_slice();
    let mut work = job.marked_work().into_boxed_slice();
    let mut buffers = job.marked_buffers();
    let s = slices::lent::<Box<[u32]>, Box<[f64]>>(job);
    let told = match &mut buffers {
        None => slices::put(job, &s, &mut out, &mut work),
        Some(b) => transposed::put(job, &s, b, &mut out, &mut work),
    };
    let Told { number, value, counts, steps } = told;
    Answer { number, value, counts, steps, out: out.into_vec(), work: work.into_vec(), buffers }
}

/// The answer to the matrix alone, the row as its first count; of a transposed job to the transposed matrix.
pub fn matrix(job: &Job) -> Answer {
    let mut buffers = job.marked_buffers();
    let s = slices::lent::<Box<[u32]>, Box<[f64]>>(job);
    let (number, value, row) = match &mut buffers {
        None => slices::put_matrix(job, &s),
        Some(b) => transposed::put_matrix(job, &s, b),
    };
    Answer { buffers, ..Answer::of_matrix(number, value, row) }
}

/// What a call hands back besides its slices: 0 or the refusal's number, the double, the counts in the order of
/// [`jobs::Answer`], and the two steps.
pub struct Told {
    pub number: u32,
    pub value: f64,
    pub counts: [u64; 3],
    pub steps: [f64; 2],
}

/// The slices that a job lends to be read.
struct Slices<N, D> {
    starts: N,
    cols: N,
    vals: D,
    mass: D,
    w: D,
}

/// Declares one exported function on slices of `$u32` and `$f64`: a slice is a pointer and a length, a `&mut` number a pointer.
/// `$lent` are the elements of the buffers that a transposed job lends.
macro_rules! exported {
    ($name:ident, $u32:ty, $f64:ty, [$($lent:ty),*], [$($degree:ident: u32)?], [$($option:ident: $option_type:ty),*], $a:ty, $b:ty, $c:ty$(, $step:ident: f64)*) => {
        extern "C" {
            pub fn $name(
                n: usize,
                starts: *const $u32,
                starts_len: usize,
                cols: *const $u32,
                cols_len: usize,
                vals: *const $f64,
                vals_len: usize,
                with_mass: bool,
                mass: *const $f64,
                mass_len: usize,
                $(_: *mut $lent, _: usize,)*
                tau: f64,
                $($degree: u32,)?
                count: usize,
                w: *const $f64,
                w_len: usize,
                $($option: $option_type,)*
                out: *mut $f64,
                out_len: usize,
                work: *mut $f64,
                work_len: usize,
                value: *mut f64,
                first: *mut $a,
                second: *mut $b,
                third: *mut $c,
                $($step: *mut f64,)*
            ) -> u32;
        }
    };
}

/// Calls one of them. SAFETY: every pointer comes from a slice with its own length or from a local, and no two overlap; the
/// functions are proved to stay within them.
macro_rules! called {
    ($name:path, $job:expr, $s:expr, [$($lent:expr),*], [$($degree:expr)?], [$($option:expr),*], $out:expr, $work:expr, $value:expr, $a:expr, $b:expr, $c:expr$(, $step:expr)*) => {
        unsafe {
            $name(
                $job.n,
                $s.starts.as_ptr(),
                $s.starts.len(),
                $s.cols.as_ptr(),
                $s.cols.len(),
                $s.vals.as_ptr(),
                $s.vals.len(),
                $job.mass.is_some(),
                $s.mass.as_ptr(),
                $s.mass.len(),
                $($lent.as_mut_ptr(), $lent.len(),)*
                $job.tau,
                $($degree,)?
                $job.count,
                $s.w.as_ptr(),
                $s.w.len(),
                $($option,)*
                $out.as_mut_ptr(),
                $out.len(),
                $work.as_mut_ptr(),
                $work.len(),
                $value,
                $a,
                $b,
                $c,
                $($step,)*
            )
        }
    };
}

/// Puts `$job` to one of four functions, by its call, and gives what they tell.
macro_rules! told {
    ($job:expr, $s:expr, $lent:tt, $out:expr, $work:expr, $combination:path, $action:path, $batched:path, $krylov:path) => {{
        let (job, s, out, work) = ($job, $s, $out, $work);
        let mut value = jobs::mark(0);
        if let jobs::Call::Krylov { tol, m, limit } = job.call {
            let (mut substeps, mut matvecs, mut rejected) = (!0, !0, !0);
            let (mut shortest, mut last) = (jobs::mark(0), jobs::mark(0));
            let number = called!(
                $krylov,
                job,
                s,
                $lent,
                [],
                [tol, m, limit],
                out,
                work,
                &mut value,
                &mut substeps,
                &mut matvecs,
                &mut rejected,
                &mut shortest,
                &mut last
            );
            $crate::Told { number, value, counts: [matvecs as u64, substeps as u64, rejected as u64], steps: [shortest, last] }
        } else {
            let (mut s_, mut m, mut applications) = (!0, !0, !0);
            let number = match job.call {
                jobs::Call::Action => {
                    called!($action, job, s, $lent, [job.degree], [], out, work, &mut value, &mut s_, &mut m, &mut applications)
                }
                jobs::Call::Batched => {
                    called!($batched, job, s, $lent, [job.degree], [], out, work, &mut value, &mut s_, &mut m, &mut applications)
                }
                _ => called!($combination, job, s, $lent, [job.degree], [], out, work, &mut value, &mut s_, &mut m, &mut applications),
            };
            $crate::Told { number, value, counts: [s_.into(), m.into(), applications], steps: [0.0; 2] }
        }
    }};
}
use {called, exported, told};
