//! Paused Krylov runs (document 02, N5): on slices, the state as two of them.

use std::ops::Deref;

use jobs::paused::{Left, Run};
use jobs::{Answer, Call, Job};

use crate::slices::lent;
use crate::Slices;

/// Declares a start or a step on slices of `$u32`, `$f64` and `$usize`, with the arguments that only it has.
macro_rules! exported {
    ($name:ident, $u32:ty, $f64:ty, $usize:ty, [$($own:ident: $own_type:ty),*]) => {
        extern "C" {
            pub fn $name(
                n: usize,
                starts: *const $u32,
                starts_len: usize,
                cols: *const $u32,
                cols_len: usize,
                vals: *const $f64,
                vals_len: usize,
                with_mass: bool,
                mass: *const $f64,
                mass_len: usize,
                tau: f64,
                count: usize,
                w: *const $f64,
                w_len: usize,
                $($own: $own_type,)*
                out: *mut $f64,
                out_len: usize,
                work: *mut $f64,
                work_len: usize,
                field: *mut $f64,
                field_len: usize,
                numbers: *mut $f64,
                numbers_len: usize,
                counts: *mut $usize,
                counts_len: usize,
                value: *mut f64,
            ) -> u32;
        }
    };
}

exported!(hazhendu_krylov_start, u32, f64, usize, [tol: f64, m: usize, max_substeps: usize]);
exported!(hazhendu_krylov_step, u32, f64, usize, [with_tol: bool, tol: f64]);
#[cfg(feature = "bytes")]
exported!(hazhendu_krylov_start_bytes, u8, u8, u8, [tol: f64, m: usize, max_substeps: usize]);
#[cfg(feature = "bytes")]
exported!(hazhendu_krylov_step_bytes, u8, u8, u8, [with_tol: bool, tol: f64]);

/// The slices of a run that a call may write.
pub struct Lent<'a> {
    pub numbers: &'a mut [f64],
    pub counts: &'a mut [usize],
    pub field: &'a mut [f64],
    pub out: &'a mut [f64],
    pub work: &'a mut [f64],
}

/// Calls one of the two with the arguments that only it has. SAFETY: as of `called!`.
macro_rules! called {
    ($name:ident, $job:expr, $s:expr, [$($own:expr),*], $l:expr, $value:expr) => {
        unsafe {
            $name(
                $job.n,
                $s.starts.as_ptr(),
                $s.starts.len(),
                $s.cols.as_ptr(),
                $s.cols.len(),
                $s.vals.as_ptr(),
                $s.vals.len(),
                $job.mass.is_some(),
                $s.mass.as_ptr(),
                $s.mass.len(),
                $job.tau,
                $job.count,
                $s.w.as_ptr(),
                $s.w.len(),
                $($own,)*
                $l.out.as_mut_ptr(),
                $l.out.len(),
                $l.work.as_mut_ptr(),
                $l.work.len(),
                $l.field.as_mut_ptr(),
                $l.field.len(),
                $l.numbers.as_mut_ptr(),
                $l.numbers.len(),
                $l.counts.as_mut_ptr(),
                $l.counts.len(),
                $value,
            )
        }
    };
}

/// The start alone: 0 or the refusal's number, and the double.
pub fn call_start(job: &Job, l: Lent) -> (u32, f64) {
    put_start(job, &lent::<&[u32], &[f64]>(job), l)
}

/// The step alone.
pub fn call_step(job: &Job, tol: Option<f64>, l: Lent) -> (u32, f64) {
    put_step(job, tol, &lent::<&[u32], &[f64]>(job), l)
}

fn put_start<I: Deref<Target = [u32]>, D: Deref<Target = [f64]>>(job: &Job, s: &Slices<I, D>, l: Lent) -> (u32, f64) {
    let Call::Krylov { tol, m, limit } = job.call else { panic!("a Krylov job") };
    let mut value = jobs::mark(0);
    (called!(hazhendu_krylov_start, job, s, [tol, m, limit], l, &mut value), value)
}

/// Without a new tol the argument is NaN, which is not looked at.
fn put_step<I: Deref<Target = [u32]>, D: Deref<Target = [f64]>>(job: &Job, tol: Option<f64>, s: &Slices<I, D>, l: Lent) -> (u32, f64) {
    let mut value = jobs::mark(0);
    (called!(hazhendu_krylov_step, job, s, [tol.is_some(), tol.unwrap_or(f64::NAN)], l, &mut value), value)
}

/// What a start leaves of slices that hold marks, `run`'s among them. Every slice is a heap block of just its length.
pub fn start(job: &Job, run: Run) -> Left {
    left(job, run, |l| put_start(job, &lent::<Box<[u32]>, Box<[f64]>>(job), l))
}

/// What a step leaves; the job's options are not looked at.
pub fn step(job: &Job, tol: Option<f64>, run: Run) -> Left {
    left(job, run, |l| put_step(job, tol, &lent::<Box<[u32]>, Box<[f64]>>(job), l))
}

/// The answer to a forward Krylov job, by start and steps.
pub fn answer(job: &Job) -> Answer {
    let mut left = start(job, Run::lent(job));
    while left.number == 0 && !left.run.ended() {
        left = step(job, None, left.run);
    }
    left.answer()
}

fn left(job: &Job, run: Run, call: impl FnOnce(Lent) -> (u32, f64)) -> Left {
    let mut numbers = run.numbers.into_boxed_slice();
    let mut counts = run.counts.into_boxed_slice();
    let mut field = run.field.into_boxed_slice();
    let mut out = job.marked_out().into_boxed_slice();
    let mut work = job.marked_work().into_boxed_slice();
    let l = Lent { numbers: &mut numbers, counts: &mut counts, field: &mut field, out: &mut out, work: &mut work };
    let (number, value) = call(l);
    let run = Run { numbers: numbers.into_vec(), counts: counts.into_vec(), field: field.into_vec() };
    Left { number, value, run, out: out.into_vec(), work: work.into_vec() }
}

/// What a start on bytes leaves, `tail` bytes and fewer behind the last whole elements; `None` if one of those was written.
#[cfg(feature = "bytes")]
pub fn start_on_bytes(job: &Job, run: &Run, tail: usize) -> Option<Left> {
    let Call::Krylov { tol, m, limit } = job.call else { panic!("a Krylov job") };
    left_on_bytes(job, run, tail, |s, l, value| called!(hazhendu_krylov_start_bytes, job, s, [tol, m, limit], l, value))
}

/// The same of a step.
#[cfg(feature = "bytes")]
pub fn step_on_bytes(job: &Job, tol: Option<f64>, run: &Run, tail: usize) -> Option<Left> {
    let own = (tol.is_some(), tol.unwrap_or(f64::NAN));
    left_on_bytes(job, run, tail, |s, l, value| called!(hazhendu_krylov_step_bytes, job, s, [own.0, own.1], l, value))
}

/// The bytes of what a call may write.
#[cfg(feature = "bytes")]
struct Bytes {
    numbers: Box<[u8]>,
    counts: Box<[u8]>,
    field: Box<[u8]>,
    out: Box<[u8]>,
    work: Box<[u8]>,
}

#[cfg(feature = "bytes")]
fn left_on_bytes(
    job: &Job,
    run: &Run,
    tail: usize,
    call: impl FnOnce(&Slices<Box<[u8]>, Box<[u8]>>, &mut Bytes, &mut f64) -> u32,
) -> Option<Left> {
    use crate::bytes::{doubles, kept, lent, whole_doubles};
    let counts = run.counts.iter().flat_map(|c| (*c as u64).to_le_bytes()).chain(std::iter::repeat_n(0xa5, tail / 2 % 8));
    let mut b = Bytes {
        numbers: doubles(&run.numbers, tail / 3),
        counts: counts.collect(),
        field: doubles(&run.field, tail),
        out: doubles(&job.marked_out(), tail / 5),
        work: doubles(&job.marked_work(), tail / 7),
    };
    let mut value = jobs::mark(0);
    let number = call(&lent(job, tail), &mut b, &mut value);
    let counts = b.counts.chunks_exact(8).map(|c| u64::from_le_bytes(c.try_into().unwrap()) as usize).collect();
    let run = Run { numbers: whole_doubles(&b.numbers), counts, field: whole_doubles(&b.field) };
    let slices = [&b.numbers, &b.counts, &b.field, &b.out, &b.work];
    let left = Left { number, value, run, out: whole_doubles(&b.out), work: whole_doubles(&b.work) };
    slices.iter().all(|s| kept(s, 8)).then_some(left)
}
