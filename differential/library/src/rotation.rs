//! Several paused runs on one unit (document 02, N6): on slices, the unit as two of them.

use jobs::paused::{Left, Run};
use jobs::rotation::{Unit, UnitLeft};
use jobs::{Call, Job};

use crate::slices::lent;

macro_rules! exported {
    ($name:ident, $($own:ident: $type:ty),+) => {
        extern "C" {
            pub fn $name(
                n: usize,
                starts: *const u32,
                starts_len: usize,
                cols: *const u32,
                cols_len: usize,
                vals: *const f64,
                vals_len: usize,
                with_mass: bool,
                mass: *const f64,
                mass_len: usize,
                tau: f64,
                count: usize,
                w: *const f64,
                w_len: usize,
                $($own: $type,)+
                out: *mut f64,
                out_len: usize,
                work: *mut f64,
                work_len: usize,
                field: *mut f64,
                field_len: usize,
                units: *mut f64,
                units_len: usize,
                queues: *mut usize,
                queues_len: usize,
                numbers: *mut f64,
                numbers_len: usize,
                counts: *mut usize,
                counts_len: usize,
                place: *mut usize,
                value: *mut f64,
            ) -> u32;
        }
    };
}

exported!(hazhendu_rotation_join, tol: f64, m: usize, max_substeps: usize);
exported!(hazhendu_rotation_turn, with_tol: bool, tol: f64);

extern "C" {
    pub fn hazhendu_rotation_clear(units: *mut f64, units_len: usize, queues: *mut usize, queues_len: usize) -> u32;
    pub fn hazhendu_rotation_next(queues: *const usize, queues_len: usize) -> usize;
}

/// Calls one of the two with the arguments that only it has; every slice is a heap block of just its length. SAFETY: as of `called!`.
macro_rules! called {
    ($name:ident, $job:expr, [$($own:expr),*], $run:expr, $unit:expr) => {{
        let job: &Job = $job;
        let (run, unit): (Run, Unit) = ($run, $unit);
        let s = lent::<Box<[u32]>, Box<[f64]>>(job);
        let (mut numbers, mut counts) = (run.numbers.into_boxed_slice(), run.counts.into_boxed_slice());
        let (mut units, mut queues) = (unit.numbers.into_boxed_slice(), unit.counts.into_boxed_slice());
        let (mut out, mut work) = (job.marked_out().into_boxed_slice(), job.marked_work().into_boxed_slice());
        let mut field = run.field.into_boxed_slice();
        let (mut place, mut value) = (!0, jobs::mark(0));
        let number = unsafe {
            $name(
                job.n,
                s.starts.as_ptr(),
                s.starts.len(),
                s.cols.as_ptr(),
                s.cols.len(),
                s.vals.as_ptr(),
                s.vals.len(),
                job.mass.is_some(),
                s.mass.as_ptr(),
                s.mass.len(),
                job.tau,
                job.count,
                s.w.as_ptr(),
                s.w.len(),
                $($own,)*
                out.as_mut_ptr(),
                out.len(),
                work.as_mut_ptr(),
                work.len(),
                field.as_mut_ptr(),
                field.len(),
                units.as_mut_ptr(),
                units.len(),
                queues.as_mut_ptr(),
                queues.len(),
                numbers.as_mut_ptr(),
                numbers.len(),
                counts.as_mut_ptr(),
                counts.len(),
                &mut place,
                &mut value,
            )
        };
        let run = Run { numbers: numbers.into_vec(), counts: counts.into_vec(), field: field.into_vec() };
        let left = Left { number, value, run, out: out.into_vec(), work: work.into_vec() };
        UnitLeft { run: left, place, unit: Unit { numbers: units.into_vec(), counts: queues.into_vec() } }
    }};
}

/// What a join leaves of slices that hold marks, `run`'s among them.
pub fn join(job: &Job, run: Run, unit: Unit) -> UnitLeft {
    let Call::Krylov { tol, m, limit } = job.call else { panic!("a Krylov job") };
    called!(hazhendu_rotation_join, job, [tol, m, limit], run, unit)
}

/// What a turn leaves; the job's options are not looked at. Without a new tol the argument is NaN, which is not looked at.
pub fn turn(job: &Job, tol: Option<f64>, run: Run, unit: Unit) -> UnitLeft {
    called!(hazhendu_rotation_turn, job, [tol.is_some(), tol.unwrap_or(f64::NAN)], run, unit)
}

/// SAFETY: as of `called!`.
pub fn next(unit: &Unit) -> usize {
    let queues = unit.counts.clone().into_boxed_slice();
    unsafe { hazhendu_rotation_next(queues.as_ptr(), queues.len()) }
}

/// 0 or 26, and the slices after it. SAFETY: as of `called!`.
pub fn clear(unit: Unit) -> (u32, Unit) {
    let (mut units, mut queues) = (unit.numbers.into_boxed_slice(), unit.counts.into_boxed_slice());
    let number = unsafe { hazhendu_rotation_clear(units.as_mut_ptr(), units.len(), queues.as_mut_ptr(), queues.len()) };
    (number, Unit { numbers: units.into_vec(), counts: queues.into_vec() })
}
