//! The calls on memory that the caller lends: nothing is allocated.
//!
//! A refusal from 1 to 26 or by 30 to 33 leaves `out` and `work` unchanged. After 27 to 29 `out` holds the state after the last accepted
//! substep. After an accepted job, and after 27 to 29, the needed length of `work` holds +0. [`crate::sizes`] says how long
//! `work` has to be. A refused join changes nothing. [`transposed`] says what the buffers for a transposed matrix hold, [`paused`] what
//! becomes of a run in steps, [`rotation`] what of several on one unit, [`stages`] what a soak in stages leaves, [`ambient`] what a soak
//! under a changing level does.

use crate::{environment, sys, Cost, KrylovOptions, Largest, Matrix, Plan, Refusal, Report, Solver, TaylorOptions};

pub mod ambient;
pub mod paused;
pub mod rotation;
pub mod stages;
pub mod transposed;

/// 0 is no refusal.
fn unless_refused<T>(number: u32, value: f64, told: T) -> Result<T, Refusal> {
    match number {
        0 => Ok(told),
        _ => Err(Refusal { number, value }),
    }
}

macro_rules! call {
    ($name:ident, $a:expr, $($argument:expr),+ $(,)?) => {{
        let mass = $a.mass.unwrap_or(&[]);
        // SAFETY: every pointer comes from a slice, with that slice's length, or from a local, so that it is aligned, not null and valid
        // for its length; what is written is borrowed exclusively. The functions are proved to stay within the lengths handed in.
        $crate::environment::usual(|| unsafe {
            sys::$name(
                $a.n,
                $a.starts.as_ptr(),
                $a.starts.len(),
                $a.columns.as_ptr(),
                $a.columns.len(),
                $a.entries.as_ptr(),
                $a.entries.len(),
                $a.mass.is_some(),
                mass.as_ptr(),
                mass.len(),
                $($argument),+
            )
        })
    }};
}

use call;

/// The checks of the matrix alone, 1 to 11; then its norm and the first row that has it.
pub fn check(a: &Matrix) -> Result<Largest, Refusal> {
    let mut largest = Largest { norm: 0.0, row: 0 };
    let number = call!(hazhendu_check_generator, a, &mut largest.norm, &mut largest.row);
    unless_refused(number, largest.norm, largest)
}

/// Barrel `a` and mount `b` as one matrix, written over the fronts of three slices, of which places beyond the result are unchanged; how
/// many entries it has. Masses are not looked at. [`crate::sizes::joined`] says how long is enough.
pub fn join(a: &Matrix, b: &Matrix, starts: &mut [u32], columns: &mut [u32], entries: &mut [f64]) -> Result<usize, Refusal> {
    let (mut value, mut count) = (0.0, 0);
    // SAFETY: as in `call!`; the slices of the result are borrowed exclusively.
    let number = environment::usual(|| unsafe {
        sys::hazhendu_join(
            a.n,
            a.starts.as_ptr(),
            a.starts.len(),
            a.columns.as_ptr(),
            a.columns.len(),
            a.entries.as_ptr(),
            a.entries.len(),
            b.n,
            b.starts.as_ptr(),
            b.starts.len(),
            b.columns.as_ptr(),
            b.columns.len(),
            b.entries.as_ptr(),
            b.entries.len(),
            starts.as_mut_ptr(),
            starts.len(),
            columns.as_mut_ptr(),
            columns.len(),
            entries.as_mut_ptr(),
            entries.len(),
            &mut value,
            &mut count,
        )
    });
    unless_refused(number, value, count)
}

/// The plan of a Taylor job alone: what its run over this matrix, tau and degree would report, before it is run. `work` needs
/// [`crate::sizes::plan_work`].
pub fn taylor_plan(a: &Matrix, tau: f64, options: TaylorOptions, work: &mut [f64]) -> Result<Plan, Refusal> {
    let mut plan = Plan { s: 0, m: 0, mu: 0.0, applications: 0 };
    let number = call!(
        hazhendu_taylor_plan,
        a,
        tau,
        options.degree,
        work.as_mut_ptr(),
        work.len(),
        &mut plan.mu,
        &mut plan.s,
        &mut plan.m,
        &mut plan.applications,
    );
    unless_refused(number, plan.mu, plan)
}

macro_rules! taylor {
    ($(#[$doc:meta])* $name:ident, $exported:ident, $index:ident, $w:ident) => {
        $(#[$doc])*
        pub fn $name(
            a: &Matrix,
            tau: f64,
            $index: usize,
            $w: &[f64],
            options: TaylorOptions,
            out: &mut [f64],
            work: &mut [f64],
        ) -> Result<Plan, Refusal> {
            let mut plan = Plan { s: 0, m: 0, mu: 0.0, applications: 0 };
            let number = call!(
                $exported,
                a,
                tau,
                options.degree,
                $index,
                $w.as_ptr(),
                $w.len(),
                out.as_mut_ptr(),
                out.len(),
                work.as_mut_ptr(),
                work.len(),
                &mut plan.mu,
                &mut plan.s,
                &mut plan.m,
                &mut plan.applications,
            );
            unless_refused(number, plan.mu, plan)
        }
    };
}

taylor!(
    /// The sum over k of tau^k phi_k(tau G) w_k for `count` vectors, one after the other in `w`, by Taylor sweeps.
    phi_combination, hazhendu_phi_combination, count, w
);
taylor!(
    /// phi_k(tau G) v, by Taylor sweeps.
    phi_action, hazhendu_phi_action, k, v
);
taylor!(
    /// phi_0(tau G) v to phi_p(tau G) v, one after the other in `out`, by Taylor sweeps.
    phi_action_batched, hazhendu_phi_action_batched, p, v
);

/// The sum over k of tau^k phi_k(tau G) w_k for `count` vectors, one after the other in `w`, by Krylov substeps.
pub fn phi_combination_krylov(
    a: &Matrix,
    tau: f64,
    count: usize,
    w: &[f64],
    options: KrylovOptions,
    out: &mut [f64],
    work: &mut [f64],
) -> Result<Report, Refusal> {
    let KrylovOptions { tol, m, max_substeps } = options;
    let mut report = Report::default();
    let number = call!(
        hazhendu_phi_combination_krylov,
        a,
        tau,
        count,
        w.as_ptr(),
        w.len(),
        tol,
        m,
        max_substeps,
        out.as_mut_ptr(),
        out.len(),
        work.as_mut_ptr(),
        work.len(),
        &mut report.estimated_error,
        &mut report.substeps,
        &mut report.matvecs,
        &mut report.rejected,
        &mut report.shortest_step,
        &mut report.last_step,
    );
    unless_refused(number, report.estimated_error, report)
}

/// The sum over k of tau^k phi_k(tau G) w_k for `count` vectors, one after the other in `w`, by either solver.
pub fn combine(solver: Solver, a: &Matrix, tau: f64, count: usize, w: &[f64], out: &mut [f64], work: &mut [f64]) -> Result<Cost, Refusal> {
    let (taylor, KrylovOptions { tol, m, max_substeps }) = match solver {
        Solver::Taylor(options) => (options, KrylovOptions::default()),
        Solver::Krylov(options) => (TaylorOptions::default(), options),
    };
    let (mut value, mut first, mut second, mut third) = (0.0, 0, 0, 0);
    let (mut shortest_step, mut last_step) = (0.0, 0.0);
    let number = call!(
        hazhendu_combine,
        a,
        tau,
        taylor.degree,
        count,
        w.as_ptr(),
        w.len(),
        matches!(solver, Solver::Krylov(_)),
        tol,
        m,
        max_substeps,
        out.as_mut_ptr(),
        out.len(),
        work.as_mut_ptr(),
        work.len(),
        &mut value,
        &mut first,
        &mut second,
        &mut third,
        &mut shortest_step,
        &mut last_step,
    );
    // The casts lose nothing: the counts are those of a plan or of a report, whose types they had.
    let cost = match solver {
        Solver::Taylor(_) => Cost::Taylor(Plan { s: first as u32, m: second as u32, mu: value, applications: third }),
        Solver::Krylov(_) => Cost::Krylov(Report {
            substeps: first as usize,
            matvecs: second as usize,
            rejected: third as usize,
            estimated_error: value,
            shortest_step,
            last_step,
        }),
    };
    unless_refused(number, value, cost)
}
