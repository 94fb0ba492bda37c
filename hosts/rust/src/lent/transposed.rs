//! The calls on the transposed matrix, over buffers that the caller lends for it.
//!
//! A refusal by 1 to 10, by 11 of the matrix itself, or by 30 leaves the buffers unchanged, and `out` and `work` too. After every other answer their fronts hold the
//! matrix, each row divided by its mass if there is one, transposed; places beyond it are unchanged. Of `out` and `work` holds what
//! [`crate::lent`] says; `work` is as long as for the same call on the matrix itself.

use super::{call, unless_refused};
use crate::{sys, Cost, KrylovOptions, Largest, Matrix, Plan, Refusal, Report, Solver, TaylorOptions};

/// What is lent for a transposed matrix: [`crate::sizes::starts`] row starts, and a column and an entry for each entry.
#[derive(Debug)]
pub struct Buffers<'a> {
    pub starts: &'a mut [u32],
    pub columns: &'a mut [u32],
    pub entries: &'a mut [f64],
}

macro_rules! call_transposed {
    ($name:ident, $a:expr, $t:expr, $($argument:expr),+ $(,)?) => {
        call!(
            $name,
            $a,
            $t.starts.as_mut_ptr(),
            $t.starts.len(),
            $t.columns.as_mut_ptr(),
            $t.columns.len(),
            $t.entries.as_mut_ptr(),
            $t.entries.len(),
            $($argument),+
        )
    };
}

/// The checks of the matrix, 30, and 11 of the transposed matrix; then its norm, which is the largest sum of the sizes in a column, and the
/// first column that has it.
pub fn check(a: &Matrix, t: Buffers) -> Result<Largest, Refusal> {
    let mut largest = Largest { norm: 0.0, row: 0 };
    let number = call_transposed!(hazhendu_check_transposed, a, t, &mut largest.norm, &mut largest.row);
    unless_refused(number, largest.norm, largest)
}

macro_rules! taylor {
    ($(#[$doc:meta])* $name:ident, $exported:ident, $index:ident, $w:ident) => {
        $(#[$doc])*
        #[allow(clippy::too_many_arguments)]
        pub fn $name(
            a: &Matrix,
            t: Buffers,
            tau: f64,
            $index: usize,
            $w: &[f64],
            options: TaylorOptions,
            out: &mut [f64],
            work: &mut [f64],
        ) -> Result<Plan, Refusal> {
            let mut plan = Plan { s: 0, m: 0, mu: 0.0, applications: 0 };
            let number = call_transposed!(
                $exported,
                a,
                t,
                tau,
                options.degree,
                $index,
                $w.as_ptr(),
                $w.len(),
                out.as_mut_ptr(),
                out.len(),
                work.as_mut_ptr(),
                work.len(),
                &mut plan.mu,
                &mut plan.s,
                &mut plan.m,
                &mut plan.applications,
            );
            unless_refused(number, plan.mu, plan)
        }
    };
}

taylor!(
    /// As [`crate::lent::phi_combination`].
    phi_combination, hazhendu_phi_combination_transposed, count, w
);
taylor!(
    /// As [`crate::lent::phi_action`].
    phi_action, hazhendu_phi_action_transposed, k, v
);
taylor!(
    /// As [`crate::lent::phi_action_batched`].
    phi_action_batched, hazhendu_phi_action_batched_transposed, p, v
);

/// As [`crate::lent::phi_combination_krylov`].
#[allow(clippy::too_many_arguments)]
pub fn phi_combination_krylov(
    a: &Matrix,
    t: Buffers,
    tau: f64,
    count: usize,
    w: &[f64],
    options: KrylovOptions,
    out: &mut [f64],
    work: &mut [f64],
) -> Result<Report, Refusal> {
    let KrylovOptions { tol, m, max_substeps } = options;
    let mut report = Report::default();
    let number = call_transposed!(
        hazhendu_phi_combination_krylov_transposed,
        a,
        t,
        tau,
        count,
        w.as_ptr(),
        w.len(),
        tol,
        m,
        max_substeps,
        out.as_mut_ptr(),
        out.len(),
        work.as_mut_ptr(),
        work.len(),
        &mut report.estimated_error,
        &mut report.substeps,
        &mut report.matvecs,
        &mut report.rejected,
        &mut report.shortest_step,
        &mut report.last_step,
    );
    unless_refused(number, report.estimated_error, report)
}

/// As [`crate::lent::combine`].
#[allow(clippy::too_many_arguments)]
pub fn combine(
    solver: Solver,
    a: &Matrix,
    t: Buffers,
    tau: f64,
    count: usize,
    w: &[f64],
    out: &mut [f64],
    work: &mut [f64],
) -> Result<Cost, Refusal> {
    match solver {
        Solver::Taylor(options) => phi_combination(a, t, tau, count, w, options, out, work).map(Cost::Taylor),
        Solver::Krylov(options) => phi_combination_krylov(a, t, tau, count, w, options, out, work).map(Cost::Krylov),
    }
}
