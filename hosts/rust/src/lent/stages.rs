//! A soak in stages on memory that the caller lends.
//!
//! An accepted schedule leaves the field of its last stage in `out`, and the largest of the stages' needs of `work` holds +0. A refusal before
//! stage 1 (1 to 11 and 37), or from 12 to 26 or by 33 at stage 1, changes nothing; at a later stage `out` is the field of the stage before it,
//! and `work` as the stages before left it: the largest of their needs holds +0, the rest is unchanged. 27 to 29 leave what the stage's single
//! call leaves: `out` is the state after its last accepted substep.

use super::call;
use crate::sizes::MAX_STAGES;
use crate::{sys, KrylovOptions, Matrix, Refusal, Solver, StagedReport, TaylorOptions};
use std::fmt;

/// One stage: its time, how many vectors it has, w_0 being one of them, and its solver.
#[derive(Clone, Copy, Debug, PartialEq)]
pub struct Stage {
    pub tau: f64,
    /// 1 to 4: a stage that brings no further vectors has 1.
    pub count: usize,
    pub solver: Solver,
}

/// A refusal, and the stage that it refuses, from 1; 0 before any stage.
#[derive(Clone, Copy, Debug)]
pub struct Refused {
    pub refusal: Refusal,
    pub stage: u32,
}

impl Refused {
    /// Whether `out` holds a field: that of the stage before, or the state after the last accepted substep.
    pub fn leaves_field(&self) -> bool {
        self.stage > 1 || self.refusal.leaves_state()
    }
}

impl fmt::Display for Refused {
    fn fmt(&self, f: &mut fmt::Formatter) -> fmt::Result {
        match self.stage {
            0 => self.refusal.fmt(f),
            stage => write!(f, "stage {stage} {}", self.refusal),
        }
    }
}

impl std::error::Error for Refused {}

/// More stages than the library takes are told by one too many.
const MOST: usize = MAX_STAGES + 1;

/// Runs the stages in order, from `start`; the field of one is w_0 of the next. `further` holds the vectors from w_1 on of all stages, one
/// after the other. [`crate::sizes::stages_work`] says how long `work` has to be.
pub fn stages(
    a: &Matrix,
    schedule: &[Stage],
    start: &[f64],
    further: &[f64],
    out: &mut [f64],
    work: &mut [f64],
) -> Result<StagedReport, Refused> {
    let (mut taus, mut tols, mut counts, mut ms, mut limits) = ([0.0; MOST], [0.0; MOST], [0; MOST], [0; MOST], [0; MOST]);
    let (mut solvers, mut degrees) = ([0u32; MOST], [0u32; MOST]);
    let length = schedule.len().min(MOST);
    for (i, stage) in schedule.iter().take(MOST).enumerate() {
        let (TaylorOptions { degree }, KrylovOptions { tol, m, max_substeps }) = match stage.solver {
            Solver::Taylor(options) => (options, KrylovOptions::default()),
            Solver::Krylov(options) => (TaylorOptions::default(), options),
        };
        (taus[i], counts[i], solvers[i]) = (stage.tau, stage.count, u32::from(matches!(stage.solver, Solver::Krylov(_))));
        (degrees[i], tols[i], ms[i], limits[i]) = (degree, tol, m, max_substeps);
    }
    let mut report = StagedReport::default();
    let (mut value, mut stage) = (0.0, 0);
    let number = call!(
        hazhendu_stages,
        a,
        taus.as_ptr(),
        length,
        counts.as_ptr(),
        length,
        solvers.as_ptr(),
        length,
        degrees.as_ptr(),
        length,
        tols.as_ptr(),
        length,
        ms.as_ptr(),
        length,
        limits.as_ptr(),
        length,
        start.as_ptr(),
        start.len(),
        further.as_ptr(),
        further.len(),
        out.as_mut_ptr(),
        out.len(),
        work.as_mut_ptr(),
        work.len(),
        &mut value,
        &mut stage,
        &mut report.applications,
        &mut report.substeps,
        &mut report.rejected,
    );
    match number {
        0 => Ok(report),
        _ => Err(Refused { refusal: Refusal { number, value }, stage }),
    }
}
