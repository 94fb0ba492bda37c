//! A Krylov run that is paused after its start and after each substep, over a state and a field that the caller keeps.
//!
//! The start makes every check of a Krylov job and no substep; a step makes one. State and field go into each step as the last call left
//! them. An accepted call and a refusal by 27 to 29 write state, field, `out` and `work`: `out` is the field so far, scaled back. Every other
//! refusal leaves all four unchanged. `work` is as long as for [`super::phi_combination_krylov`], `field` as [`crate::sizes::field`] says.

use super::{call, unless_refused};
use crate::{sys, KrylovOptions, Matrix, Refusal, Report};

/// A run between two calls, in the order of hosts/c/hazhendu.h.
#[derive(Clone, Copy, Debug, PartialEq)]
pub struct State {
    /// Time, next step, estimate, shortest step, last step, eta, down, up, norm of the scaled start, tol.
    pub numbers: [f64; 10],
    /// Products, substeps, rejected lengths, m, limit, n, count, whether it has ended.
    pub counts: [usize; 8],
}

impl State {
    /// How far the run is, as a part of tau.
    pub fn time(&self) -> f64 {
        self.numbers[0]
    }

    /// The step that is proposed next, as a part of tau.
    pub fn next_step(&self) -> f64 {
        self.numbers[1]
    }

    /// The 2-norm of the scaled start, to which tol is relative.
    pub fn norm(&self) -> f64 {
        self.numbers[8]
    }

    /// The tolerance in force.
    pub fn tol(&self) -> f64 {
        self.numbers[9]
    }

    pub fn m(&self) -> usize {
        self.counts[3]
    }

    pub fn n(&self) -> usize {
        self.counts[5]
    }

    pub fn count(&self) -> usize {
        self.counts[6]
    }

    pub fn ended(&self) -> bool {
        self.counts[7] != 0
    }

    /// What the run has cost. The estimated error is of the scaled start until a substep ends the run with a result, and relative from then on.
    pub fn report(&self) -> Report {
        let [_, _, estimated_error, shortest_step, last_step, ..] = self.numbers;
        let [matvecs, substeps, rejected, ..] = self.counts;
        Report { substeps, matvecs, rejected, estimated_error, shortest_step, last_step }
    }
}

/// Every check of a Krylov job, and no substep.
#[allow(clippy::too_many_arguments)]
pub fn start(
    a: &Matrix,
    tau: f64,
    count: usize,
    w: &[f64],
    options: KrylovOptions,
    out: &mut [f64],
    work: &mut [f64],
    field: &mut [f64],
) -> Result<State, Refusal> {
    let KrylovOptions { tol, m, max_substeps } = options;
    let mut state = State { numbers: [0.0; 10], counts: [0; 8] };
    let mut value = 0.0;
    let number = call!(
        hazhendu_krylov_start,
        a,
        tau,
        count,
        w.as_ptr(),
        w.len(),
        tol,
        m,
        max_substeps,
        out.as_mut_ptr(),
        out.len(),
        work.as_mut_ptr(),
        work.len(),
        field.as_mut_ptr(),
        field.len(),
        state.numbers.as_mut_ptr(),
        state.numbers.len(),
        state.counts.as_mut_ptr(),
        state.counts.len(),
        &mut value,
    );
    unless_refused(number, value, state)
}

/// One substep, with a new tolerance for it and the later ones if there is one. 31 of a run that has ended, 16 of another n or count.
#[allow(clippy::too_many_arguments)]
pub fn step(
    state: &mut State,
    a: &Matrix,
    tau: f64,
    count: usize,
    w: &[f64],
    tol: Option<f64>,
    out: &mut [f64],
    work: &mut [f64],
    field: &mut [f64],
) -> Result<(), Refusal> {
    let mut value = 0.0;
    let number = call!(
        hazhendu_krylov_step,
        a,
        tau,
        count,
        w.as_ptr(),
        w.len(),
        tol.is_some(),
        tol.unwrap_or(0.0),
        out.as_mut_ptr(),
        out.len(),
        work.as_mut_ptr(),
        work.len(),
        field.as_mut_ptr(),
        field.len(),
        state.numbers.as_mut_ptr(),
        state.numbers.len(),
        state.counts.as_mut_ptr(),
        state.counts.len(),
        &mut value,
    );
    unless_refused(number, value, ())
}
