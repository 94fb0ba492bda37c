//! A paused Krylov run (document 02, N5), which the Rust does not have: its loop of substeps is entered from a state and ended after
//! one substep (`substeps_from`, which build.rs makes of `substeps`). What is around it, state and endings, is the driver's.

use std::panic::{catch_unwind, resume_unwind, AssertUnwindSafe};

use jobs::paused::{Run, COUNT, COUNTS, DOWN, ENDED, ESTIMATE, ETA, LAST, LIMIT, M, MATVECS, N, NEXT, NORM, NUMBERS, REJECTED};
use jobs::paused::{SHORTEST, SUBSTEPS, TIME, TOL, UP};
use jobs::{Call, Job};

use crate::error::SemiflowError;
use crate::generator_action::GeneratorAction;
use crate::phi_action::weighted_columns;
use crate::phi_action_helpers::{eta_scaling, Coupling};
use crate::phi_krylov::{norm2, KrylovPhiReport};
use crate::phi_krylov_arnoldi::{substeps_from, Augmented};
use crate::{answer, generator, probe, refusal, scaled_start, vectors, Counting};

/// The run of a job that passes every check, before its first substep. The first length is the one that the Rust proposes in
/// a call that is ended at its first application.
pub fn start(job: &Job) -> Run {
    let Call::Krylov { tol, m, limit } = job.call else { unreachable!() };
    let (_, _, magnitude) = weighted_columns(&vectors(job), job.tau).expect("a job that passes 21");
    let (eta, inv) = eta_scaling::<f64>(magnitude);
    let (field, factors) = scaled_start(job, inv);
    let mut numbers = vec![0.0; NUMBERS];
    (numbers[ETA], numbers[DOWN], numbers[UP], numbers[TOL]) = (eta, 1.0, 1.0, tol);
    let mut counts = vec![0; COUNTS];
    (counts[M], counts[LIMIT], counts[N], counts[COUNT]) = (m, limit, job.n, job.count);
    match factors {
        Some((down, up)) => {
            (numbers[DOWN], numbers[UP], numbers[NORM]) = (down, up, norm2(&field));
            assert!(answer(job, 0).is_none(), "a job that passes every check");
            numbers[NEXT] = probe::first_length();
        }
        None => counts[ENDED] = 1,
    }
    Run { numbers, counts, field }
}

/// The first n values, scaled back.
pub fn output(job: &Job, run: &Run) -> Vec<f64> {
    run.field[..job.n].iter().map(|x| x * run.numbers[UP]).collect()
}

/// Whether a weight times the run's eta is not finite: 22. Of a job that passes 21.
pub fn bad_gain(job: &Job, run: &Run) -> bool {
    let (_, weights, _) = weighted_columns(&vectors(job), job.tau).expect("a job that passes 21");
    weights[..job.degree()].iter().any(|x| !(x * run.numbers[ETA]).is_finite())
}

/// tau x norm + 2: 24 if it is not finite. Of a job whose matrix is accepted.
pub fn bound(job: &Job) -> f64 {
    job.tau * generator(job).expect("an accepted matrix").norm_bound() + 2.0
}

/// One substep of a run and a job that pass every check, with the tol in force: 0 or the refusal's number, and the refusal's
/// double. `None` where it costs more than `cost`.
pub fn step(job: &Job, tol: f64, run: &mut Run, cost: u64) -> Option<(u32, f64)> {
    probe::allow(cost);
    probe::take_steps();
    probe::set_degree(jobs::DEGREE);
    match catch_unwind(AssertUnwindSafe(|| substep(job, tol, run))) {
        Ok(told) => Some(told),
        Err(payload) if payload.is::<probe::Costly>() => None,
        Err(payload) => resume_unwind(payload),
    }
}

fn substep(job: &Job, tol: f64, run: &mut Run) -> (u32, f64) {
    let op = Counting::of(job, generator(job).expect("an accepted matrix"));
    let (columns, mut gains, _) = weighted_columns(&vectors(job), job.tau).expect("a job that passes 21");
    gains.iter_mut().for_each(|x| *x *= run.numbers[ETA]);
    let coupling = Coupling { cols: &columns[..job.degree()], coef: &gains[..job.degree()] };
    let aug = Augmented { op: &op, coupling: &coupling, tau: job.tau, n: job.n };
    let before = run.counts[SUBSTEPS];
    let mut report = KrylovPhiReport {
        matvecs: run.counts[MATVECS],
        substeps: before,
        rejected: run.counts[REJECTED],
        est_error: run.numbers[ESTIMATE],
    };
    let mut control = (run.numbers[TIME], run.numbers[NEXT]);
    let m = run.counts[M].clamp(2, run.field.len().max(2));
    let (scaled, bound, av) = (tol * run.numbers[NORM], job.tau * op.norm_bound() + 2.0, &mut vec![0.0; job.n]);
    let ended = substeps_from(&aug, bound, &mut run.field, scaled, m, before + 1, av, &mut report, &mut control);
    if report.substeps == before {
        // the last accepted state, marked as ended
        run.counts[ENDED] = 1;
        return match ended.expect_err("no substep was accepted") {
            SemiflowError::ConvergenceFailed { last_residual, .. } => (28, last_residual),
            e => refusal(job, e),
        };
    }
    let length = probe::take_steps()[0];
    let shortest = if before == 0 { length } else { run.numbers[SHORTEST].min(length) };
    (run.numbers[TIME], run.numbers[NEXT]) = control;
    (run.numbers[SHORTEST], run.numbers[LAST], run.numbers[TOL]) = (shortest, length, tol);
    (run.counts[MATVECS], run.counts[SUBSTEPS], run.counts[REJECTED]) = (report.matvecs, report.substeps, report.rejected);
    run.numbers[ESTIMATE] = report.est_error;
    if ended.is_ok() {
        run.numbers[ESTIMATE] /= run.numbers[NORM];
        run.counts[ENDED] = 1;
    } else if report.substeps >= run.counts[LIMIT] {
        run.counts[ENDED] = 1;
        return (27, report.est_error);
    }
    (0, 0.0)
}
