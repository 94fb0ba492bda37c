//! Random histories: joins, turns, early refusals and changed tolerances over up to twenty small barrels.

use jobs::paused::{Run, COUNTS, NUMBERS};
use jobs::{Call, Job};

use crate::generate::{damage, decaying, good, rough, stiff, Kind};
use crate::random::Random;

/// Rows of a barrel.
const ROWS: usize = 8;
/// Doubles of working memory.
const WORK: usize = 1200;
/// tau times the sum of the sizes of all entries.
const ARGUMENT: f64 = 3000.0;

/// A small Krylov job; `long` for one that takes many substeps.
pub fn barrel(long: bool, r: &mut Random) -> Job {
    let mut job = loop {
        let job = match r.below(24) {
            0 => stiff(r),
            1 => rough(r),
            2 => decaying(r),
            _ => good(Kind::Krylov, r),
        };
        if job.n <= ROWS {
            break job;
        }
    };
    let Call::Krylov { tol, m, limit } = &mut job.call else { unreachable!() };
    if !r.once_in(8) {
        *m = r.from_to(1, 4) as usize;
        *limit = r.pick(&[1, 2, 3, 4, 5, 8, 20, 100]);
    }
    if long {
        (*tol, *m, *limit) = (r.pick(&[1e-10, 1e-12, 1e-14]), 2, 100);
    }
    *limit = (*limit).min(200);
    job.work = job.need() + if r.once_in(3) { r.below(6) } else { 0 };
    if job.work > WORK || !modest(&job) || (long && !lasts(&job)) {
        return barrel(long, r);
    }
    job
}

/// Something of it may be wrong, but not so that a substep takes long.
pub fn damaged(job: &Job, r: &mut Random) -> Job {
    let mut damaged = job.clone();
    damage(&mut damaged, r);
    if modest(&damaged) {
        damaged
    } else {
        job.clone()
    }
}

/// Whether tau times the norm is not so large that the small exponential of a substep takes long; a job that is refused for it is.
fn modest(job: &Job) -> bool {
    let mut mass = job.mass.iter().flatten();
    let refused = job.vals.iter().any(|x| !x.is_finite()) || mass.any(|x| !(x.is_finite() && *x > 0.0)) || job.tau.is_nan();
    refused || argument(job).is_nan() || argument(job) <= ARGUMENT
}

/// tau times a number that is not below the norm.
fn argument(job: &Job) -> f64 {
    let least = job.mass.iter().flatten().fold(1.0_f64, |least, x| least.min(*x));
    job.tau * (job.vals.iter().map(|x| x.abs()).sum::<f64>() / least)
}

/// Whether the run takes some substeps.
fn lasts(job: &Job) -> bool {
    job.n > 3 && argument(job) > 20.0 && largest(job) > 0.0
}

/// The largest size of a number in the vectors.
fn largest(job: &Job) -> f64 {
    job.w.iter().map(|x| x.abs()).filter(|x| x.is_finite()).fold(0.0, f64::max)
}

/// The slices of the state and the field, as lent to a join.
pub fn lent_to_join(job: &Job, r: &mut Random) -> Run {
    let (mut numbers, mut counts, mut field) = (NUMBERS, COUNTS, job.n.min(1_000_001) + job.degree().min(3));
    if r.once_in(30) {
        match r.below(6) {
            0 => field += 1,
            1 => field = field.saturating_sub(1),
            2 => numbers += 1,
            3 => numbers -= 1,
            4 => counts += 1,
            _ => counts -= 1,
        }
    }
    Run::marked(numbers, counts, field)
}

/// The slices of the state, as lent to a turn.
pub fn state_for_turn(r: &mut Random) -> Run {
    let (numbers, counts) = match r.below(40) {
        0 => (NUMBERS - 1, COUNTS),
        1 => (NUMBERS, COUNTS + 1),
        2 => (0, 0),
        _ => (NUMBERS, COUNTS),
    };
    Run::marked(numbers, counts, 0)
}

/// A job as a turn brings it: mostly the run's, sometimes with another tau, or vectors; seldom something that is refused early.
pub fn brought(own: &Job, others: &[Job], r: &mut Random) -> Job {
    let mut job = own.clone();
    match r.below(40) {
        0 => job.tau = -1.0,
        1 => drop(job.w.pop()),
        2 => job.w.push(1.0),
        3 => job.out += 1,
        4 => job.work = job.need() - 1,
        5 => job = others[r.below(others.len())].clone(),
        6 => job = damaged(&job, r),
        7 | 8 => job.tau *= 0.5 + r.unit(),
        9 => job.w.iter_mut().for_each(|x| *x *= 1.5),
        _ => {}
    }
    // eta is the start's, made for its tau and vectors: far larger ones make a substep that takes long
    if (job.n, job.count) == (own.n, own.count) {
        if largest(&job) > 2.0 * largest(own) {
            job.w.clone_from(&own.w);
        }
        if job.tau > 2.0 * own.tau {
            job.tau = own.tau;
        }
    }
    job
}

/// A new tolerance for a turn, or none; seldom one that is refused.
pub fn tolerance(r: &mut Random) -> Option<f64> {
    match r.below(24) {
        0 => Some(r.pick(&[0.0, 1.0, -1.0, f64::NAN])),
        1..=4 => Some(r.pick(&[1e-3, 1e-6, 1e-9, 1e-12])),
        _ => None,
    }
}
