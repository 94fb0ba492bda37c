//! What the steps of a paused run bring (document 02, N5): the start's job, changed for good or for one step, or such that it is
//! refused; and states that no call has left.

use jobs::paused::{Run, COUNTS, ENDED, ETA, NUMBERS};
use jobs::{Call, Job, SPECIAL};

use crate::generate::{damage, matrix, number};
use crate::random::Random;

/// A step: its job, a new tol, and the run as it is lent; and what was changed.
pub struct Step {
    pub job: Job,
    pub tol: Option<f64>,
    pub run: Run,
    pub changes: Vec<&'static str>,
}

/// A job to start from whose run takes more than a few substeps, mostly; with further vectors that make eta large now and then.
pub fn begin(mut job: Job, r: &mut Random) -> Job {
    if let Call::Krylov { tol, m, limit } = &mut job.call {
        if r.once_in(2) {
            (*tol, *m) = (10.0_f64.powf(-3.0 - 10.0 * r.unit()), r.pick(&[2, 3, 4, 6]));
        }
        *limit = if r.once_in(4) { r.from_to(2, 12) as usize } else { (*limit).max(30) };
    }
    if job.count > 1 && r.once_in(6) {
        let scale = r.pick(&[1e-300, 1e-200, 1e-100]);
        further(&mut job).iter_mut().for_each(|x| *x *= scale);
    }
    job.work = job.need() + r.below(3);
    job
}

/// The next step. `current` is the job in force, which a lasting change alters.
pub fn next(current: &mut Job, run: &Run, r: &mut Random) -> Step {
    let mut step = Step { job: current.clone(), tol: None, run: run.clone(), changes: vec![] };
    match r.below(12) {
        0..=3 => {}
        4..=6 => {
            step.changes.push(change(current, r));
            step.job = current.clone();
        }
        7 | 8 => step.changes.push(change(&mut step.job, r)),
        9 | 10 => refusable(&mut step, r),
        _ => (0..r.from_to(1, 2)).for_each(|_| damage(&mut step.job, r)),
    }
    if r.once_in(5) {
        step.tol = Some(match r.below(10) {
            0 => r.pick(&SPECIAL),
            1 => r.pick(&[1e-30, 1e-100, 1e-300]),
            _ => 10.0_f64.powf(-1.0 - 14.0 * r.unit()),
        });
        step.changes.push("tol");
    }
    step
}

/// One thing that a step may bring anew.
fn change(job: &mut Job, r: &mut Random) -> &'static str {
    let what = match r.below(12) {
        0 | 1 => {
            job.tau *= r.pick(&[0.5, 0.9, 1.1, 2.0, 1e-3, 10.0, 0.0]);
            "tau"
        }
        2 | 3 => {
            let scale = r.pick(&[0.5, 1.25, -1.0, 2.0, 1e3]);
            job.vals.iter_mut().for_each(|v| *v *= scale);
            "entries"
        }
        4 | 5 => {
            (job.starts, job.cols, job.vals) = matrix(job.n, r);
            "matrix"
        }
        6 | 7 => {
            let masses = job.mass.is_none() || r.once_in(2);
            job.mass = masses.then(|| (0..job.n).map(|_| 2.0_f64.powi(r.from_to(-3, 3) as i32) * (0.5 + r.unit())).collect());
            if job.mass.is_some() {
                // with a mass the first row starts at 0
                if let Some(first) = job.starts.first_mut() {
                    *first = 0;
                }
            }
            "mass"
        }
        8 => {
            let first = job.n.min(job.w.len());
            job.w[..first].iter_mut().for_each(|x| *x = number(r));
            "w_0"
        }
        _ => {
            let (scale, anew) = (r.pick(&[0.0, 0.5, 3.0, 1e10, 1e-300, 1e200]), r.once_in(2));
            further(job).iter_mut().for_each(|x| *x = if anew { number(r) } else { *x * scale });
            "further vectors"
        }
    };
    job.work = job.need() + r.below(3);
    what
}

/// The vectors behind w_0.
fn further(job: &mut Job) -> &mut [f64] {
    let first = job.n.min(job.w.len());
    &mut job.w[first..]
}

/// A step that is refused, mostly.
fn refusable(step: &mut Step, r: &mut Random) {
    let job = &mut step.job;
    match r.below(18) {
        _ if r.once_in(3000) => {
            // 3
            (job.n, job.starts) = (1_000_001, vec![0; 1_000_002]);
            (job.cols, job.vals, job.mass) = (vec![], vec![], None);
        }
        0 => job.out = r.pick(&[job.n + 1, job.n.saturating_sub(1), 0]),
        1 => job.w.push(1.0),
        2 => reshape(job, r.pick(&[job.n + 1, job.n.max(2) - 1, 2 * job.n]), job.count, r),
        3 => reshape(job, job.n, r.from_to(1, 4) as usize, r),
        4 if job.n.is_multiple_of(2) && job.count <= 2 => reshape(job, job.n / 2, 2 * job.count, r),
        4 if job.count.is_multiple_of(2) => reshape(job, 2 * job.n, job.count / 2, r),
        4 => reshape(job, job.n + 1, 5 - job.count.min(4), r),
        5 => {
            if !job.w.is_empty() {
                let k = r.below(job.w.len());
                job.w[k] = r.pick(&SPECIAL[17..]);
            }
        }
        6 => step.tol = Some(r.pick(&[0.0, 1.0, -0.1, f64::NAN, f64::INFINITY, 2.0, -0.0])),
        7..=9 => too_large_for_the_start(job, step.run.numbers[ETA], r),
        10 => {
            // 24
            job.tau = 1e300;
            job.vals.iter_mut().for_each(|v| *v *= 1e10);
            further(job).fill(0.0);
        }
        11 => job.work = job.need().saturating_sub(1),
        12 => drop(step.run.field.pop()),
        13 => step.run.field.push(1.0),
        14 | 15 => small_for_an_eta_of_its_own(job, r),
        16 => step.run.numbers.resize(r.pick(&[0, NUMBERS - 1, NUMBERS + 1]), 0.0),
        _ => step.run.counts.resize(r.pick(&[0, COUNTS - 1, COUNTS + 1]), 0),
    }
}

/// The job over another number of rows or vectors, everything as long as it has to be.
fn reshape(job: &mut Job, n: usize, count: usize, r: &mut Random) {
    (job.n, job.count) = (n, count);
    (job.starts, job.cols, job.vals) = matrix(n, r);
    job.mass = None;
    job.w.resize(job.vectors(), 1.0);
    job.out = if r.once_in(4) { job.out } else { job.output() };
    job.work = job.need();
}

/// A tau whose weights overflow with the eta of the start, and mostly not with an eta of the step's own.
fn too_large_for_the_start(job: &mut Job, eta: f64, r: &mut Random) {
    let d = job.degree().max(1);
    job.tau = (f64::MAX / eta).powf(1.0 / d as f64) * r.pick(&[0.5, 2.0, 1e3, 1e10]);
    let scale = 1.0 / job.tau.max(1.0);
    job.vals.iter_mut().for_each(|v| *v *= scale);
    let largest = job.w.iter().fold(1.0, |m: f64, x| m.max(x.abs()));
    let small = r.pick(&[1.0, 1e-10, 1e-300]);
    further(job).iter_mut().for_each(|x| *x *= small / largest);
}

/// Vectors that want a large eta, with which the weights of tau overflow, but not with the start's.
fn small_for_an_eta_of_its_own(job: &mut Job, r: &mut Random) {
    let tau = r.pick(&[1e5, 1e8, 1e10]);
    let scale = job.tau / tau;
    job.vals.iter_mut().for_each(|v| *v *= scale);
    job.tau = tau;
    further(job).iter_mut().for_each(|x| *x *= 1e-320);
    if r.once_in(4) {
        job.work = job.need().saturating_sub(1);
    }
}

/// A state that no call has left.
pub fn forge(run: &Run, r: &mut Random) -> Run {
    let mut run = run.clone();
    if !r.once_in(4) {
        run.counts[ENDED] = 0;
    }
    for _ in 0..r.from_to(1, 4) {
        match r.below(9) {
            0..=3 => run.numbers[r.below(NUMBERS)] = any(r),
            4 | 5 => run.counts[r.below(COUNTS)] = any_count(r),
            6 | 7 => {
                if !run.field.is_empty() {
                    let k = r.below(run.field.len());
                    run.field[k] = any(r);
                }
            }
            _ if r.once_in(3) => {
                run.numbers.iter_mut().for_each(|x| *x = any(r));
                run.counts.iter_mut().for_each(|c| *c = any_count(r));
            }
            _ => run.field.iter_mut().for_each(|x| *x = any(r)),
        }
    }
    run
}

fn any(r: &mut Random) -> f64 {
    match r.below(3) {
        0 => r.pick(&SPECIAL),
        1 => number(r),
        _ => f64::from_bits(r.next()),
    }
}

fn any_count(r: &mut Random) -> usize {
    match r.below(3) {
        0 => r.next() as usize,
        1 => r.below(200),
        _ => r.pick(&[0, 1, 128, 129, 10_000_000, 10_000_001, 129_000_000, 129_000_001, 999_999, 1_000_000, 1_000_001, usize::MAX]),
    }
}
