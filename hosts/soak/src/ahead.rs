//! What a Taylor soak is going to take: its work by the plan, which is exact, and its time by a trial, which is an estimate.

use crate::job::Job;
use crate::progress::lasting;
use hazhendu::{Cost, Plan, Soaked, Solver, TaylorOptions};
use std::time::{Duration, Instant};

/// Applications of a trial, the next where one is too short to be measured.
const TRIALS: [u64; 3] = [300, 3_000, 30_000];
const MEASURED: Duration = Duration::from_millis(20);
/// A trial makes at most this part of the whole.
const PART: u64 = 20;

pub struct Ahead {
    pub plan: Plan,
    about: Option<Duration>,
}

impl Ahead {
    /// Nothing where there is no plan: the run is refused then.
    pub fn of(job: &Job, tau: f64, options: TaylorOptions) -> Option<Ahead> {
        let plan = job.plan(tau, options)?;
        let about = tried(job, tau, options, &plan);
        Some(Ahead { plan, about })
    }

    /// While it runs.
    pub fn line(&self, gone: Duration) -> String {
        let about = self.about.map_or(String::new(), |about| format!(" of about {} (an estimate)", lasting(about)));
        format!("taylor: {} applications, {}{about}", self.plan.applications, lasting(gone))
    }
}

/// The same soak over a shorter time is measured, and the whole taken for as much longer as it makes more applications.
fn tried(job: &Job, tau: f64, options: TaylorOptions, plan: &Plan) -> Option<Duration> {
    let mut about = None;
    for target in TRIALS.into_iter().filter(|target| target.saturating_mul(PART) <= plan.applications) {
        let begun = Instant::now();
        let short = job.soak_over(Solver::Taylor(options), tau * target as f64 / plan.applications as f64);
        let Ok(Soaked { cost: Cost::Taylor(made), .. }) = short else { return None };
        let took = begun.elapsed();
        about = (made.applications > 0).then(|| took.mul_f64(plan.applications as f64 / made.applications as f64));
        if took >= MEASURED {
            break;
        }
    }
    about
}
