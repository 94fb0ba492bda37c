//! Paused runs (document 02, N5) with changes between the steps, and from states that no call has left.

use std::borrow::Cow;

use compare::paused::{ending, start, step, Seen};
use jobs::paused::{Run, COUNTS, NUMBERS};
use jobs::{Answer, Call, Job};

use crate::change::{begin, forge, next};
use crate::generate::{decaying, good, rough, stiff, Kind};
use crate::random::Random;

/// Steps of a run with changes, refused ones among them.
const STEPS: usize = 40;

/// Operations that a step of a random run with changes, or from a forged state, may take.
pub const COST: u64 = 300_000;

/// Whether a job has a form in start and steps.
pub fn has_steps(job: &Job) -> bool {
    job.lent.is_none() && matches!(job.call, Call::Krylov { .. })
}

/// A run with changes from a Krylov job, answered by `whole`, or from another, and steps from a state forged of one of its moments.
pub fn changes(job: &Job, whole: &Answer, cost: u64, r: &mut Random, seen: &mut Seen) {
    if let Some((job, run)) = changed(&begin(base(job, whole, r), r), r, cost, seen) {
        forged(&job, &run, r, cost, seen);
    }
}

/// The job itself if it takes some substeps over few rows, or another.
fn base(job: &Job, whole: &Answer, r: &mut Random) -> Job {
    let some = whole.counts[1] > 2 || matches!(whole.number, 27..=29);
    match r.below(8) {
        _ if some && job.n <= jobs::ROWS => job.clone(),
        0 if matches!(whole.number, 0 | 27..=29) && job.n <= jobs::ROWS => job.clone(),
        0..=2 => stiff(r),
        3 => rough(r),
        4 => decaying(r),
        _ => good(Kind::Krylov, r),
    }
}

/// A run with changes; the job and run of one of its moments.
fn changed(job: &Job, r: &mut Random, cost: u64, seen: &mut Seen) -> Option<(Job, Run)> {
    let (mut numbers, mut counts, mut field) = (NUMBERS, COUNTS, job.n + job.degree());
    if r.once_in(30) {
        match r.below(4) {
            0 => field += 1,
            1 => field -= 1,
            2 => numbers += 1,
            _ => counts -= 1,
        }
    }
    let begun = start(job, Run::marked(numbers, counts, field), seen)?;
    if begun.number != 0 {
        return None;
    }
    seen.hit("changed: runs");
    if begun.run.ended() {
        seen.hit(format!("changed: ended by {}", ending(&begun)));
    }
    let (mut current, mut run) = (job.clone(), begun.run);
    let mut moment = (current.clone(), run.clone());
    let mut behind = 2;
    for i in 0..STEPS {
        let brought = next(&mut current, &run, r);
        let left = step(&brought.job, brought.tol, &brought.run, cost, seen)?;
        count(&brought.changes, left.number, seen);
        let taken = matches!(left.number, 0 | 27..=29);
        if taken && left.run.ended() {
            seen.hit(format!("changed: ended by {}", ending(&left)));
        }
        if taken {
            run = left.run;
        }
        if r.once_in(i + 2) {
            moment = (current.clone(), run.clone());
        }
        if run.ended() {
            behind -= 1;
            if behind == 0 {
                break;
            }
        }
    }
    Some(moment)
}

/// What a step brought, by whether a substep was made.
fn count(changes: &[&'static str], number: u32, seen: &mut Seen) {
    let made = matches!(number, 0 | 27..=29);
    seen.hit(if made { "changed: steps made" } else { "changed: steps refused" });
    for what in changes.iter().filter(|_| made) {
        seen.hit(format!("changed: new {what}"));
    }
}

/// Up to three steps from a state that no call has left: an answer or a refusal, which are those of the Rust's substep.
fn forged(job: &Job, run: &Run, r: &mut Random, cost: u64, seen: &mut Seen) {
    let mut run = forge(run, r);
    for _ in 0..3 {
        let Some(left) = step(job, None, &run, cost, seen) else { return };
        seen.hit("forged: steps");
        let number = left.number;
        seen.hit(if number == 0 { Cow::Borrowed("forged: accepted") } else { format!("forged: refused by {number}").into() });
        if number != 0 {
            return;
        }
        run = left.run;
    }
}
