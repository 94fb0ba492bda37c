//! The reference answer of a job: the Rust's where the job is in its domain, and where document 01 or 02 adds a refusal
//! (3, 9, 33, 16, 20, 26, and 15 and 17 of the action calls) that number, unless the Rust refuses by one that is met before
//! it. So too where there would be more vectors (12) than a slice of slices can hold.
//!
//! Of a transposed job (document 02, N3): the refusals of its forward matrix, 9 also without a mass, and 30; then the answer to
//! the forward job over the transposed quotients as a matrix without mass, which stand in the buffers. The working memory is
//! that of the forward job of the same matrix and mass.

use std::borrow::Cow;

use jobs::{Answer, Buffers, Call, Job, DEGREE};

/// The first added refusal of a job that passes the checks before it, with its double.
pub fn added(job: &Job) -> Option<(u32, f64)> {
    let action = matches!(job.call, Call::Action | Call::Batched);
    if job.n > 1_000_000 || job.vals.len() > 16_777_216 {
        return Some((3, f64::NAN));
    }
    if job.mass.is_some() && job.starts.first().is_some_and(|&s| s != 0) {
        return Some((9, f64::NAN));
    }
    if !action && job.count > LONGEST {
        return Some((12, job.count as f64));
    }
    if !matches!(job.call, Call::Krylov { .. }) && !(1..=DEGREE).contains(&job.degree) {
        return Some((33, f64::NAN));
    }
    if action && job.out != job.output() {
        return Some((15, job.out as f64));
    }
    if job.w.len() != job.vectors() {
        return Some((16, job.w.len() as f64));
    }
    if action {
        if let Some(x) = job.w.iter().find(|x| !x.is_finite()) {
            return Some((17, *x));
        }
    }
    if let Call::Krylov { limit, .. } = job.call {
        if job.dimension() > 128 || limit > 1_000_000 {
            return Some((20, f64::NAN));
        }
    }
    (job.work < job.need()).then_some((26, f64::NAN))
}

/// The reference answer to the matrix of a job alone; of a transposed job to the transposed quotients.
pub fn matrix(job: &Job) -> Answer {
    let Some(marked) = job.marked_buffers() else { return forward_matrix(job) };
    match before_transposing(job) {
        Some((number, value)) => Answer { buffers: Some(marked), ..Answer::of_matrix(number, value, 0) },
        None => {
            let t = oracle::transposed(job);
            Answer { buffers: Some(filled(marked, &t)), ..forward_matrix(&t) }
        }
    }
}

/// The job whose matrix an accepted job runs on, without buffers.
pub fn forward(job: &Job) -> Cow<'_, Job> {
    match job.lent {
        None => Cow::Borrowed(job),
        Some(_) => Cow::Owned(oracle::transposed(job)),
    }
}

fn filled(buffers: Buffers, t: &Job) -> Buffers {
    buffers.filled(&t.starts, &t.cols, &t.vals)
}

/// The refusal of a transposed job that leaves its buffers as they are: the forward matrix's, or 30.
fn before_transposing(job: &Job) -> Option<(u32, f64)> {
    let told = forward_matrix(job);
    if (1..9).contains(&told.number) {
        return Some((told.number, told.value));
    }
    if job.starts[0] != 0 {
        return Some((9, f64::NAN));
    }
    if told.number != 0 {
        return Some((told.number, told.value));
    }
    let short = job.lent.iter().flatten().zip(job.lent_need()).any(|(length, need)| *length < need);
    short.then_some((30, f64::NAN))
}

fn forward_matrix(job: &Job) -> Answer {
    let told = oracle::matrix(job);
    match added(job) {
        Some((number, value)) if number <= 11 && (told.number == 0 || told.number > number) => Answer::of_matrix(number, value, 0),
        _ => told,
    }
}

/// Longer slices are not made: a job that wants them is refused by 1, 12 or 13 before their lengths count.
const LONGEST: usize = 1 << 24;

/// In which order the refusals are met: by number, but for 33, which comes directly after 14.
fn place(number: u32) -> u32 {
    match number {
        33 => 2 * 14 + 1,
        other => 2 * other,
    }
}

/// A job that passes or fails the checks before the added refusal's as `job` does, and that the Rust takes.
fn tamed(job: &Job, number: u32) -> Job {
    let mut t = job.clone();
    if place(number) <= place(33) {
        t.degree = DEGREE;
    }
    if number <= 12 {
        // only the checks of the matrix count
        t.call = Call::Action;
        t.count = 4;
    }
    if t.w.len() != t.vectors() || number == 17 {
        t.w = vec![0.0; t.vectors().min(LONGEST)];
    }
    if (number == 17 || number == 33) && t.tau.is_finite() && t.tau >= 0.0 {
        // no check before these looks at the time but 14
        t.tau = 0.0;
    }
    if matches!(t.call, Call::Action | Call::Batched) {
        t.out = t.output().min(t.n.saturating_mul(4)).min(LONGEST);
    }
    if let Call::Krylov { m, limit, .. } = &mut t.call {
        *m = (*m).min(2);
        *limit = (*limit).min(1);
    }
    t
}

/// The reference by one build of the Rust; `None` where the run costs too much.
pub fn answer(job: &Job, rust: impl Fn(&Job) -> Option<Answer>) -> Option<Answer> {
    let Some(marked) = job.marked_buffers() else { return forward_answer(job, rust) };
    if let Some((number, value)) = before_transposing(job) {
        return Some(job.refused(number, value));
    }
    let mut t = oracle::transposed(job);
    t.work = if job.work < job.need() { 0 } else { t.need() };
    let told = forward_answer(&t, rust)?;
    let has_run = matches!(told.number, 0 | 27..=29);
    let work = if has_run { job.cleared_work() } else { job.marked_work() };
    Some(Answer { work, buffers: Some(filled(marked, &t)), ..told })
}

fn forward_answer(job: &Job, rust: impl Fn(&Job) -> Option<Answer>) -> Option<Answer> {
    let Some((number, value)) = added(job) else { return rust(job) };
    let below = rust(&tamed(job, number))?;
    if below.number != 0 && place(below.number) < place(number) {
        return Some(job.refused(below.number, below.value));
    }
    Some(job.refused(number, value))
}
