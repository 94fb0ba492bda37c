//! One job put to the Rust original and to the proved library, the answers compared bit for bit.

pub mod paused;
pub mod reference;

use jobs::{Answer, Call, Job, DEGREE};

/// What the Rust answers.
pub struct Expected {
    pub answer: Answer,
    /// Krylov and shifted Taylor: the transcribed Rust's answer. Taylor without a shift: that of the Rust as it is.
    pub transcribed: bool,
    /// The paths that the transcribed Rust took.
    pub paths: Vec<&'static str>,
}

/// An answer other than the expected one.
pub struct Difference {
    pub side: &'static str,
    pub parts: Vec<&'static str>,
    pub got: Answer,
    pub expected: Answer,
}

impl Difference {
    fn of(side: &'static str, got: Answer, expected: &Answer) -> Option<Difference> {
        let parts = got.differs(expected);
        (!parts.is_empty()).then(|| Difference { side, parts, got, expected: expected.clone() })
    }

    pub fn print(&self, job: &Job) -> String {
        let (side, parts, job) = (self.side, self.parts.join(", "), job.print());
        format!("{side} differs in {parts}:\n  job  {job}\n  {side} {}\n  rust {}", self.got.print(), self.expected.print())
    }
}

/// What the library has to answer; `None` where the run takes more than `cost` operations.
pub fn expected(job: &Job, cost: u64) -> Option<Expected> {
    transcribed::probe::take_hits();
    let answer = reference::answer(job, |j| transcribed::answer(j, cost))?;
    let paths = transcribed::probe::take_hits().into_keys().collect();
    let shifted = answer.number == 0 && answer.value != 0.0;
    let transcribed = shifted || matches!(job.call, Call::Krylov { .. });
    let answer = if transcribed { answer } else { unaltered(job) };
    Some(Expected { answer, transcribed, paths })
}

/// The answer of the Rust as it is; up to a lower degree than `M_MAX`, of the Rust with that number for it.
pub fn unaltered(job: &Job) -> Answer {
    let rust = |j: &Job| if j.degree == DEGREE { oracle::answer(j, u64::MAX) } else { capped::answer(j, u64::MAX) };
    reference::answer(job, rust).expect("an answer at any cost")
}

/// Where the Rust with its own libm differs from the transcribed, the steps left out, which it does not tell.
pub fn own_libm(job: &Job, transcribed: &Answer) -> Option<Difference> {
    Difference::of("own libm", Answer { steps: transcribed.steps, ..unaltered(job) }, transcribed)
}

/// Where the library differs, on slices and on bytes; `tail` tells how many bytes stand behind the last whole element.
pub fn library(job: &Job, expected: &Answer, tail: usize) -> Vec<Difference> {
    Difference::of("rattle", library::answer(job), expected).into_iter().chain(on_bytes(job, expected, tail)).collect()
}

/// Where its answer to the matrix alone differs, to that of a transposed job on bytes too, unless it is too large for them.
pub fn matrix(job: &Job, expected: &Answer) -> Option<Difference> {
    let on_slices = Difference::of("rattle's matrix answer", library::matrix(job), expected);
    let on_bytes = || {
        let large = job.n > jobs::ROWS || job.vals.len() > jobs::ENTRIES;
        if job.lent.is_none() || large {
            return None;
        }
        let side = "rattle's matrix answer on bytes";
        match library::matrix_on_bytes(job, job.vals.len()) {
            Some(got) => Difference::of(side, got, expected),
            None => {
                Some(Difference { side, parts: vec!["a byte behind the last whole element"], got: job.large(), expected: expected.clone() })
            }
        }
    };
    on_slices.or_else(on_bytes)
}

/// Where the plan alone differs, with `lent` doubles lent to it. It is expected to tell what the Rust tells of the combination of one vector of zeros over the same
/// matrix, mass, time and highest degree: the plan, or the refusal. `None` where that run takes more than `cost` operations.
pub fn plan(job: &Job, lent: usize, cost: u64) -> Option<(Answer, Option<Difference>)> {
    let n = job.n.min(MOST_ROWS);
    let mut run = Job { call: Call::Combination, count: 1, w: vec![0.0; n], out: n, work: 0, lent: None, ..job.clone() };
    if job.n <= MOST_ROWS {
        run.work = run.need();
    }
    let told = expected(&run, cost)?.answer;
    let need = job.mass.as_ref().map_or(0, |_| job.vals.len());
    let short = told.number == 0 && lent < need;
    let marked: Vec<f64> = (0..lent).map(jobs::mark).collect();
    let mut work = marked.clone();
    if told.number == 0 && !short {
        work[..need].fill(0.0);
    }
    let told = if short { Answer { number: 26, value: f64::NAN, counts: [0; 3], ..told } } else { told };
    let wanted = Answer { out: vec![], work, ..told };
    let mut work = marked.into_boxed_slice();
    let library::Told { number, value, counts, steps } = library::plan(job, &mut work);
    let got = Answer { number, value, counts, steps, out: vec![], work: work.into_vec(), buffers: None };
    let difference = Difference::of("rattle's plan", got, &wanted);
    Some((wanted, difference))
}

/// A matrix of more rows is refused before vectors are looked at.
const MOST_ROWS: usize = 1_000_000;

fn on_bytes(job: &Job, expected: &Answer, tail: usize) -> Option<Difference> {
    let side = "rattle on bytes";
    let expected = if job.is_large() { &job.large() } else { expected };
    match library::answer_on_bytes(job, tail) {
        Some(got) => Difference::of(side, got, expected),
        None => {
            let parts = vec!["a byte behind the last whole element"];
            Some(Difference { side, parts, got: job.large(), expected: expected.clone() })
        }
    }
}
