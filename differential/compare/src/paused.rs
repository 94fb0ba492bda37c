//! Paused runs (document 02, N5): a start and each step put to the library and to the Rust's substep under the driver's loop, and
//! runs of which nothing is changed held against the whole call.

use std::borrow::Cow;
use std::collections::BTreeMap;

use jobs::paused::{Left, Run, COUNT, COUNTS, ESTIMATE, LIMIT, M, MATVECS, N, NUMBERS, REJECTED, SUBSTEPS, TIME, TOL};
use jobs::{bits, Answer, Call, Job};
use transcribed::{paused, probe};

use crate::reference;

/// What refusals are for.
const WHOLE: &str = "as the whole call";
const FIELD: &str = "the length of the field";
const STATE: &str = "the length of the state";

/// What was met, and what differs.
#[derive(Default)]
pub struct Seen {
    pub hits: BTreeMap<Cow<'static, str>, u64>,
    pub differences: Vec<String>,
}

impl Seen {
    pub fn hit(&mut self, what: impl Into<Cow<'static, str>>) {
        *self.hits.entry(what.into()).or_default() += 1;
    }

    /// Whether a call left what it has to leave.
    fn hold(&mut self, at: &str, job: &Job, tol: Option<f64>, before: &Run, got: &Left, expected: &Left) -> bool {
        let parts = got.differs(expected);
        if !parts.is_empty() {
            let (parts, job, before, tol) = (parts.join(", "), job.print(), before.print(), tol.map(bits));
            let (got, expected) = (got.print(), expected.print());
            let text =
                format!("{at} differs in {parts}:\n  job  {job}\n  new tol {tol:x?}\n  run  {before}\n  rattle {got}\n  rust   {expected}");
            self.differences.push(text);
        }
        parts.is_empty()
    }

    /// The same on bytes, where a large job gets 255 and nothing is changed.
    fn hold_on_bytes(&mut self, at: &str, job: &Job, tol: Option<f64>, before: &Run, got: Option<Left>, expected: Left) -> bool {
        let large = job.is_large();
        self.hit(if large { "on bytes: large ones answered by 255" } else { "on bytes: starts and steps" });
        let Some(got) = got else {
            self.differences.push(format!("{at} wrote a byte behind the last whole element:\n  job  {}", job.print()));
            return false;
        };
        let expected = if large { Left::refused(job, before, 255, jobs::mark(0)) } else { expected };
        self.hold(at, job, tol, before, &got, &expected)
    }

    fn differ(&mut self, job: &Job, what: &str, got: &str, expected: &str) {
        self.differences.push(format!("a run by steps differs in {what}:\n  job  {}\n  steps {got}\n  whole {expected}", job.print()));
    }
}

/// The first refusal of a job before its run, which is that of the whole call: the Rust's is ended at its first application.
fn early(job: &Job) -> Option<(u32, f64)> {
    let begun = |j: &Job| Some(transcribed::answer(j, 0).unwrap_or_else(|| j.refused(0, 0.0)));
    let told = reference::answer(job, begun).expect("an answer to every job");
    (told.number != 0).then_some((told.number, told.value))
}

/// The refusal of a start, and what it is for: the whole call's, and 26 where field or state have another length.
fn start_refusal(job: &Job, lent: &Run) -> Option<(u32, f64, &'static str)> {
    if let Some((number, x)) = early(job) {
        return Some((number, x, WHOLE));
    }
    if (lent.numbers.len(), lent.counts.len()) != (NUMBERS, COUNTS) {
        return Some((26, f64::NAN, STATE));
    }
    (lent.field.len() != job.n + job.degree()).then_some((26, f64::NAN, FIELD))
}

/// 31: ended, or a state that no call leaves with counts out of range.
fn over(run: &Run) -> bool {
    let c = &run.counts;
    run.ended() || c[LIMIT] <= c[SUBSTEPS] || c[MATVECS] > 129_000_000 || c[REJECTED] > 10_000_000
}

/// The job of a step with the tol in force and with m and limit of the start.
fn in_force(job: &Job, tol: Option<f64>, run: &Run) -> Job {
    let call = Call::Krylov { tol: tol.unwrap_or(run.numbers[TOL]), m: run.counts[M], limit: run.counts[LIMIT] };
    Job { call, ..job.clone() }
}

/// The refusal of a step before its substep, and what it is for.
fn step_refusal(job: &Job, tol: Option<f64>, run: &Run, seen: &mut Seen) -> Option<(u32, f64, &'static str)> {
    if (run.numbers.len(), run.counts.len()) != (NUMBERS, COUNTS) {
        return Some((31, f64::NAN, STATE));
    }
    if over(run) {
        return Some((31, f64::NAN, if run.ended() { "ended" } else { "counts that no run has" }));
    }
    behind_31(&in_force(job, tol, run), run, seen)
}

/// Of a job with the options in force.
fn behind_31(job: &Job, run: &Run, seen: &mut Seen) -> Option<(u32, f64, &'static str)> {
    let whole = early(job);
    let by = |last: u32| whole.filter(|(number, _)| *number <= last).map(|(number, x)| (number, x, WHOLE));
    if let Some(refusal) = by(16) {
        return Some(refusal);
    }
    let another = match (job.n != run.counts[N], job.count != run.counts[COUNT]) {
        (true, true) => "another n and count",
        (true, false) => "another n",
        (false, true) => "another count",
        (false, false) => "",
    };
    if !another.is_empty() {
        return Some((16, job.w.len() as f64, another));
    }
    if let Some(refusal) = by(21) {
        return Some(refusal);
    }
    let own = whole.is_some_and(|(number, _)| number == 22);
    if paused::bad_gain(job, run) {
        return Some((22, f64::NAN, if own { WHOLE } else { "the start's eta alone" }));
    }
    let rest = if own { behind_22(job, seen) } else { by(26) };
    rest.or((run.field.len() != job.n + job.degree()).then_some((26, f64::NAN, FIELD)))
}

/// 24 and 26 of a job whose own eta is refused by 22.
fn behind_22(job: &Job, seen: &mut Seen) -> Option<(u32, f64, &'static str)> {
    seen.hit("step passes 22 by the start's eta alone");
    let bound = paused::bound(job);
    if !bound.is_finite() {
        return Some((24, bound, WHOLE));
    }
    (job.work < job.need()).then_some((26, f64::NAN, WHOLE))
}

/// What a start has to leave.
pub fn expected_start(job: &Job, lent: &Run, seen: &mut Seen) -> Left {
    match start_refusal(job, lent) {
        Some((number, x, cause)) => {
            seen.hit(format!("start refused by {number:2}: {cause}"));
            Left::refused(job, lent, number, x)
        }
        None => {
            let run = paused::start(job);
            Left { number: 0, value: run.numbers[ESTIMATE], out: paused::output(job, &run), work: job.cleared_work(), run }
        }
    }
}

/// What a step has to leave; `None` where the substep takes more than `cost` operations.
pub fn expected_step(job: &Job, tol: Option<f64>, run: &Run, cost: u64, seen: &mut Seen) -> Option<Left> {
    if let Some((number, x, cause)) = step_refusal(job, tol, run, seen) {
        seen.hit(format!("step refused by {number:2}: {cause}"));
        return Some(Left::refused(job, run, number, x));
    }
    let job = &in_force(job, tol, run);
    let mut after = run.clone();
    probe::take_hits();
    let (number, x) = paused::step(job, tol.unwrap_or(run.numbers[TOL]), &mut after, cost)?;
    probe::take_hits().into_keys().for_each(|path| seen.hit(format!("path of a step: {path}")));
    let value = if number == 0 { after.numbers[ESTIMATE] } else { x };
    Some(Left { number, value, out: paused::output(job, &after), work: job.cleared_work(), run: after })
}

/// A start put to both sides; what it leaves, unless they differ.
pub fn start(job: &Job, lent: Run, seen: &mut Seen) -> Option<Left> {
    let expected = expected_start(job, &lent, seen);
    let got = library::paused::start(job, lent.clone());
    let held = seen.hold("a start", job, None, &lent, &got, &expected);
    let on_bytes = library::paused::start_on_bytes(job, &lent, tail(job));
    (seen.hold_on_bytes("a start on bytes", job, None, &lent, on_bytes, expected) && held).then_some(got)
}

/// How many bytes stand behind the last whole elements.
fn tail(job: &Job) -> usize {
    job.vals.len() + job.w.len()
}

/// A step put to both sides; what it leaves, unless they differ or it costs too much.
pub fn step(job: &Job, tol: Option<f64>, run: &Run, cost: u64, seen: &mut Seen) -> Option<Left> {
    let Some(expected) = expected_step(job, tol, run, cost, seen) else {
        seen.hit("steps above the cost");
        return None;
    };
    let got = library::paused::step(job, tol, run.clone());
    let held = seen.hold("a step", job, tol, run, &got, &expected);
    let on_bytes = library::paused::step_on_bytes(job, tol, run, tail(job));
    (seen.hold_on_bytes("a step on bytes", job, tol, run, on_bytes, expected) && held).then_some(got)
}

/// How a run has ended, for the tally; of one that a start or step has just ended.
pub fn ending(left: &Left) -> &'static str {
    match left.number {
        27 => "27",
        28 => "28",
        29 => "29",
        _ if left.run.counts[SUBSTEPS] == 0 => "a start of zeros",
        _ if left.run.numbers[TIME] < 1.0 => "norm 0",
        _ => "time 1",
    }
}

/// A job that is answered by `whole`, as start and steps: bit for bit that answer, and on the way, after the first step, one in the
/// midst and the last that does not end the run, what the Rust leaves with that limit. `pick` gives a number below its argument.
pub fn undivided(job: &Job, whole: &Answer, cost: u64, pick: impl FnMut(usize) -> usize, seen: &mut Seen) {
    let Some(begun) = start(job, Run::lent(job), seen) else { return };
    if begun.number != 0 {
        seen.hit("undivided: starts refused");
        return ends_as(job, &begun, whole, seen);
    }
    seen.hit("undivided: runs");
    let mut way = Way::default();
    let Some(left) = steps(job, begun, cost, pick, &mut way, seen) else { return };
    ends_as(job, &left, whole, seen);
    seen.hit(format!("undivided: ended by {}", ending(&left)));
    step(job, None, &left.run, cost, seen);
    for (limit, estimate, out) in [way.first, way.middle, way.last].into_iter().flatten() {
        on_the_way(job, limit, estimate, out, cost, seen);
    }
}

/// Substeps, estimate and output after three of the steps that do not end a run.
#[derive(Default)]
struct Way {
    first: Option<(usize, f64, Vec<f64>)>,
    middle: Option<(usize, f64, Vec<f64>)>,
    last: Option<(usize, f64, Vec<f64>)>,
}

/// Steps up to the end of a run.
fn steps(job: &Job, begun: Left, cost: u64, mut pick: impl FnMut(usize) -> usize, way: &mut Way, seen: &mut Seen) -> Option<Left> {
    let (mut left, mut between) = (begun, 0);
    while !left.run.ended() {
        left = step(job, None, &left.run, cost, seen)?;
        seen.hit("undivided: steps");
        if left.run.ended() {
            break;
        }
        let state = Some((left.run.counts[SUBSTEPS], left.run.numbers[ESTIMATE], std::mem::take(&mut left.out)));
        if way.first.is_none() {
            way.first = state;
            continue;
        }
        let before = std::mem::replace(&mut way.last, state);
        if before.is_some() {
            between += 1;
            if pick(between) == 0 {
                way.middle = before;
            }
        }
    }
    Some(left)
}

/// The state after `limit` steps against the whole call with that limit, which is refused by 27.
fn on_the_way(job: &Job, limit: usize, estimate: f64, out: Vec<f64>, cost: u64, seen: &mut Seen) {
    let Call::Krylov { tol, m, .. } = job.call else { unreachable!() };
    let stopped = Job { call: Call::Krylov { tol, m, limit }, ..job.clone() };
    let Some(whole) = transcribed::answer(&stopped, cost) else { return };
    seen.hit("undivided: on the way");
    let steps = Answer { number: 27, value: estimate, out, ..whole.clone() };
    let parts = steps.differs(&whole);
    if !parts.is_empty() {
        seen.differ(&stopped, &parts.join(", "), &steps.print(), &whole.print());
    }
}

/// The last call of a run by steps against the whole call.
fn ends_as(job: &Job, left: &Left, whole: &Answer, seen: &mut Seen) {
    let steps = left.answer();
    let parts = steps.differs(whole);
    if !parts.is_empty() {
        seen.differ(job, &parts.join(", "), &steps.print(), &whole.print());
    }
}
