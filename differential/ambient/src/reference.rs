//! What a soak under a changing ambient level has to answer (document 02, N12): single Taylor calls of the Rust in a row, and extremes by
//! looking at each number of a window.

use jobs::ambient::{Left, Log};
use jobs::{Call, Job, DEGREE};

/// What the log has to leave; `None` where a record takes more than `cost` operations.
pub fn expected(base: &Job, log: &Log, cost: u64) -> Option<Left> {
    let mut left =
        Left { number: 0, value: 0.0, record: 0, out: base.marked_out(), work: base.marked_work(), results: log.marked_results() };
    if let Some((number, value)) = refused(base, log) {
        return Some(Left { number, value, ..left });
    }
    let (n, mut field, mut temperatures) = (base.n, log.field.clone(), vec![]);
    for i in 0..log.durations.len() {
        // "for each record w_1 is a fixed load vector times the level, entry by entry, and the field carries on in the output"
        let w = field.iter().copied().chain(log.load.iter().map(|load| load * log.levels[i])).collect();
        // "A record needs n doubles more of working memory than its Taylor combination (26)"
        let work = base.work.saturating_sub(n);
        let job = Job { call: Call::Combination, degree: DEGREE, tau: log.durations[i], count: 2, w, work, lent: None, ..base.clone() };
        let told = compare::expected(&job, cost)?.answer;
        left.record = i as u32 + 1;
        // "so does a record's refusal, but with the field before it, or nothing changed at the first"
        if told.number != 0 {
            (left.number, left.value) = (told.number, told.value);
            return Some(left);
        }
        left.out = told.out;
        left.work[..job.need() + n].fill(0.0);
        // "A NaN temperature ends the work, the field after that record in the output and working memory cleared"
        if left.out[log.node].is_nan() {
            left.value = f64::NAN;
            return Some(left);
        }
        temperatures.push(left.out[log.node]);
        // "the temperature after each record, and the largest and smallest among the last W of these, fewer at the start"
        let window = &temperatures[temperatures.len().saturating_sub(log.window)..];
        left.results[0][i] = left.out[log.node];
        left.results[1][i] = shown(window.iter().copied().fold(f64::NEG_INFINITY, |m, x| if x > m { x } else { m }));
        left.results[2][i] = shown(window.iter().copied().fold(f64::INFINITY, |m, x| if x < m { x } else { m }));
        field.clone_from(&left.out);
    }
    left.record = 0;
    Some(left)
}

/// "An extreme of 0 is given as +0."
fn shown(extreme: f64) -> f64 {
    if extreme == 0.0 {
        0.0
    } else {
        extreme
    }
}

/// "After the matrix checks come 15 for the output, 16 for field, then load, and 17 for field, then load. It then refuses with 38 if W is not 1
/// to 1,024 or the node is not below n, then with 39 for any other number of records or levels not as many as durations, then with 40 if a
/// slice for the results holds fewer places than records."
fn refused(base: &Job, log: &Log) -> Option<(u32, f64)> {
    let matrix = compare::reference::matrix(base);
    if matrix.number != 0 {
        return Some((matrix.number, matrix.value));
    }
    let (n, records) = (base.n, log.durations.len());
    let length = |list: &[f64], number: u32| (list.len() != n).then_some((number, list.len() as f64));
    let finite = |list: &[f64]| list.iter().find(|x| !x.is_finite()).map(|x| (17, *x));
    let when = |wrong: bool, number: u32| wrong.then_some((number, f64::NAN));
    (base.out != n)
        .then_some((15, base.out as f64))
        .or(length(&log.field, 16))
        .or(length(&log.load, 16))
        .or(finite(&log.field))
        .or(finite(&log.load))
        .or(when(!(1..=1024).contains(&log.window) || log.node >= n, 38))
        .or(when(!(1..=100_000).contains(&records) || log.levels.len() != records, 39))
        .or(when(log.places.iter().any(|places| *places < records), 40))
}
