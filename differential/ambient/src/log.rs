//! Random logs, most of which are done, and damaged ones.

use jobs::ambient::Log;
use jobs::{Call, Job, SPECIAL};

use crate::generate::{damage, decaying, good, norm, number, random, rough, stiff, Kind};
use crate::random::Random;

/// What a log is made for.
#[derive(Clone, Copy, PartialEq)]
enum Aim {
    Any,
    /// Temperatures that grow beyond all doubles.
    Growing,
    /// Temperatures that are NaN once they are large.
    Cancelling,
    /// Temperatures that add up beyond all doubles, and are infinite.
    Adding,
    /// Zeros of both signs.
    Zeros,
}

/// A matrix with its mass, output and working memory, and a log over it.
pub fn log(r: &mut Random) -> (Job, Log) {
    let aim = match r.below(24) {
        0..=1 => Aim::Growing,
        2..=3 => Aim::Cancelling,
        4..=5 => Aim::Zeros,
        6 => Aim::Adding,
        _ => Aim::Any,
    };
    let (mut base, own) = base(aim, r);
    let rows = base.n.min(2000);
    let (field, load) = match aim {
        Aim::Zeros => (zeros(rows, r), zeros(rows, r)),
        Aim::Any if r.once_in(2) => parts(&own, rows, r),
        _ => (vector(rows, r), vector(rows, r)),
    };
    let records = match r.below(40) {
        0 => 0,
        1..=3 => r.from_to(9, 50) as usize,
        4 => r.from_to(1, 50) as usize,
        _ => r.from_to(1, 8) as usize,
    };
    let mut log = Log { field, load, window: window(r), node: r.below(rows.max(1)), ..Log::default() };
    for i in 0..records {
        log.durations.push(if i == 0 && aim == Aim::Any && r.once_in(3) { own.tau } else { duration(&base, aim, records > 8, r) });
        log.levels.push(level(aim, r));
    }
    if matches!(aim, Aim::Cancelling | Aim::Adding) {
        large(&mut log, r);
    }
    log.places = [0; 3].map(|_| records + if r.once_in(3) { r.below(4) } else { 0 });
    if r.once_in(3) {
        (0..r.from_to(1, 3)).for_each(|_| wrong(&mut base, &mut log, r));
    }
    memory(&mut base, r);
    (base, log)
}

/// As many records as there can be, of one row that conducts to the room.
pub fn longest(records: usize, r: &mut Random) -> (Job, Log) {
    let (mut base, _) = base(Aim::Any, r);
    base.n = 1;
    (base.starts, base.cols, base.vals) = (vec![0, 1], vec![0], vec![0.25 + r.unit()]);
    (base.mass, base.out) = (None, 1);
    let durations = (0..records).map(|_| 0.25 + r.unit()).collect();
    let levels = (0..records).map(|i| (i as f64 / 900.0).sin() + 0.1 * r.unit()).collect();
    let log = Log { durations, levels, field: vec![0.5], load: vec![0.25], window: 1024, node: 0, places: [records; 3] };
    base.work = need(&base);
    (base, log)
}

/// A matrix, and the job that it was made for.
fn base(aim: Aim, r: &mut Random) -> (Job, Job) {
    let mut job = match r.below(16) {
        0 => random(Kind::Combination, r),
        1 => stiff(r),
        2 => rough(r),
        3 => decaying(r),
        _ => good(Kind::Combination, r),
    };
    if r.once_in(40) {
        damage(&mut job, r);
    }
    match aim {
        Aim::Growing => diagonal(&mut job, r, |r| -1.0 - r.unit()),
        Aim::Adding | Aim::Zeros if aim == Aim::Adding || r.once_in(2) => {
            diagonal(&mut job, r, |_| 0.0);
            (job.starts, job.cols, job.vals) = (vec![0; job.n + 1], vec![], vec![]);
        }
        Aim::Cancelling => {
            diagonal(&mut job, r, |_| 0.0);
            job.starts = (0..=job.n as u32).map(|i| 2 * i).collect();
            job.cols = (0..job.n as u32).flat_map(|i| [i, i]).collect();
            let sizes: Vec<f64> = (0..job.n).map(|_| if r.once_in(3) { 0.25 } else { 2.0 + r.unit() }).collect();
            job.vals = sizes.into_iter().flat_map(|x| [x, -x]).collect();
        }
        _ => {}
    }
    let own = job.clone();
    (job.lent, job.out) = (None, job.n.min(1_000_001));
    (job.call, job.count, job.degree) = (Call::Combination, 2, jobs::DEGREE);
    job.w.clear();
    (job, own)
}

fn diagonal(job: &mut Job, r: &mut Random, entry: impl Fn(&mut Random) -> f64) {
    job.n = r.from_to(1, 4) as usize;
    (job.starts, job.cols) = ((0..=job.n as u32).collect(), (0..job.n as u32).collect());
    job.vals = (0..job.n).map(|_| entry(r)).collect();
    job.mass = if r.once_in(3) { Some((0..job.n).map(|_| 0.5 + r.unit()).collect()) } else { None };
    job.out = job.n;
}

/// w_0 and w_1 of the job that the matrix was made for.
fn parts(own: &Job, rows: usize, r: &mut Random) -> (Vec<f64>, Vec<f64>) {
    let part = |k: usize| own.w.get(k * rows..(k + 1) * rows).map(<[f64]>::to_vec);
    (part(0).unwrap_or_else(|| vector(rows, r)), part(1).unwrap_or_else(|| vector(rows, r)))
}

fn vector(n: usize, r: &mut Random) -> Vec<f64> {
    let scale = if r.once_in(6) { 2.0_f64.powi(r.from_to(-60, 60) as i32) } else { 1.0 };
    match r.below(10) {
        0 => vec![r.pick(&[0.0, -0.0]); n],
        _ => (0..n).map(|_| number(r) * scale).collect(),
    }
}

fn zeros(n: usize, r: &mut Random) -> Vec<f64> {
    (0..n).map(|_| r.pick(&[0.0, -0.0, -0.0, -0.0])).collect()
}

fn window(r: &mut Random) -> usize {
    match r.below(8) {
        0 => 1,
        1 => 2,
        2 => 1024,
        3 => r.from_to(9, 60) as usize,
        _ => r.from_to(1, 8) as usize,
    }
}

fn duration(base: &Job, aim: Aim, short: bool, r: &mut Random) -> f64 {
    let largest = if base.starts.len() == base.n + 1 && base.n < 3000 && sound(base) { norm(base) } else { 1.0 };
    let unit = if largest > 0.0 && largest.is_finite() { 1.0 / largest } else { 1.0 };
    match r.below(12) {
        _ if aim == Aim::Growing => 500.0 * r.unit(),
        0 => 0.0,
        1 => r.pick(&[-0.0, 5e-324, 1e-300, f64::EPSILON]),
        2 if !short => r.from_to(1, 8) as f64 / 4.0,
        _ if short => r.unit() * unit,
        _ => 10.0_f64.powf(3.0 * r.unit() - 2.0) * unit,
    }
}

fn level(aim: Aim, r: &mut Random) -> f64 {
    match r.below(12) {
        _ if aim == Aim::Zeros && r.once_in(3) => r.pick(&[-1.0, -0.0, 0.0, 1.0]),
        0 => 0.0,
        1 => r.pick(&[-0.0, 5e-324, 1e-300, -1.0, 1e300]),
        _ => 4.0 * number(r),
    }
}

/// A field, or a load and a level, of the size at which rows cancel or add up to infinity.
fn large(log: &mut Log, r: &mut Random) {
    let sign = r.pick(&[1.0, -1.0]);
    let huge = |r: &mut Random| sign * 2.0_f64.powi(r.from_to(1021, 1023) as i32);
    if !r.once_in(3) {
        log.field.iter_mut().for_each(|x| *x = huge(r));
    }
    if !r.once_in(3) {
        log.load.iter_mut().for_each(|x| *x = huge(r));
        log.levels.iter_mut().for_each(|x| *x = r.pick(&[0.0, 0.0, 0.5, 0.25, 1.0]));
    }
    log.durations.iter_mut().for_each(|x| *x = r.pick(&[0.0, 0.5, 1.0, 1.0]));
}

/// Whether the entries of each row can be added up.
fn sound(job: &Job) -> bool {
    let rising = job.starts.windows(2).all(|pair| pair[0] <= pair[1]);
    rising && job.starts[job.n] as usize <= job.vals.len() && job.mass.as_ref().is_none_or(|mass| mass.len() == job.n)
}

/// Something of a record, of the log or of the slices is wrong.
fn wrong(base: &mut Job, log: &mut Log, r: &mut Random) {
    let records = log.durations.len().min(log.levels.len());
    let (at, some) = (if records == 0 { 0 } else { r.below(records) }, records > 0);
    match r.below(16) {
        0 | 1 if some => log.durations[at] = r.pick(&[-1.0, -5e-324, f64::NAN, f64::INFINITY, f64::NEG_INFINITY, 1e300, f64::MAX]),
        2 | 3 if some => log.levels[at] = r.pick(&[f64::NAN, f64::INFINITY, f64::NEG_INFINITY, f64::MAX, f64::MIN, 1e300, 1e-300]),
        4 => resize(&mut log.field, base.n, r),
        5 => resize(&mut log.load, base.n, r),
        6 if !log.field.is_empty() => special(&mut log.field, r),
        7 if !log.load.is_empty() => special(&mut log.load, r),
        8 => base.out = r.pick(&[base.out + 1, base.out.saturating_sub(1), 0]),
        9 => log.window = r.pick(&[0, 1025, 2000, usize::MAX]),
        10 => log.node = r.pick(&[base.n, base.n + 1, usize::MAX, base.n.saturating_sub(1)]),
        11 => {
            log.levels.pop();
        }
        12 => log.levels.push(1.0),
        13 => log.durations.push(1.0),
        14 if r.once_in(20) => {
            let more = r.pick(&[100_000, 100_001, 100_002]);
            (log.durations, log.levels) = (vec![0.5; more], vec![1.0; more - usize::from(r.once_in(4))]);
            // so many records are only put where none of them runs
            (log.window, log.places) = if more == 100_000 { (0, log.places) } else { (log.window, [more; 3]) };
        }
        _ => {
            let k = r.below(3);
            log.places[k] = r.pick(&[log.durations.len().saturating_sub(1), 0, log.durations.len() / 2, log.durations.len()]);
        }
    }
}

fn special(list: &mut [f64], r: &mut Random) {
    let place = r.below(list.len());
    list[place] = r.pick(&SPECIAL);
}

fn resize(list: &mut Vec<f64>, n: usize, r: &mut Random) {
    let (length, n) = (list.len(), n.min(2000));
    let new = r.pick(&[length + 1, length + n, length.saturating_sub(1), length / 2, 0]);
    list.resize(new, 0.25);
}

/// n doubles more than the combination needs.
fn need(base: &Job) -> usize {
    base.need().saturating_add(base.n)
}

/// As much as a record needs, or more, or less: what the combination alone needs, one fewer, or any length.
fn memory(base: &mut Job, r: &mut Random) {
    let need = if need(base) < 3_000_000 { need(base) } else { 0 };
    base.work = match r.below(24) {
        0 => need.saturating_sub(base.n),
        1 => need.saturating_sub(1),
        2 => r.below(need + 1),
        3..=6 => need + r.below(6),
        _ => need,
    };
}
