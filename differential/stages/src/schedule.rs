//! Random schedules, most of which are accepted, and damaged ones.

use jobs::stages::Schedule;
use jobs::{Call, Job, SPECIAL};

use crate::generate::{call_of, damage, decaying, degree, good, norm, number, random, rough, stiff, Kind};
use crate::random::Random;

/// A matrix with its mass, output and working memory, and a schedule over it.
pub fn schedule(r: &mut Random) -> (Job, Schedule) {
    let (mut base, own) = base(r);
    let mut s = Schedule::default();
    let growing = r.once_in(12);
    if growing {
        grow(&mut base, r);
    }
    let stages = match r.below(60) {
        0 => 0,
        1 => 64,
        2 => r.pick(&[65, 66]),
        3 => r.from_to(7, 63) as usize,
        _ => r.from_to(1, 6) as usize,
    };
    let short = stages > 6;
    let rows = base.n.min(2000);
    s.start = vector(rows, r);
    let place = if r.once_in(2) { 0 } else { r.below(4) };
    for i in 0..stages {
        if i == place && !growing {
            own_stage(&mut s, &own, i == 0);
            continue;
        }
        stage(&mut s, &base, short, growing, r);
        let further = s.counts.last().map_or(0, |count| count.saturating_sub(1).min(4));
        (0..further).for_each(|_| s.further.extend(vector(rows, r)));
    }
    if r.once_in(3) {
        (0..r.from_to(1, 2)).for_each(|_| wrong(&mut base, &mut s, r));
    }
    memory(&mut base, &s, r);
    (base, s)
}

/// A matrix, and the job that it was made for.
fn base(r: &mut Random) -> (Job, Job) {
    let mut job = match r.below(16) {
        0 => random(if r.once_in(2) { Kind::Krylov } else { Kind::Combination }, r),
        1 => stiff(r),
        2 => rough(r),
        3 => decaying(r),
        _ => good(if r.once_in(2) { Kind::Krylov } else { Kind::Combination }, r),
    };
    if r.once_in(40) {
        damage(&mut job, r);
    }
    let own = job.clone();
    (job.lent, job.out) = (None, job.n.min(1_000_001));
    (job.call, job.count, job.degree) = (Call::Combination, 1, jobs::DEGREE);
    job.w.clear();
    (job, own)
}

/// The job that the matrix was made for as a stage.
fn own_stage(s: &mut Schedule, own: &Job, first: bool) {
    let (solver, tol, m, limit) = match own.call {
        Call::Krylov { tol, m, limit } => (1, tol, m, limit),
        _ => (0, 0.0, 0, 0),
    };
    s.taus.push(own.tau);
    s.counts.push(own.count);
    s.solvers.push(solver);
    s.degrees.push(own.degree);
    s.tols.push(tol);
    s.ms.push(m);
    s.limits.push(limit);
    let (w_0, further) = own.w.split_at(own.n.min(own.w.len()));
    if first {
        s.start = w_0.to_vec();
    }
    s.further.extend(further);
}

/// A diagonal whose temperatures grow by themselves, beyond all doubles within a stage or two.
fn grow(job: &mut Job, r: &mut Random) {
    job.n = r.from_to(1, 4) as usize;
    (job.starts, job.cols) = ((0..=job.n as u32).collect(), (0..job.n as u32).collect());
    job.vals = (0..job.n).map(|_| -1.0 - r.unit()).collect();
    (job.mass, job.out) = (None, job.n);
}

fn vector(n: usize, r: &mut Random) -> Vec<f64> {
    let scale = if r.once_in(6) { 2.0_f64.powi(r.from_to(-60, 60) as i32) } else { 1.0 };
    match r.below(8) {
        0 => vec![r.pick(&[0.0, -0.0]); n],
        _ => (0..n).map(|_| number(r) * scale).collect(),
    }
}

/// One stage more.
fn stage(s: &mut Schedule, base: &Job, short: bool, growing: bool, r: &mut Random) {
    let largest = if base.starts.len() == base.n + 1 && base.n < 3000 && sound(base) { norm(base) } else { 1.0 };
    let unit = if largest > 0.0 && largest.is_finite() { 1.0 / largest } else { 1.0 };
    s.taus.push(match r.below(12) {
        _ if growing => 500.0 * r.unit(),
        0 => 0.0,
        1 => r.pick(&[-0.0, 5e-324, 1e-300, f64::EPSILON]),
        2..=3 if !short => r.from_to(1, 8) as f64 / 4.0,
        _ if short => r.unit() * unit,
        _ => 10.0_f64.powf(4.0 * r.unit() - 2.0) * unit,
    });
    s.counts.push(r.from_to(1, 4) as usize);
    let krylov = !growing && r.once_in(2);
    s.solvers.push(if krylov { r.pick(&[1, 1, 1, 2, u32::MAX]) } else { 0 });
    let Call::Krylov { tol, m, limit } = call_of(Kind::Krylov, r) else { unreachable!() };
    // what a stage does not use is not looked at
    let idle = r.once_in(2);
    s.degrees.push(match krylov {
        true if idle => r.pick(&[0, 31, u32::MAX]),
        false if r.once_in(3) => degree(r),
        _ => jobs::DEGREE,
    });
    s.tols.push(if !krylov && idle { r.pick(&[0.0, 1.0, -1.0, f64::NAN]) } else { tol });
    s.ms.push(if !krylov && idle { usize::MAX } else { m.min(2 * jobs::ROWS) });
    s.limits.push(match krylov {
        false if idle => r.pick(&[0, usize::MAX]),
        true if r.once_in(3) => limit,
        _ => 1000,
    });
}

/// Whether the entries of each row can be added up.
fn sound(job: &Job) -> bool {
    let rising = job.starts.windows(2).all(|pair| pair[0] <= pair[1]);
    rising && job.starts[job.n] as usize <= job.vals.len() && job.mass.as_ref().is_none_or(|mass| mass.len() == job.n)
}

/// Something of a stage, of the lists or of the slices is wrong.
fn wrong(base: &mut Job, s: &mut Schedule, r: &mut Random) {
    let stages = s.lengths().into_iter().min().unwrap_or(0);
    let at = if stages == 0 { 0 } else { r.below(stages) };
    let some = stages > 0;
    match r.below(16) {
        0 if some => s.taus[at] = r.pick(&[-1.0, -5e-324, f64::NAN, f64::INFINITY, f64::NEG_INFINITY, 1e300, f64::MAX]),
        1 if some => s.counts[at] = r.pick(&[0, 5, 6, 4, 1, usize::MAX, usize::MAX / 2]),
        2 if some => s.degrees[at] = r.pick(&[0, 1, 31, u32::MAX]),
        3 if some => s.tols[at] = r.pick(&[0.0, 1.0, -1.0, 2.0, f64::NAN, 5e-324, 1e-300]),
        4 if some => s.limits[at] = r.pick(&[0, 1, 2, 1_000_000, 1_000_001, usize::MAX]),
        5 if some => s.solvers[at] = 1 - s.solvers[at].min(1),
        6 => resize(&mut s.start, base.n, r),
        7..=9 => {
            let n = base.n;
            resize(&mut s.further, n, r);
        }
        10 => base.out = r.pick(&[base.out + 1, base.out.saturating_sub(1), 0]),
        11 | 12 if !s.further.is_empty() => {
            let place = r.below(s.further.len());
            s.further[place] = r.pick(&SPECIAL);
        }
        13 if !s.start.is_empty() => {
            let place = r.below(s.start.len());
            s.start[place] = r.pick(&SPECIAL);
        }
        14 => uneven(s, r),
        15 if some => s.ms[at] = r.pick(&[0, 127, 128, 129, usize::MAX]),
        _ => resize(&mut s.further, base.n, r),
    }
}

fn resize(list: &mut Vec<f64>, n: usize, r: &mut Random) {
    let length = list.len();
    let n = n.min(2000);
    let new = r.pick(&[length + 1, length + n, length.saturating_sub(1), length.saturating_sub(n), length / 2, 0]);
    list.resize(new, 0.25);
}

/// One list, or the taus, with a number more or fewer.
fn uneven(s: &mut Schedule, r: &mut Random) {
    let more = r.once_in(2);
    fn one<T: Copy>(list: &mut Vec<T>, more: bool, new: T) {
        if more {
            list.push(new);
        } else {
            list.pop();
        }
    }
    match r.below(7) {
        0 => one(&mut s.taus, more, 1.0),
        1 => one(&mut s.counts, more, 1),
        2 => one(&mut s.solvers, more, 0),
        3 => one(&mut s.degrees, more, 30),
        4 => one(&mut s.tols, more, 0.5),
        5 => one(&mut s.ms, more, 2),
        _ => one(&mut s.limits, more, 1),
    }
}

/// As much as the largest stage needs, or more, or less: what one stage needs, one fewer, or any length.
fn memory(base: &mut Job, s: &Schedule, r: &mut Random) {
    let need = |i: usize| {
        let krylov = Call::Krylov { tol: 0.5, m: *s.ms.get(i).unwrap_or(&0), limit: 1 };
        let call = if s.solvers.get(i) == Some(&0) { Call::Combination } else { krylov };
        let job = Job { call, count: (*s.counts.get(i).unwrap_or(&1)).clamp(1, 4), w: vec![], ..base.clone() };
        job.need()
    };
    let needs: Vec<usize> = (0..s.taus.len().min(66)).map(need).filter(|need| *need < 3_000_000).collect();
    let largest = needs.iter().copied().max().unwrap_or(0);
    base.work = match r.below(20) {
        0 if !needs.is_empty() => r.pick(&needs),
        1 if !needs.is_empty() => r.pick(&needs).saturating_sub(1),
        2 => r.below(largest + 1),
        3..=5 => largest + r.below(6),
        _ => largest,
    };
}
