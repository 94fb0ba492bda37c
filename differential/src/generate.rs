//! Jobs: every short matrix, random jobs, jobs around the boundaries, and damaged copies of good ones. Most have at
//! most 64 rows, 512 entries and 4,096 doubles of working memory.

use jobs::{Call, Job, ENTRIES, ROWS, SPECIAL, WORK};

use crate::random::Random;

#[derive(Clone, Copy, PartialEq)]
pub enum Kind {
    Combination,
    Krylov,
    Action,
    Batched,
}

pub const KINDS: [Kind; 4] = [Kind::Combination, Kind::Krylov, Kind::Action, Kind::Batched];

/// Radii of the plan (expmv.rs, `THETA_M`): arguments near s of them are boundaries.
const THETA: [f64; 8] = [1.091, 1.260, 1.438, 2.429, 3.540, 0.6411, 9.305e-1, 2.996e-1];

/// How many jobs [`short`] numbers.
pub const SHORT: usize = 3 * 40 * 13 * 13;

/// Every matrix of at most two rows, three row starts, two columns and two entries of a few values each.
pub fn short(kind: Kind, index: usize) -> Job {
    let (n, rest) = (index % 3, index / 3);
    let (starts, rest) = (word(rest % 40, 3), rest / 40);
    let (cols, vals) = (word(rest % 13, 2), word(rest / 13, 2));
    let vals = vals.iter().map(|&v| [-2.0, 3.0, f64::NAN][v as usize]).collect();
    let mut job = Job {
        call: call_of(kind, &mut Random(index as u64)),
        n,
        starts,
        cols,
        vals,
        mass: None,
        tau: 0.75,
        degree: jobs::DEGREE,
        count: 1,
        w: vec![],
        out: 0,
        work: 0,
        lent: None,
    };
    job.w = (0..job.vectors()).map(|i| 1.5 - i as f64).collect();
    job.out = job.output();
    job.work = job.need();
    job
}

/// The index-th word of digits 0, 1 and 2, shorter ones first.
fn word(mut index: usize, longest: u32) -> Vec<u32> {
    for length in 0..=longest {
        let words = 3_usize.pow(length);
        if index < words {
            return (0..length).map(|i| (index / 3_usize.pow(i) % 3) as u32).collect();
        }
        index -= words;
    }
    unreachable!()
}

/// A random job.
pub fn random(kind: Kind, r: &mut Random) -> Job {
    if r.once_in(5000) {
        let mut job = beyond_limits(kind, r);
        if r.once_in(5) {
            // so many entries are refused before the buffers are looked at
            job.lent = Some(if job.vals.is_empty() { job.lent_need() } else { [0; 3] });
        }
        return job;
    }
    let mut job = match r.below(20) {
        _ if r.once_in(100) => many_rows(kind, r),
        0 => at_plan_boundary(kind, r),
        1 => at_overflow(kind, r),
        2 if kind == Kind::Krylov => decaying(r),
        3 if kind == Kind::Krylov => huge(r),
        4 if kind == Kind::Krylov => hard(r),
        5 if kind == Kind::Krylov => chain(r),
        6 if kind == Kind::Krylov => stiff(r),
        7 if kind == Kind::Krylov => rough(r),
        _ => good(kind, r),
    };
    if kind != Kind::Krylov && r.once_in(3) {
        job.degree = degree(r);
    }
    if r.once_in(3) {
        for _ in 0..r.from_to(1, 3) {
            damage(&mut job, r);
        }
    }
    if r.once_in(5) {
        if r.once_in(4) {
            job = for_transpose(kind, r);
        }
        job.lent = Some(lengths(&job, r));
    }
    job
}

/// Of the buffers that a transposed job lends: just as needed, longer, one of them short by one, or of any length up to that.
fn lengths(job: &Job, r: &mut Random) -> [usize; 3] {
    let need = job.lent_need();
    match r.below(12) {
        0..=6 => need,
        7..=9 => need.map(|length| length + r.below(5)),
        10 => {
            let (short, longer) = (r.below(3), r.below(3));
            let mut lengths = need.map(|length| length + longer);
            lengths[short] = need[short].saturating_sub(1);
            lengths
        }
        _ => need.map(|length| r.below(length + 1)),
    }
}

/// A job in which it shows that the matrix is transposed: whose rows and columns have other sums, equal columns, or empty ones.
fn for_transpose(kind: Kind, r: &mut Random) -> Job {
    let mut job = good(kind, r);
    job.n = job.n.clamp(2, 8);
    job.mass = None;
    let case = r.below(7);
    let large = 1.7e308 * (0.5 + 0.4 * r.unit());
    // rows, columns and values, the rows rising
    let mut entries = vec![];
    for i in 0..job.n {
        match case {
            // a column whose sum is not finite, in rows whose sums are
            0 | 1 => entries.push((i, 0, if r.once_in(2) { large } else { -large })),
            // a row whose sum is not finite, in columns whose sums are
            2 => entries.push((0, i, large)),
            // rows whose sums are not finite, behind a first row start that is not 0
            3 => entries.extend([(i, i, large), (i, 0, -large)]),
            // few columns, so that some are equal in a row and others empty
            4 | 5 => (0..r.below(6)).for_each(|_| entries.push((i, r.below(2), number(r)))),
            _ => (0..r.below(4)).for_each(|_| entries.push((i, r.below(job.n), number(r)))),
        }
    }
    job.starts = (0..=job.n).map(|i| entries.iter().filter(|e| e.0 < i).count() as u32).collect();
    job.cols = entries.iter().map(|e| e.1 as u32).collect();
    job.vals = entries.iter().map(|e| e.2).collect();
    if case == 3 {
        job.starts[0] = 1;
    }
    if r.once_in(2) {
        // masses of which some change the row or column that has the largest sum
        let spread = if case < 4 { 0 } else { 10 };
        job.mass = Some((0..job.n).map(|_| 2.0_f64.powi(r.from_to(-spread, spread) as i32) * (1.0 + 0.1 * r.unit())).collect());
    }
    let norm = norm(&job);
    job.tau = r.unit() * r.pick(&[1.0, 10.0]) / if norm > 0.0 && norm.is_finite() { norm } else { 1.0 };
    fill(&mut job, r);
    if r.once_in(3) {
        job.w.iter_mut().for_each(|x| *x = r.pick(&[0.0, -0.0, -0.0, *x]));
    }
    job
}

/// Mostly one from 3 to 30: up to 3 a plan has 10^5 sweeps and more, up to 2 10^8, and up to 1 none fits.
pub fn degree(r: &mut Random) -> u32 {
    match r.below(20) {
        0 => r.pick(&[0, 31, u32::MAX]),
        1 => r.pick(&[1, 2]),
        _ => r.from_to(3, 30) as u32,
    }
}

pub fn call_of(kind: Kind, r: &mut Random) -> Call {
    match kind {
        Kind::Combination => Call::Combination,
        Kind::Action => Call::Action,
        Kind::Batched => Call::Batched,
        Kind::Krylov => Call::Krylov {
            tol: r.pick(&[1e-10, 1e-10, 1e-6, 1e-3, 0.5, 1e-14, 1e-15, 1e-30]),
            m: r.pick(&[30, 30, 20, 10, 7, 5, 4, 3, 2, 2, 1, 0, 1000]),
            limit: r.pick(&[1, 2, 3, 10, 100, 1000, 100_000]),
        },
    }
}

/// A modest number, seldom one far from 1, more seldom a special one.
pub fn number(r: &mut Random) -> f64 {
    let unit = 2.0 * r.unit() - 1.0;
    match r.below(40) {
        0..=11 => r.from_to(-4, 4) as f64,
        12..=34 => unit * [1.0, 3.0, 10.0][r.below(3)],
        35..=37 => unit * 2.0_f64.powi(r.from_to(-40, 40) as i32),
        38 => unit * 2.0_f64.powi(r.from_to(-300, 300) as i32),
        _ => r.pick(&SPECIAL[..14]),
    }
}

fn rows(r: &mut Random) -> usize {
    match r.below(10) {
        0..=5 => r.from_to(1, 4) as usize,
        6..=8 => r.from_to(5, 16) as usize,
        _ => r.from_to(17, ROWS as i64) as usize,
    }
}

/// Row starts, columns and entries of n rows.
pub fn matrix(n: usize, r: &mut Random) -> (Vec<u32>, Vec<u32>, Vec<f64>) {
    let (mut starts, mut cols, mut vals) = (vec![], vec![], vec![]);
    let shape = r.below(8);
    if shape == 0 && r.once_in(2) {
        // entries before the first row belong to no row
        for _ in 0..r.from_to(1, 3) {
            cols.push(r.below(n) as u32);
            vals.push(number(r));
        }
    }
    let scale = if r.once_in(4) { 2.0_f64.powi(r.from_to(-6, 6) as i32) } else { 1.0 };
    for i in 0..n {
        starts.push(vals.len() as u32);
        let mut put = |c: usize, v: f64| {
            cols.push(c as u32);
            vals.push(v * scale);
        };
        match shape {
            // diffusion along a line
            1 | 2 => {
                let k = 0.5 + r.unit();
                if i > 0 {
                    put(i - 1, -k);
                }
                put(i, 2.0 * k);
                if i + 1 < n {
                    put(i + 1, -k);
                }
            }
            3 => put(i, number(r)),
            4 if i + 1 < n => put(i + 1, number(r)),
            4 => {}
            5 if n <= 16 => (0..n).for_each(|c| put(c, number(r))),
            6 => {}
            _ => (0..r.below(5).min((ENTRIES / n).max(4) - 1)).for_each(|_| put(r.below(n), number(r))),
        }
    }
    starts.push(vals.len() as u32);
    (starts, cols, vals)
}

pub fn norm(job: &Job) -> f64 {
    let mass = |i: usize| job.mass.as_ref().map_or(1.0, |m| m[i]);
    (0..job.n)
        .map(|i| job.vals[job.starts[i] as usize..job.starts[i + 1] as usize].iter().map(|v| (v / mass(i)).abs()).sum())
        .fold(0.0, f64::max)
}

/// A job that is mostly accepted, at tau x norm up to some hundreds.
pub fn good(kind: Kind, r: &mut Random) -> Job {
    let n = rows(r);
    let (starts, cols, vals) = matrix(n, r);
    let mass = r.once_in(3).then(|| (0..n).map(|_| 2.0_f64.powi(r.from_to(-3, 3) as i32) * (0.5 + r.unit())).collect());
    let count = match kind {
        Kind::Combination | Kind::Krylov => r.from_to(1, 4),
        _ => r.from_to(0, 3),
    } as usize;
    let mut job = Job {
        call: call_of(kind, r),
        n,
        starts,
        cols,
        vals,
        mass,
        tau: 1.0,
        degree: jobs::DEGREE,
        count,
        w: vec![],
        out: 0,
        work: 0,
        lent: None,
    };
    let norm = norm(&job);
    job.tau = match r.below(12) {
        0 => 0.0,
        1 => r.pick(&[-0.0, 5e-324, 1e-300, f64::EPSILON]),
        2..=4 => r.from_to(1, 8) as f64 / 4.0,
        _ => 10.0_f64.powf(4.5 * r.unit() - 2.0) / if norm > 0.0 && norm.is_finite() { norm } else { 1.0 },
    };
    fill(&mut job, r);
    job
}

/// Vectors, output and working memory for a job that has the rest.
fn fill(job: &mut Job, r: &mut Random) {
    job.w.clear();
    while job.w.len() < job.vectors() {
        let scale = if r.once_in(5) { 2.0_f64.powi(r.from_to(-60, 60) as i32) } else { 1.0 };
        let shape = r.below(8);
        for _ in 0..job.n {
            job.w.push(match shape {
                0 => 0.0,
                1 => -0.0,
                2 => scale,
                _ => number(r) * scale,
            });
        }
    }
    job.out = job.output();
    while job.n <= ROWS && job.need() > WORK {
        let Call::Krylov { m, .. } = &mut job.call else { unreachable!() };
        *m = (*m).min(2 * ROWS) / 2;
    }
    job.work = job.need() + if r.once_in(3) { r.below(6) } else { 0 };
}

/// More rows than the functions on bytes take.
fn many_rows(kind: Kind, r: &mut Random) -> Job {
    let mut job = good(kind, r);
    job.n = if r.once_in(10) { 2000 } else { r.from_to(65, 300) as usize };
    (job.starts, job.cols, job.vals) = matrix(job.n, r);
    job.mass = r.once_in(3).then(|| (0..job.n).map(|_| 0.5 + r.unit()).collect());
    let norm = norm(&job);
    job.tau = 10.0_f64.powf(3.0 * r.unit() - 2.0) / if norm > 0.0 && norm.is_finite() { norm } else { 1.0 };
    fill(&mut job, r);
    job
}

/// One row more than 1,000,000, or just as many; seldom one entry more than 16,777,216.
fn beyond_limits(kind: Kind, r: &mut Random) -> Job {
    let entries = if r.once_in(20) { 16_777_217 } else { 0 };
    let n = if entries > 0 { 1 } else { r.pick(&[1_000_000, 1_000_001]) };
    let mut job = good(kind, r);
    job.n = n;
    job.starts = vec![0; n + 1];
    job.starts[n] = entries;
    job.cols = vec![0; entries as usize];
    job.vals = vec![0.0; entries as usize];
    job.mass = None;
    job.w = vec![];
    (job.out, job.work) = (0, 0);
    job
}

/// One row, and an argument within some units of s radii.
fn at_plan_boundary(kind: Kind, r: &mut Random) -> Job {
    let mut job = good(kind, r);
    let a = r.pick(&[1.0, 2.0, -3.0, 0.7, 1e-3]);
    job.n = 1;
    job.starts = vec![0, 1];
    job.cols = vec![0];
    job.vals = vec![a];
    job.mass = None;
    let argument = r.pick(&THETA) * r.from_to(1, 40) as f64;
    job.tau = f64::from_bits((((argument / 2.0 - 2.0) / a).abs().to_bits() as i64 + r.from_to(-3, 3)).max(0) as u64);
    if r.once_in(8) {
        // 4,294,967,295 sweeps and more
        job.tau = 1.6e10 * (1.0 + r.unit()) / a.abs();
    }
    fill(&mut job, r);
    job
}

/// Vectors, tau and entries so large that sums and products overflow, or so small that the scaling does.
fn at_overflow(kind: Kind, r: &mut Random) -> Job {
    let mut job = good(kind, r);
    match r.below(6) {
        0 => {
            let top = r.pick(&[1e308, 1e300, 1e200, 1e154, 1e100]);
            job.w.iter_mut().for_each(|x| *x *= top);
            job.tau = r.pick(&[1.0, 2.0, 1e2, 1e8, 1e154]);
            job.vals.iter_mut().for_each(|x| *x /= job.tau);
        }
        1 => {
            job.w.iter_mut().for_each(|x| *x *= 1e-300);
            job.tau = r.pick(&[1e3, 1e10, 1e60, 1e100, 1e200]);
            job.vals.iter_mut().for_each(|x| *x /= job.tau);
        }
        2 => {
            job.vals.iter_mut().for_each(|x| *x *= 1e307);
            job.tau = r.pick(&[1.0, 1e-300, 1e-307, 10.0, 1e-308]);
        }
        3 => {
            // entries that are finite, in rows whose sums are not
            job.vals.iter_mut().for_each(|x| *x = x.signum() * 1.2e308);
            job.tau = r.pick(&[1.0, 1e-308]);
        }
        4 => {
            // gains of a tau above 2^24 with the greatest eta
            job.w.iter_mut().for_each(|x| *x *= 5e-324);
            job.tau = r.pick(&[1e5, 1.6e7, 1e8, 1e10, 1e12]);
            job.vals.iter_mut().for_each(|x| *x /= job.tau);
        }
        _ => job.tau *= r.pick(&[1e9, 1e10, 1e12, 1e300, 1e308]),
    }
    job
}

/// A field that decays so far that its squares underflow.
pub fn decaying(r: &mut Random) -> Job {
    let mut job = good(Kind::Krylov, r);
    let n = r.pick(&[1, 2, 3, 4, 6, 8, 20, 44]);
    job.n = n;
    job.starts = (0..=n as u32).collect();
    job.cols = (0..n as u32).collect();
    let least = r.pick(&[370.0, 500.0, 800.0, 1200.0]);
    job.vals = (0..n).map(|_| least * (1.0 + r.unit() * r.pick(&[0.0, 0.1, 1.0]))).collect();
    job.mass = None;
    job.tau = 1.0;
    job.count = 1;
    job.call = Call::Krylov { tol: r.pick(&[1e-10, 1e-3, 0.5, 1e-30, 1e-100]), m: r.pick(&[2, 3, 5, 10, 20, 40]), limit: 100_000 };
    fill(&mut job, r);
    job
}

/// Entries whose squares overflow in the columns, at a finite argument.
fn huge(r: &mut Random) -> Job {
    let mut job = good(Kind::Krylov, r);
    let scale = r.pick(&[1e5, 1e10, 1e150, 1e160, 1e200, 1e300]);
    job.vals.iter_mut().for_each(|x| *x *= scale);
    if r.once_in(2) {
        job.tau = r.unit() * r.pick(&[1.0, 1.0 / scale, 1e-5]);
    }
    job
}

/// A tolerance that lengths fail to meet, in few dimensions.
fn hard(r: &mut Random) -> Job {
    let mut job = good(Kind::Krylov, r);
    job.call = Call::Krylov {
        tol: r.pick(&[1e-16, 1e-30, 1e-100, 1e-300, 5e-324, 1e-15]),
        m: r.pick(&[2, 3, 4, 6]),
        limit: r.pick(&[1, 3, 10, 50]),
    };
    job.tau *= r.pick(&[1.0, 10.0, 1e3, 1e-3]);
    fill(&mut job, r);
    job
}

/// A decaying chain of rows so weakly coupled that the local error is subnormal.
fn chain(r: &mut Random) -> Job {
    let mut job = good(Kind::Krylov, r);
    let n = r.from_to(26, 40) as usize;
    let a = r.pick(&[50.0, 100.0, 350.0]);
    let c = a * 10.0_f64.powf(-11.9 + r.unit());
    (job.n, job.starts, job.cols, job.vals, job.mass) = (n, vec![0], vec![], vec![], None);
    for i in 0..n {
        if i > 0 {
            job.cols.push(i as u32 - 1);
            job.vals.push(c);
        }
        job.cols.push(i as u32);
        job.vals.push(a);
        job.starts.push(job.vals.len() as u32);
    }
    job.tau = 1.0;
    job.count = 1;
    job.call = Call::Krylov { tol: r.pick(&[0.5, 0.1, 1e-3]), m: r.from_to(12, 32) as usize, limit: 100 };
    fill(&mut job, r);
    job.w.fill(0.0);
    job.w[0] = 1.0;
    job
}

/// So large a tau that the columns are rounding errors, with a tolerance that is easily met.
pub fn rough(r: &mut Random) -> Job {
    let mut job = good(Kind::Krylov, r);
    job.tau = 10.0_f64.powf(7.0 + 7.0 * r.unit());
    job.call = Call::Krylov { tol: r.pick(&[0.9, 0.5, 0.1, 1e-3]), m: r.pick(&[2, 3, 4]), limit: r.pick(&[10, 100, 1000]) };
    fill(&mut job, r);
    job
}

/// Rows of very different rates, or a flow from row to row, at large tau.
pub fn stiff(r: &mut Random) -> Job {
    let mut job = good(Kind::Krylov, r);
    let n = r.from_to(3, 40) as usize;
    let (spread, flow, rate) = (4.0 * r.unit(), r.once_in(2), 10.0_f64.powf(4.0 * r.unit()));
    (job.n, job.starts, job.cols, job.vals, job.mass) = (n, vec![0], vec![], vec![], None);
    for i in 0..n {
        let a = rate * 10.0_f64.powf(-spread * r.unit());
        job.cols.push(i as u32);
        job.vals.push(a);
        if flow && i > 0 {
            job.cols.push(i as u32 - 1);
            job.vals.push(-a * r.pick(&[1.0, 1.0, 3.0]));
        }
        job.starts.push(job.vals.len() as u32);
    }
    job.tau = r.pick(&[1.0, 1.0, 0.1]);
    job.count = r.pick(&[1, 1, 2, 4]);
    job.call =
        Call::Krylov { tol: 10.0_f64.powf(-1.0 - 15.0 * r.unit()), m: r.from_to(2, 40) as usize, limit: r.pick(&[10, 100, 100_000]) };
    fill(&mut job, r);
    job
}

/// One thing that is wrong, or at a limit.
pub fn damage(job: &mut Job, r: &mut Random) {
    let any = r.pick(&SPECIAL);
    let odd = r.pick(&SPECIAL[17..]);
    let row = |job: &Job, r: &mut Random| r.below(job.starts.len().max(1));
    match r.below(31) {
        0 => job.n = r.pick(&[0, job.n + 1, job.n.saturating_sub(1)]),
        1 => drop(job.starts.pop()),
        2 => job.starts.push(job.vals.len() as u32),
        3 => drop(job.cols.pop()),
        4 => drop(job.vals.pop()),
        5 => job.vals.push(any),
        6 => {
            let i = row(job, r);
            if let Some(s) = job.starts.get_mut(i) {
                *s = s.wrapping_add(r.pick(&[1, 2, u32::MAX]));
            }
        }
        7 => {
            if !job.cols.is_empty() {
                let k = r.below(job.cols.len());
                job.cols[k] = r.pick(&[job.n as u32, job.n as u32 + 1, u32::MAX, 0]);
            }
        }
        8 | 9 => {
            if !job.vals.is_empty() {
                let k = r.below(job.vals.len());
                job.vals[k] = if r.once_in(2) { any } else { odd };
            }
        }
        10 => job.mass = Some(vec![1.0; r.pick(&[job.n, job.n + 1, job.n.saturating_sub(1)])]),
        11 | 12 => {
            let mut mass = job.mass.take().unwrap_or_else(|| vec![2.0; job.n]);
            if !mass.is_empty() {
                let k = r.below(mass.len());
                mass[k] = any;
            }
            job.mass = Some(mass);
        }
        13 => {
            // entries before the first row
            if let Some(s) = job.starts.first_mut() {
                *s = s.wrapping_add(1);
            }
        }
        14 => job.vals.iter_mut().for_each(|v| *v *= 1e308),
        15 => job.mass = Some(vec![r.pick(&[1e-300, 5e-324, 1e300]); job.n]),
        16 => job.count = r.pick(&[0, 4, 5, 6, 3]),
        17 => {
            job.count = r.pick(&[0, 4, 5, 3, 1]);
            job.w.resize(job.vectors(), 1.0);
            job.out = job.output();
            job.work = job.need().min(WORK);
        }
        18 | 19 => job.tau = any,
        20 => job.tau = -job.tau,
        21 => job.out = r.pick(&[0, job.out + 1, job.out.saturating_sub(1), 2 * job.out]),
        22 => drop(job.w.pop()),
        23 => job.w.push(any),
        24 | 25 => {
            if !job.w.is_empty() {
                let k = r.below(job.w.len());
                job.w[k] = if r.once_in(2) { any } else { odd };
            }
        }
        26 => {
            if let Call::Krylov { tol, .. } = &mut job.call {
                *tol = r.pick(&[0.0, 1.0, -1.0, f64::NAN, f64::INFINITY, 5e-324, 1.0 - f64::EPSILON / 2.0, 1.0 + f64::EPSILON]);
            }
        }
        27 => {
            if let Call::Krylov { limit, m, .. } = &mut job.call {
                (*limit, *m) = r.pick(&[(0, *m), (1_000_000, *m), (1_000_001, *m), (*limit, 129), (*limit, 1000)]);
            }
        }
        28 => {
            // a slice longer than any that fits
            match r.below(5) {
                0 => job.starts.resize(513 + r.below(100), 0),
                1 => job.mass = Some(vec![1.0; 513 + r.below(100)]),
                2 => job.w.resize(513 + r.below(100), 1.0),
                3 => job.out = 513 + r.below(100),
                _ => job.work = WORK + r.below(3),
            }
        }
        29 => job.work = job.work.saturating_sub(r.pick(&[1, 1, 6, 50])),
        _ => job.work = job.need().saturating_sub(1).min(WORK),
    }
}
