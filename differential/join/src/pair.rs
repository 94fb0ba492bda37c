//! Random pairs: mostly a barrel and a mount over the same few rows, with columns in common; a third of them damaged.

use jobs::{Call, Job, SPECIAL};

use crate::random::Random;

#[derive(Debug)]
pub struct Pair {
    pub a: Job,
    pub b: Job,
    /// Of the slices for row starts, columns and values.
    pub lengths: [usize; 3],
}

/// A matrix without mass; the rest of a job is not looked at.
fn matrix(n: usize, starts: Vec<u32>, cols: Vec<u32>, vals: Vec<f64>) -> Job {
    let call = Call::Action;
    Job { call, n, starts, cols, vals, mass: None, lent: None, tau: 0.0, degree: jobs::DEGREE, count: 0, w: vec![], out: 0, work: 0 }
}

fn number(r: &mut Random) -> f64 {
    let unit = 2.0 * r.unit() - 1.0;
    match r.below(20) {
        0..=5 => r.from_to(-3, 3) as f64,
        6..=14 => unit,
        15..=16 => unit * 2.0_f64.powi(r.from_to(-300, 300) as i32),
        _ => r.pick(&SPECIAL[..12]),
    }
}

/// One row in `dense` holds every column, the others about one in `sparse`; the columns rise.
fn good(n: usize, r: &mut Random) -> Job {
    let (mut starts, mut cols, mut vals) = (vec![], vec![], vec![]);
    if r.once_in(6) {
        // entries before the first row start, in any order
        for _ in 0..r.from_to(1, 3) {
            cols.push(r.below(n) as u32);
            vals.push(number(r));
        }
    }
    let (dense, sparse) = (r.pick(&[2, 5, 100]), r.pick(&[2, 3, 8]));
    for _ in 0..n {
        starts.push(vals.len() as u32);
        let all = r.once_in(dense);
        for c in 0..n as u32 {
            if all || r.once_in(sparse) {
                cols.push(c);
                vals.push(number(r));
            }
        }
    }
    starts.push(vals.len() as u32);
    matrix(n, starts, cols, vals)
}

/// Entries of the mount that take away, double or overflow those of the barrel in the same place of the list.
fn alike(a: &Job, r: &mut Random) -> Job {
    let mut b = a.clone();
    for x in &mut b.vals {
        *x = match r.below(4) {
            0 => -*x,
            1 => *x,
            2 => r.pick(&[0.0, -0.0]),
            _ => number(r),
        };
    }
    b
}

fn damage(q: &mut Job, r: &mut Random) {
    let place = |length: usize, r: &mut Random| r.below(length.max(1));
    let (s, k) = (place(q.starts.len(), r), place(q.vals.len(), r));
    match r.below(12) {
        0 => q.n = r.pick(&[0, q.n + 1, q.n.saturating_sub(1)]),
        1 => drop(q.starts.pop()),
        2 => drop(q.vals.pop()),
        3 => q.cols.push(0),
        4 => q.starts[s] = r.below(q.vals.len() + 3) as u32,
        5 if !q.cols.is_empty() => q.cols[k] = r.pick(&[q.n as u32, q.n as u32 + 1, u32::MAX]),
        6 if !q.vals.is_empty() => q.vals[k] = r.pick(&SPECIAL[17..]),
        7 => q.vals.iter_mut().for_each(|x| *x = x.signum() * f64::MAX),
        8 | 9 if q.cols.len() > 1 => {
            let other = place(q.cols.len(), r);
            q.cols.swap(k, other);
        }
        10 if q.cols.len() > 1 => {
            let k = r.from_to(1, q.cols.len() as i64 - 1) as usize;
            q.cols[k] = q.cols[k - 1];
        }
        _ => {}
    }
}

pub fn random(r: &mut Random) -> Pair {
    let n = match r.below(10) {
        0..=6 => r.from_to(1, 4),
        7 | 8 => r.from_to(5, 12),
        _ => r.from_to(13, 40),
    } as usize;
    let mut a = good(n, r);
    let mut b = if r.once_in(3) { alike(&a, r) } else { good(n, r) };
    if r.once_in(8) {
        // one entry in each row at most, so that 11 lets large ones pass and sums become infinite
        (a, b) = (diagonal(n, r), diagonal(n, r));
    }
    if r.once_in(40) {
        b = good(n + 1, r);
    }
    if r.once_in(4) {
        damage(&mut a, r);
    }
    if r.once_in(4) {
        damage(&mut b, r);
    }
    let lengths = lengths(&a, &b, r);
    Pair { a, b, lengths }
}

fn diagonal(n: usize, r: &mut Random) -> Job {
    let vals = (0..n).map(|_| r.pick(&[1.0, -0.0, f64::MAX, f64::MIN, 1.2e308, -1.2e308, 1e300])).collect();
    matrix(n, (0..=n as u32).collect(), (0..n as u32).collect(), vals)
}

/// Mostly enough for both; else near the number of places held, which the columns of both in each row tell.
fn lengths(a: &Job, b: &Job, r: &mut Random) -> [usize; 3] {
    let (rows, most) = (a.n + 1, a.vals.len() + b.vals.len());
    let near = |length: usize, r: &mut Random| (length as i64 + r.from_to(-2, 2)).max(0) as usize;
    if r.once_in(3) {
        let held = held(a, b).unwrap_or(most);
        return [near(rows, r).max(rows - usize::from(r.once_in(3))), near(held, r), near(held, r)];
    }
    [rows + r.below(3), most + r.below(3), most + r.below(3)]
}

/// The places that one of the two holds, where the row starts are fit to be read.
fn held(a: &Job, b: &Job) -> Option<usize> {
    (0..a.n).try_fold(0, |sum, i| {
        let row = |q: &Job| Some(q.cols.get(*q.starts.get(i)? as usize..*q.starts.get(i + 1)? as usize)?.to_vec());
        let mut columns = row(a)?;
        columns.extend(row(b)?);
        columns.sort_unstable();
        columns.dedup();
        Some(sum + columns.len())
    })
}

/// Around the limits of rows and entries. 2^17 rows of 64 entries in each of the two, on other places, are 16,777,216 together, which is
/// accepted; with one entry more the result is refused by 3, before the infinite sum that it has too, and before that by 36 where
/// a slice is short.
pub fn limits() -> Vec<Pair> {
    const ROWS: u32 = 1 << 17;
    let half = |first: u32| {
        let cols = (0..64 * ROWS).map(|k| first + k % 64).collect();
        matrix(ROWS as usize, (0..=ROWS).map(|i| 64 * i).collect(), cols, vec![0.5; 64 * ROWS as usize])
    };
    let (mut a, b) = (half(0), half(64));
    *a.vals.last_mut().expect("an entry") = f64::MAX;
    let mut more = b.clone();
    more.starts[ROWS as usize] += 2;
    more.cols.insert(64 * (ROWS as usize - 1), 63);
    more.vals.insert(64 * (ROWS as usize - 1), f64::MAX);
    more.cols.push(1000);
    more.vals.push(0.5);
    let (rows, entries) = (ROWS as usize + 1, 128 * ROWS as usize);
    let pair = |b: &Job, lengths| Pair { a: a.clone(), b: b.clone(), lengths };
    let tall = || matrix(1_000_001, vec![0; 1_000_002], vec![], vec![]);
    let flat = || matrix(1, vec![0, 0], vec![], vec![]);
    vec![
        pair(&b, [rows, entries, entries]),
        pair(&b, [rows, entries - 1, entries]),
        pair(&more, [rows, entries + 1, entries + 1]),
        pair(&more, [rows, entries + 1, entries]),
        Pair { a: tall(), b: flat(), lengths: [0; 3] },
        Pair { a: flat(), b: tall(), lengths: [0; 3] },
    ]
}
