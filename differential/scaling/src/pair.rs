//! Random Taylor combinations, forward and transposed, and the j by which the second's vectors are multiplied.

use jobs::{Call, Job, DEGREE};

use crate::random::Random;

pub struct Pair {
    pub job: Job,
    pub j: i64,
}

/// A double of size 2^exponent or more and below twice that, or rounded to the subnormal numbers; of either sign. Digits are any, few,
/// or all set, so that products fall just below a power of two.
fn double(r: &mut Random, exponent: i64) -> f64 {
    let all = (1 << 52) - 1;
    let few = (1 << r.below(52)) | (1 << r.below(52));
    let any = r.next() >> 12;
    let digits = r.pick(&[any, any, few, 0, all]);
    let exponent = exponent.clamp(-1075, 1023);
    let size = if exponent < -1022 {
        f64::from_bits(((1 << 52) | digits) >> (-1022 - exponent).min(53))
    } else {
        f64::from_bits(((exponent + 1023) as u64) << 52 | digits)
    };
    if r.once_in(2) {
        size
    } else {
        -size
    }
}

/// Rows with up to three entries of size about 2^exponent; one matrix in three has a diagonal that outweighs the rest, as a barrel's
/// has, so that a shift pays.
fn matrix(r: &mut Random, n: usize, exponent: i64) -> (Vec<u32>, Vec<u32>, Vec<f64>) {
    let barrel = r.once_in(3);
    let (mut starts, mut cols, mut vals) = (vec![0], vec![], vec![]);
    for i in 0..n {
        let entries = if r.once_in(4) { 0 } else { r.below(4) };
        for _ in 0..entries {
            cols.push(r.below(n) as u32);
            let spread = r.pick(&[3, 3, 3, 60]);
            let size = exponent - r.from_to(0, spread);
            vals.push(double(r, size));
        }
        if barrel {
            cols.push(i as u32);
            vals.push(double(r, exponent + 2).abs());
        }
        starts.push(vals.len() as u32);
    }
    (starts, cols, vals)
}

/// A vector of size about 2^exponent; some are all zeros, of either sign.
fn vector(r: &mut Random, n: usize, exponent: i64) -> Vec<f64> {
    let spread = r.pick(&[0, 3, 60]);
    let zeros = r.once_in(5);
    let value = |r: &mut Random| {
        if zeros || r.once_in(4) {
            return r.pick(&[0.0, -0.0]);
        }
        let size = exponent - r.from_to(0, spread);
        double(r, size)
    };
    (0..n).map(|_| value(r)).collect()
}

fn exponent(r: &mut Random) -> i64 {
    let (low, high) = r.pick(&[(-10, 10), (-1074, 1023), (-1022, -900), (900, 1023)]);
    r.from_to(low, high)
}

/// A product just below 2^-1022, which rounds to it, and nothing else that is small, as in the job of docs/DIFFERENCES.md.
fn boundary(r: &mut Random) -> Pair {
    let n = 2 + r.below(3);
    let of_entry = r.from_to(-900, -10);
    let below = f64::from_bits((((of_entry + 1023) as u64) << 52) - 1);
    let mut w = vec![0.0; 2 * n];
    w[1] = f64::from_bits(((1 - of_entry) as u64) << 52);
    w[2 * n - 1] = r.pick(&[0.0, -0.0, 1.0]);
    let starts = (0..=n).map(|i| u32::from(i > 0)).collect();
    let tau = r.pick(&[2.0, 4.0, 8.0]);
    let entry = if r.once_in(2) { below } else { -below };
    let mut job = Job {
        call: Call::Combination,
        n,
        starts,
        cols: vec![1],
        vals: vec![entry],
        mass: None,
        tau,
        degree: DEGREE,
        count: 2,
        w,
        out: n,
        work: 0,
        lent: None,
    };
    job.work = job.need();
    Pair { job, j: r.from_to(-1, 40) }
}

pub fn random(r: &mut Random) -> Pair {
    if r.once_in(50) {
        return boundary(r);
    }
    let n = if r.once_in(20) { 1 + r.below(40) } else { 1 + r.below(4) };
    let of_entries = if r.once_in(2) { 0 } else { r.from_to(-400, 400) };
    let (starts, cols, vals) = matrix(r, n, of_entries);
    let mass = r.once_in(3).then(|| {
        let mass = |r: &mut Random| {
            let size = r.from_to(-2, 3);
            double(r, size).abs()
        };
        (0..n).map(|_| mass(r)).collect()
    });
    let of_time = r.from_to(-4, 1) - of_entries;
    let tau = if r.once_in(20) { 0.0 } else { double(r, of_time).abs() };
    let count = 1 + r.below(4);
    let of_vectors = exponent(r);
    // tau^k w_k of about one size, or w_k
    let each = if r.once_in(2) { of_time } else { 0 };
    let w = (0..count).flat_map(|k| vector(r, n, of_vectors - k as i64 * each)).collect();
    let degree = if r.once_in(3) { 3 + r.below(28) as u32 } else { DEGREE };
    let j = match r.below(4) {
        0 => r.from_to(-2000, 2000),
        1 => r.from_to(-60, 60),
        _ => exponent(r) - of_vectors,
    };
    let mut job = Job { call: Call::Combination, n, starts, cols, vals, mass, tau, degree, count, w, out: n, work: 0, lent: None };
    job.work = job.need();
    if r.once_in(4) {
        job.lent = Some(job.lent_need());
    }
    Pair { job, j: j.clamp(-2000, 2000) }
}
