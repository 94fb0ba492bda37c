//! A Taylor combination as the library's definitions have it (`phi_action/specs/Calls: phi-combination` and what it cites), each
//! operation on the vectors watched. The plan is the one that the library reports.

use crate::watch::{Part, Watch};

/// Q in rows.
pub struct Matrix {
    pub n: usize,
    pub starts: Vec<u32>,
    pub cols: Vec<u32>,
    pub vals: Vec<f64>,
}

pub struct Plan {
    pub s: u64,
    pub m: u64,
    pub mu: f64,
}

/// The columns of W: the vectors from w_d to w_1, and their gains times eta.
struct Columns<'a> {
    vectors: Vec<&'a [f64]>,
    gains: Vec<f64>,
}

fn sup(x: &[f64]) -> f64 {
    x.iter().fold(0.0, |m: f64, v| m.max(v.abs()))
}

/// `ceil_log2`
fn ceil_log2(x: f64) -> i64 {
    let field = (x.to_bits() >> 52 & 0x7ff) as i64;
    if field == 0 {
        -1000
    } else {
        field - 1023 + i64::from(x.to_bits() & ((1 << 52) - 1) != 0)
    }
}

/// e of `eta_scaling`: eta is 2^-e and 1 / eta 2^e
pub fn exponent(n: usize, tau: f64, w: &[f64]) -> i64 {
    let mut magnitude = 0.0;
    let mut power = tau;
    for vector in w[n..].chunks(n) {
        if sup(vector) != 0.0 {
            magnitude += power * sup(vector);
        }
        power *= tau;
    }
    if magnitude > 0.0 && magnitude.is_finite() {
        ceil_log2(magnitude).clamp(-1000, 1000)
    } else {
        0
    }
}

fn power_of_two(e: i64) -> f64 {
    f64::from_bits(((e + 1023) as u64) << 52)
}

fn columns<'a>(watch: &mut Watch, n: usize, tau: f64, w: &'a [f64]) -> Columns<'a> {
    let eta = power_of_two(-exponent(n, tau, w));
    let mut columns = Columns { vectors: vec![], gains: vec![] };
    let mut power = tau;
    for (k, vector) in w[n..].chunks(n).enumerate() {
        let gain = if sup(vector) == 0.0 { 0.0 } else { power };
        let part = if k == 0 { Part::Gain } else { Part::LaterGain };
        columns.vectors.push(vector);
        columns.gains.push(watch.times(part, gain, eta));
        power *= tau;
    }
    columns.vectors.reverse();
    columns.gains.reverse();
    columns
}

/// `dense_exp` of one number
fn dense_exp(c: f64) -> f64 {
    let norm = 0.0 + (c * 1.0).abs();
    let (mut scale, mut squarings) = (1.0, 0);
    while norm * scale > 0.5 && squarings < 1100 {
        scale *= 0.5;
        squarings += 1;
    }
    let a = c * 1.0 * scale;
    let (mut term, mut result) = (1.0, 1.0);
    for d in 1..=18 {
        term = (0.0 + term * a) * (1.0 / f64::from(d));
        result += term;
    }
    for _ in 0..squarings {
        result = 0.0 + result * result;
    }
    result
}

/// The scalars of a term: tau / js, 1 / js and mu / js
struct Scales {
    shifted: bool,
    tau: f64,
    one: f64,
    mu: f64,
}

/// a x, and with a shift a x - b y
fn share(watch: &mut Watch, part: Part, shifted: bool, a: f64, x: f64, b: f64, y: f64) -> f64 {
    let first = watch.times(part, a, x);
    if !shifted {
        return first;
    }
    let second = watch.times(part, b, y);
    watch.plus(part, first, -second)
}

/// `aug_matvec`
fn product(watch: &mut Watch, q: &Matrix, b: &Columns, k: &Scales, x: &[f64]) -> Vec<f64> {
    let (u, c) = x.split_at(q.n);
    let d = c.len();
    let mut result = vec![];
    let mut factors = vec![];
    for (gain, link) in b.gains.iter().zip(c) {
        let factor = watch.factor(*gain, *link);
        factors.push(watch.factor(factor, k.one));
    }
    for i in 0..q.n {
        let mut sum = 0.0;
        for e in q.starts[i] as usize..q.starts[i + 1] as usize {
            let product = watch.times(Part::Row, q.vals[e], u[q.cols[e] as usize]);
            sum = watch.plus(Part::RowSum, sum, product);
        }
        let mut value = share(watch, Part::Share, k.shifted, k.tau, -sum, k.mu, u[i]);
        for (j, (factor, vector)) in factors.iter().zip(&b.vectors).enumerate() {
            let part = if j == 0 { Part::Column } else { Part::LaterColumn };
            let column = watch.times(part, *factor, vector[i]);
            value = watch.plus(Part::ColumnSum, value, column);
        }
        result.push(value);
    }
    for i in 0..d {
        result.push(if i + 1 < d {
            share(watch, Part::Chain, k.shifted, k.one, c[i + 1], k.mu, c[i])
        } else if k.shifted {
            -watch.times(Part::Chain, k.mu, c[i])
        } else {
            0.0
        });
    }
    result
}

/// The field after the sweeps.
pub fn combination(watch: &mut Watch, q: &Matrix, tau: f64, plan: &Plan, w: &[f64]) -> Vec<f64> {
    let b = columns(watch, q.n, tau, w);
    let d = b.vectors.len();
    let mut y = w[..q.n].to_vec();
    y.resize(q.n + d, 0.0);
    if d > 0 {
        y[q.n + d - 1] = power_of_two(exponent(q.n, tau, w));
    }
    let shifted = plan.mu != 0.0;
    let rescale = dense_exp(plan.mu / plan.s as f64);
    for sweep in 0..plan.s {
        watch.sweep = sweep;
        let mut term = y.clone();
        for k in 1..=plan.m {
            let js = k as f64 * plan.s as f64;
            term = product(watch, q, &b, &Scales { shifted, tau: tau / js, one: 1.0 / js, mu: plan.mu / js }, &term);
            for (sum, value) in y.iter_mut().zip(&term) {
                *sum = watch.plus(Part::TermSum, *sum, *value);
            }
        }
        if shifted {
            for value in &mut y {
                *value = watch.times(Part::Rescale, *value, rescale);
            }
        }
    }
    y.truncate(q.n);
    y
}
