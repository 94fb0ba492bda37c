//! Document 01's last three items: `libm_exp`, `round2` and the powers.

use crate::float::SemiflowFloat;

/// `dense_exp` with k = 1 and h = 1.
pub fn exp<F: SemiflowFloat>(x: F) -> F {
    crate::dense_la::dense_exp(1, &[x], F::one())[0]
}

/// The nearest double to 10^e, e from -323 to 308: Rust reads decimal numbers to the nearest double.
fn ten(e: i32) -> f64 {
    format!("1e{e}").parse().unwrap()
}

/// The decade of x is the largest e whose entry is at most x; the scale is the entry for e - 1.
pub fn round2(x: f64) -> f64 {
    thread_local!(static TEN: Vec<f64> = (-323..=308).map(ten).collect());
    TEN.with(|t| {
        if !(t[1] <= x && x < f64::INFINITY) {
            return f64::NAN;
        }
        let s = t[t.partition_point(|entry| *entry <= x) - 2];
        (x / s).ceil() * s
    })
}

/// q factors y, multiplied left to right with rounding.
pub fn power(y: f64, q: usize) -> f64 {
    (1..q).fold(y, |product, _| product * y)
}

/// The greatest finite double whose power with exponent q is at most t: found among the bit patterns from 0 up, whose
/// order is that of the doubles.
pub fn root(t: f64, q: usize) -> f64 {
    if t == 0.0 {
        return 0.0;
    }
    if t == f64::INFINITY {
        return t;
    }
    if !(t > 0.0) {
        return f64::NAN;
    }
    let (mut low, mut high) = (0_u64, f64::INFINITY.to_bits());
    while high - low > 1 {
        let mid = low + (high - low) / 2;
        if power(f64::from_bits(mid), q) <= t {
            low = mid;
        } else {
            high = mid;
        }
    }
    f64::from_bits(low)
}

/// The root of order q for the exponent xm = 1 / q as the Rust has it.
pub fn root_by(t: f64, xm: f64) -> f64 {
    root(t, (1.0 / xm).round() as usize)
}
