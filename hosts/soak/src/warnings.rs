//! What a reader of the field should know: rows of the matrix that heat themselves, and fields that conduction cannot give.

use crate::summary::rounded;
use hazhendu::{shortest, KrylovOptions, Matrix};

/// Rows are named up to so many.
const NAMED: usize = 8;
/// Of a row's sizes: what rounding and short decimals in a file may leave of a sum that is to be 0.
const NEGLIGIBLE: f64 = 1e-12;

/// Rows of A whose temperature grows by itself: the diagonal, or the sum of the row, is below 0.
#[derive(Clone, Debug, PartialEq)]
pub struct Heating {
    /// From 0.
    pub rows: Vec<usize>,
    /// Whether diagonals are below 0 and none is above it.
    turned: bool,
}

impl Heating {
    /// Nothing where no row heats itself. Of a matrix as a file gives it.
    pub fn of(a: &Matrix) -> Option<Heating> {
        let lines: Vec<Line> = (0..a.n).map(|row| Line::of(a, row)).collect();
        let rows: Vec<usize> = (0..a.n).filter(|row| lines[*row].heats()).collect();
        let turned = lines.iter().all(|line| line.diagonal <= 0.0) && lines.iter().any(|line| line.diagonal < 0.0);
        (!rows.is_empty()).then_some(Heating { rows, turned })
    }

    /// Which rows, from 1, of what.
    pub fn told(&self, matrix: &str) -> String {
        let named: Vec<String> = self.rows.iter().take(NAMED).map(|row| (row + 1).to_string()).collect();
        match (self.rows.len(), self.rows.len() - named.len()) {
            (1, _) => format!("row {} of {matrix} heats itself", named[0]),
            (_, 0) => format!("rows {} of {matrix} heat themselves", named.join(", ")),
            (_, more) => format!("rows {} and {more} more of {matrix} heat themselves", named.join(", ")),
        }
    }

    pub fn change(&self) -> &'static str {
        match self.turned {
            true => "no diagonal is above 0, so the matrix seems to be G itself: soak takes A, and G = -A",
            false => "in A what flows out of a row stands on its diagonal, above 0, and what flows in beside it, below 0; the sum is what the row loses",
        }
    }

    pub fn warning(&self, matrix: &str) -> String {
        let whose = if self.rows.len() == 1 { "its" } else { "their" };
        format!("soak: warning: {}: {whose} diagonal or {whose} sum is below 0\n  what to change: {}", self.told(matrix), self.change())
    }
}

struct Line {
    diagonal: f64,
    sum: f64,
    sizes: f64,
}

impl Line {
    fn of(a: &Matrix, row: usize) -> Line {
        let mut line = Line { diagonal: 0.0, sum: 0.0, sizes: 0.0 };
        for k in a.starts[row] as usize..a.starts[row + 1] as usize {
            line.sum += a.entries[k];
            line.sizes += a.entries[k].abs();
            if a.columns[k] as usize == row {
                line.diagonal += a.entries[k];
            }
        }
        line
    }

    fn heats(&self) -> bool {
        self.diagonal < 0.0 || self.sum < -NEGLIGIBLE * self.sizes
    }
}

/// The largest size that conduction can give: that of the start, and of what each further vector adds up to in the time.
pub fn reachable(tau: f64, vectors: &[&[f64]]) -> f64 {
    vectors.split_first().map_or(0.0, |(start, further)| largest(start) + added(tau, further))
}

pub fn largest(values: &[f64]) -> f64 {
    values.iter().fold(0.0, |largest: f64, x| largest.max(x.abs()))
}

/// The most that w_1 and on can add in a time.
pub fn added(tau: f64, further: &[&[f64]]) -> f64 {
    let mut factor = 1.0;
    let mut most = 0.0;
    for (k, vector) in further.iter().enumerate() {
        factor *= tau / (k + 1) as f64;
        let largest = largest(vector);
        // 0 times an infinite factor is nothing added.
        most += if largest == 0.0 { 0.0 } else { factor * largest };
    }
    most
}

/// A warning where a field that is finite is larger than the most that heat conduction can make it.
pub fn beyond(field: &[f64], most: f64, unit: &str) -> Option<String> {
    let (row, largest) =
        field.iter().enumerate().fold((0, 0.0), |best: (usize, f64), (i, x)| if x.abs() > best.1 { (i, x.abs()) } else { best });
    (largest > most * (1.0 + 1e-6)).then(|| {
        format!(
            "soak: warning: the field reaches {} {unit} in row {}, and conduction from this start with this heating stays within {} {unit}\n  \
             what to change: look at the signs of the matrix, and at the units of matrix, mass, tau and vectors",
            rounded(field[row]),
            row + 1,
            rounded(most)
        )
    })
}

/// A warning where a tol tighter than the usual one is below what one substep's round-off counts for.
pub fn below_round_off(tol: f64, tau: f64, norm: f64) -> Option<String> {
    let round_off = tau * norm * f64::EPSILON;
    let asked = tol > 0.0 && tol < KrylovOptions::default().tol;
    (asked && tol < round_off && round_off.is_finite()).then(|| {
        format!(
            "soak: warning: a tol of {} is below round-off, which it does not govern: tau times the norm times 2.2e-16 is {}\n  \
             what to change: nothing is gained below a tol of {}; the estimated error counts round-off in each substep",
            shortest(tol),
            rounded(round_off),
            rounded(round_off)
        )
    })
}

#[cfg(test)]
mod tests {
    use super::{below_round_off, beyond, reachable, Heating};
    use hazhendu::Matrix;

    fn heating(entries: [f64; 4]) -> Option<(Vec<usize>, bool)> {
        Heating::of(&Matrix::new(2, &[0, 2, 4], &[0, 1, 0, 1], &entries)).map(|heating| (heating.rows, heating.turned))
    }

    #[test]
    fn rows_that_heat_themselves_are_found() {
        assert_eq!(heating([0.5, -0.5, -0.5, 0.6]), None);
        assert_eq!(heating([0.1 + 0.2, -0.300_000_000_000_000_1, -0.5, 0.6]), None, "what rounding leaves");
        assert_eq!(heating([0.5, -0.5001, -0.5, 0.6]), Some((vec![0], false)));
        assert_eq!(heating([-0.5, 0.5, 0.5, -0.6]), Some((vec![0, 1], true)));
        assert_eq!(heating([-0.1, 0.5, -0.5, 0.6]), Some((vec![0], false)));
        assert_eq!(heating([f64::NAN, 0.0, 0.0, 1.0]), None);
    }

    #[test]
    fn rows_are_named_up_to_eight() {
        let starts: Vec<u32> = (0..=20).collect();
        let columns: Vec<u32> = (0..20).collect();
        let heating = Heating::of(&Matrix::new(20, &starts, &columns, &[-1.0; 20])).unwrap();
        assert_eq!(heating.told("A.mtx"), "rows 1, 2, 3, 4, 5, 6, 7, 8 and 12 more of A.mtx heat themselves");
        assert!(heating.warning("A.mtx").contains("seems to be G itself"));
    }

    #[test]
    fn a_tol_below_round_off_is_told() {
        assert!(below_round_off(1e-16, 1800.0, 50.0).unwrap().contains("below a tol of 1.9984e-11"));
        assert_eq!([1e-10, 1e-11, 0.0, f64::NAN].map(|tol| below_round_off(tol, 600.0, 50.0)), [None, None, None, None]);
        assert_eq!([0.0, f64::MAX, f64::NAN].map(|tau| below_round_off(1e-16, tau, 50.0)), [None, None, None]);
    }

    #[test]
    fn what_conduction_cannot_give_is_told() {
        assert_eq!(reachable(10.0, &[&[1.0, -2.0], &[0.0, 0.5], &[0.1, 0.0]]), 2.0 + 5.0 + 5.0);
        assert_eq!(reachable(f64::MAX, &[&[1.0], &[0.0], &[0.0], &[0.0]]), 1.0);
        assert_eq!(reachable(1.0, &[]), 0.0);
        assert_eq!(beyond(&[2.0, -2.0], 2.0, "K"), None);
        assert!(beyond(&[2.0, -2.1], 2.0, "K").unwrap().contains("-2.1 K in row 2"));
        assert_eq!(beyond(&[2.0], f64::NAN, "K"), None);
    }
}
