//! Heat conduction on a plate of rectangles: each conducts to its neighbours and a little to the air.

use jobs::{Call, Job, DEGREE};

/// tau times the norm of the generator: some dozens of Taylor products a sweep.
const STIFFNESS: f64 = 60.0;

/// Row starts, columns and entries, the columns of a row rising.
fn matrix((rows, columns): (usize, usize)) -> Matrix {
    let (mut starts, mut cols, mut vals) = (vec![0], vec![], vec![]);
    for i in 0..rows * columns {
        let (r, c) = (i / columns, i % columns);
        let mut neighbours = vec![];
        if r > 0 {
            neighbours.push(i - columns);
        }
        if c > 0 {
            neighbours.push(i - 1);
        }
        neighbours.push(i);
        if c + 1 < columns {
            neighbours.push(i + 1);
        }
        if r + 1 < rows {
            neighbours.push(i + columns);
        }
        let conducted = (neighbours.len() - 1) as f64;
        for j in neighbours {
            cols.push(j as u32);
            // the conductances vary from place to place; the diagonal outweighs them by what goes to the air
            vals.push(if j == i { conducted + 0.01 } else { -1.0 + 0.1 * ((i * j) % 7) as f64 / 7.0 });
        }
        starts.push(vals.len() as u32);
    }
    (starts, cols, vals)
}

fn masses(n: usize) -> Vec<f64> {
    (0..n).map(|i| 1.0 + (i % 5) as f64 / 4.0).collect()
}

/// A body of cells along three directions, by Krylov or by Taylor, with two vectors: a cell conducts to its neighbours along each
/// direction, or with `corners` to all that touch it.
pub fn block([x, y, z]: [usize; 3], corners: bool, call: Call) -> Job {
    let (mut starts, mut cols, mut vals) = (vec![0], vec![], vec![]);
    for i in 0..x * y * z {
        let at = [i / (y * z), i / z % y, i % z];
        let near = |p: usize, size: usize| p.saturating_sub(1)..(p + 2).min(size);
        let first = vals.len();
        for a in near(at[0], x) {
            for b in near(at[1], y) {
                for c in near(at[2], z) {
                    if corners || (a != at[0]) as u8 + (b != at[1]) as u8 + (c != at[2]) as u8 <= 1 {
                        cols.push(((a * y + b) * z + c) as u32);
                        vals.push(-1.0);
                    }
                }
            }
        }
        let conducted = (vals.len() - first - 1) as f64;
        for k in first..vals.len() {
            if cols[k] as usize == i {
                vals[k] = conducted + 0.01;
            }
        }
        starts.push(vals.len() as u32);
    }
    let sums = starts.windows(2).map(|row| vals[row[0] as usize..row[1] as usize].iter().map(|v: &f64| v.abs()).sum());
    let norm: f64 = sums.fold(0.0, f64::max);
    soak(x * y * z, (starts, cols, vals), None, STIFFNESS / norm, call, 2, z)
}

/// A job with `count` vectors, or of index `count`: a warm spot, and a source along the edge.
pub fn job(size: (usize, usize), with_mass: bool, call: Call, count: usize) -> Job {
    let n = size.0 * size.1;
    soak(n, matrix(size), with_mass.then(|| masses(n)), STIFFNESS / 8.01, call, count, size.1)
}

type Matrix = (Vec<u32>, Vec<u32>, Vec<f64>);

/// The same over a matrix, whose cells lie in rows of `width`.
fn soak(n: usize, (starts, cols, vals): Matrix, mass: Option<Vec<f64>>, tau: f64, call: Call, count: usize, width: usize) -> Job {
    let mut job = Job { call, n, starts, cols, vals, mass, tau, degree: DEGREE, count, w: vec![], out: 0, work: 0, lent: None };
    job.w = (0..job.vectors())
        .map(|i| if i < n { 1.0 / (1.0 + (i as f64 - n as f64 / 2.0).abs()) } else { 0.05 * ((i - n) % width < 2) as u8 as f64 })
        .collect();
    job.out = job.output();
    job.work = job.need();
    job
}
