//! The library's limits, and how much memory a job needs, in doubles; of a join and of a transposed
//! matrix how many row starts and entries are enough.
//!
//! A job beyond a limit of rows, entries, vectors, index or dimension is refused (3, 12, 13 or 20) before the memory is looked
//! at, so that it needs none: these functions give 0 for it, and no sum here overflows.

use crate::lent::stages::Stage;
use crate::Solver;

pub const MAX_ROWS: usize = 1_000_000;
pub const MAX_ENTRIES: usize = 16_777_216;
pub const MAX_VECTORS: usize = 4;
pub const MAX_INDEX: usize = 3;
pub const MAX_DIMENSION: usize = 128;
pub const MAX_SUBSTEPS: usize = 1_000_000;
pub const MAX_DEGREE: u32 = 30;
pub const MAX_STAGES: usize = 64;
pub const MAX_RECORDS: usize = 100_000;
pub const MAX_WINDOW: usize = 1024;
/// Unfinished runs on a unit.
pub const MAX_RUNS: usize = 16;

fn allowed(n: usize, entries: usize, count: usize) -> bool {
    n <= MAX_ROWS && entries <= MAX_ENTRIES && (1..=MAX_VECTORS).contains(&count)
}

/// M, the columns of a Krylov substep: m brought into the range from 2 to max(2, n + count - 1).
pub fn dimension(n: usize, count: usize, m: usize) -> usize {
    m.clamp(2, n.saturating_add(count.saturating_sub(1)).max(2))
}

/// Working memory of `taylor_plan`: with a mass a place for each entry.
pub fn plan_work(entries: usize, with_mass: bool) -> usize {
    if entries > MAX_ENTRIES {
        return 0;
    }
    quotients(entries, with_mass)
}

/// Working memory of `phi_combination`.
pub fn taylor_work(n: usize, entries: usize, with_mass: bool, count: usize) -> usize {
    if !allowed(n, entries, count) {
        return 0;
    }
    3 * n + 2 * (count - 1) + quotients(entries, with_mass)
}

/// Working memory of `phi_action` and `phi_action_batched`.
pub fn action_work(n: usize, entries: usize, with_mass: bool) -> usize {
    taylor_work(n, entries, with_mass, MAX_INDEX + 1)
}

/// Working memory of `phi_combination_krylov`, and of the start and each step of a paused run.
pub fn krylov_work(n: usize, entries: usize, with_mass: bool, count: usize, m: usize) -> usize {
    let columns = dimension(n, count, m);
    if !allowed(n, entries, count) || columns > MAX_DIMENSION {
        return 0;
    }
    n + (columns + 3) * (n + count - 1) + (columns + 2) * (columns + 2) + quotients(entries, with_mass)
}

/// Working memory of one combination by this solver.
pub fn work(n: usize, entries: usize, with_mass: bool, count: usize, solver: Solver) -> usize {
    match solver {
        Solver::Taylor(_) => taylor_work(n, entries, with_mass, count),
        Solver::Krylov(options) => krylov_work(n, entries, with_mass, count, options.m),
    }
}

/// Working memory of a schedule: the largest of its stages' needs. Beyond 64 stages none is needed.
pub fn stages_work(n: usize, entries: usize, with_mass: bool, schedule: &[Stage]) -> usize {
    if schedule.len() > MAX_STAGES {
        return 0;
    }
    schedule.iter().map(|stage| work(n, entries, with_mass, stage.count, stage.solver)).max().unwrap_or(0)
}

/// Working memory of `ambient`: n doubles more than the combination of a record.
pub fn ambient_work(n: usize, entries: usize, with_mass: bool) -> usize {
    match taylor_work(n, entries, with_mass, 2) {
        0 => 0,
        need => need + n,
    }
}

/// The scaled field of a paused run.
pub fn field(n: usize, count: usize) -> usize {
    if !allowed(n, 0, count) {
        return 0;
    }
    n + count - 1
}

/// The output's length for the functions phi_0 to phi_p; p is 0 for a single one.
pub fn output(n: usize, p: usize) -> usize {
    if n > MAX_ROWS || p > MAX_INDEX {
        return 0;
    }
    (p + 1) * n
}

/// Row starts of a matrix that a join or a transposed call writes.
pub fn starts(n: usize) -> usize {
    if n > MAX_ROWS {
        return 0;
    }
    n + 1
}

/// Columns, and entries, that are enough for a join of two matrices with so many entries, even if no two of them fall on one place.
pub fn joined(barrel: usize, mount: usize) -> usize {
    if barrel > MAX_ENTRIES || mount > MAX_ENTRIES {
        return 0;
    }
    barrel + mount
}

/// Columns, and entries, of the transposed matrix.
pub fn transposed(entries: usize) -> usize {
    if entries > MAX_ENTRIES {
        return 0;
    }
    entries
}

/// The entries divided by the mass take their place beside the vectors.
fn quotients(entries: usize, with_mass: bool) -> usize {
    if with_mass {
        entries
    } else {
        0
    }
}
