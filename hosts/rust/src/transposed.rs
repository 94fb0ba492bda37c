//! The calls on the transposed matrix: which node moves a reading.
//!
//! One reading of a soak, taken as r . T with weights r, is moved by 1 K more at node i at the start by entry i of phi_0(tau G^T) r, and by 1 W of
//! steady power there by entry i of tau phi_1(tau G^T) r divided by the mass of node i:
//!
//! ```
//! use hazhendu::{phi_action, phi_combination, transposed, Matrix, TaylorOptions};
//!
//! // Two bodies of 8 and 4 J/K, joined by 0.5 W/K; the second loses 0.1 W/K to the room. The reading is the second's temperature.
//! let a = Matrix::new(2, &[0, 2, 4], &[0, 1, 0, 1], &[0.5, -0.5, -0.5, 0.6]).with_mass(&[8.0, 4.0]);
//! let moved_by = transposed::phi_action(&a, 60.0, 0, &[0.0, 1.0], TaylorOptions::default())?.field;
//! let warmer_first = phi_action(&a, 60.0, 0, &[1.0, 0.0], TaylorOptions::default())?.field;
//! assert!((moved_by[0] - warmer_first[1]).abs() < 1e-12);
//!
//! let per_rate = transposed::phi_action(&a, 60.0, 1, &[0.0, 1.0], TaylorOptions::default())?.field;
//! let heated = phi_combination(&a, 60.0, 2, &[0.0, 0.0, 1.0 / 8.0, 0.0], TaylorOptions::default())?.field;
//! assert!((60.0 * per_rate[0] / 8.0 - heated[1]).abs() < 1e-12);
//! # Ok::<(), hazhendu::Error>(())
//! ```
//!
//! Each call allocates output, working memory and the buffers for the transposed matrix; [`crate::lent::transposed`] works on lent memory.

use crate::lent::transposed::{self as lent, Buffers};
use crate::{
    sizes, with_memory, zeros, Auto, AutoOptions, Cost, Csr, Error, KrylovOptions, Largest, Matrix, Plan, Report, Soaked, Solver,
    TaylorOptions,
};

/// Buffers as long as the transposed matrix needs.
pub(crate) struct Owned {
    starts: Vec<u32>,
    columns: Vec<u32>,
    entries: Vec<f64>,
}

impl Owned {
    pub(crate) fn new(a: &Matrix) -> Result<Self, Error> {
        let entries = sizes::transposed(a.entries.len());
        Ok(Owned { starts: zeros(sizes::starts(a.n))?, columns: zeros(entries)?, entries: zeros(entries)? })
    }

    pub(crate) fn lend(&mut self) -> Buffers<'_> {
        Buffers { starts: &mut self.starts, columns: &mut self.columns, entries: &mut self.entries }
    }

    pub(crate) fn csr(self, a: &Matrix) -> Csr {
        Csr { n: a.n, starts: self.starts, columns: self.columns, entries: self.entries }
    }
}

/// As [`crate::check`]: the norm is the largest sum of the sizes in a column, and the row the first column that has it.
pub fn check(a: &Matrix) -> Result<Largest, Error> {
    lent::check(a, Owned::new(a)?.lend()).map_err(|refusal| Error::Refused { refusal, state: None })
}

/// As [`crate::taylor_plan`], by the transposed matrix.
pub fn taylor_plan(a: &Matrix, tau: f64, options: TaylorOptions) -> Result<Plan, Error> {
    crate::taylor_plan(&a.transposed()?.matrix(), tau, options)
}

/// As [`crate::phi_combination`].
pub fn phi_combination(a: &Matrix, tau: f64, count: usize, w: &[f64], options: TaylorOptions) -> Result<Soaked<Plan>, Error> {
    let work = sizes::taylor_work(a.n, a.entries.len(), a.mass.is_some(), count);
    let mut t = Owned::new(a)?;
    with_memory(sizes::output(a.n, 0), work, |out, work| lent::phi_combination(a, t.lend(), tau, count, w, options, out, work))
}

/// As [`crate::phi_action`].
pub fn phi_action(a: &Matrix, tau: f64, k: usize, v: &[f64], options: TaylorOptions) -> Result<Soaked<Plan>, Error> {
    let work = sizes::action_work(a.n, a.entries.len(), a.mass.is_some());
    let mut t = Owned::new(a)?;
    with_memory(sizes::output(a.n, 0), work, |out, work| lent::phi_action(a, t.lend(), tau, k, v, options, out, work))
}

/// As [`crate::phi_action_batched`].
pub fn phi_action_batched(a: &Matrix, tau: f64, p: usize, v: &[f64], options: TaylorOptions) -> Result<Soaked<Plan>, Error> {
    let work = sizes::action_work(a.n, a.entries.len(), a.mass.is_some());
    let mut t = Owned::new(a)?;
    with_memory(sizes::output(a.n, p), work, |out, work| lent::phi_action_batched(a, t.lend(), tau, p, v, options, out, work))
}

/// As [`crate::phi_combination_krylov`].
pub fn phi_combination_krylov(a: &Matrix, tau: f64, count: usize, w: &[f64], options: KrylovOptions) -> Result<Soaked<Report>, Error> {
    let work = sizes::krylov_work(a.n, a.entries.len(), a.mass.is_some(), count, options.m);
    let mut t = Owned::new(a)?;
    with_memory(sizes::output(a.n, 0), work, |out, work| lent::phi_combination_krylov(a, t.lend(), tau, count, w, options, out, work))
}

/// As [`crate::auto`].
pub fn auto(a: &Matrix, tau: f64, count: usize, w: &[f64], options: AutoOptions) -> Result<Auto, Error> {
    crate::auto::auto_transposed(a, tau, count, w, options)
}

/// As [`crate::combine`].
pub fn combine(solver: Solver, a: &Matrix, tau: f64, count: usize, w: &[f64]) -> Result<Soaked<Cost>, Error> {
    let work = sizes::work(a.n, a.entries.len(), a.mass.is_some(), count, solver);
    let mut t = Owned::new(a)?;
    with_memory(sizes::output(a.n, 0), work, |out, work| lent::combine(solver, a, t.lend(), tau, count, w, out, work))
}
