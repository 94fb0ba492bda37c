//! Heat soak by phi-functions: the proved library behind a safe interface.
//!
//! The generator is G = -A, or with a mass G = -A with each row divided by its mass, where A is a sparse matrix by rows. For
//! C dT/dt = -A T + q with T = T_0 at time 0, the mass is C, w_0 = T_0, w_1 = q / C, and T at time tau is
//! the sum over k of tau^k phi_k(tau G) w_k:
//!
//! ```
//! use hazhendu::{combine, Matrix, Solver};
//!
//! // Two bodies of 8 J/K, joined by 0.5 W/K; the second loses 0.1 W/K to the room; 2 W heat the first.
//! let a = Matrix::new(2, &[0, 2, 4], &[0, 1, 0, 1], &[0.5, -0.5, -0.5, 0.6]).with_mass(&[8.0, 8.0]);
//! let w = [20.0, 20.0, 2.0 / 8.0, 0.0];
//! let soaked = combine(Solver::default(), &a, 60.0, 2, &w)?;
//! assert_eq!(soaked.field.len(), 2);
//! assert!(soaked.field[0] > soaked.field[1]);
//! # Ok::<(), hazhendu::Error>(())
//! ```
//!
//! Every input gets a result or a numbered [`Refusal`]; whether a matrix or a job is valid is the library's to say, and
//! nothing here panics. The functions here allocate output and working memory; those of [`lent`] work on memory that the
//! caller lends. A call runs to its end, and its thread hears of nothing in between; the process can be stopped at any time. [`Paused`] is a
//! Krylov run that is looked at between its substeps, [`Unit`] serves up to sixteen of these in rotation, [`stages`](stages()) is a schedule
//! of soaks over one matrix, [`ambient`](ambient()) a soak under a level that a logger gives. [`taylor_plan`] tells what a Taylor job costs before it
//! is run, and [`auto`](auto()) takes the solver by it. [`matrix_market`] and [`vectors`] read and write files.

#![deny(unsafe_op_in_unsafe_fn)]

mod ambient;
mod auto;
pub mod environment;
pub mod lent;
mod lines;
pub mod matrix_market;
mod paused;
mod refusal;
mod rotation;
pub mod sizes;
mod stages;
pub mod sys;
pub mod transposed;
mod triplets;
pub mod vectors;

pub use ambient::{ambient, AmbientError, Log, Logged};
pub use auto::{auto, choose, Auto, AutoOptions, Choice, Why, MILD, OTHER_DIMENSIONS, SMALL};
pub use lines::ReadError;
pub use paused::Paused;
pub use refusal::{Error, Refusal};
pub use rotation::{Barrel, Joined, Turned, Unit};
pub use stages::{stages, Stage, StageError, Staged, StagedReport};
pub use triplets::Triplets;

/// A sparse matrix by rows, as it is handed to the library, and a mass if there is one.
#[derive(Clone, Copy, Debug, PartialEq)]
pub struct Matrix<'a> {
    pub n: usize,
    /// n + 1 of them: the entries of row i are those from `starts[i]` up to `starts[i + 1]`.
    pub starts: &'a [u32],
    /// The column of each entry, from 0. Repeated columns in a row add up.
    pub columns: &'a [u32],
    pub entries: &'a [f64],
    /// One number above 0 for each row.
    pub mass: Option<&'a [f64]>,
}

impl<'a> Matrix<'a> {
    pub fn new(n: usize, starts: &'a [u32], columns: &'a [u32], entries: &'a [f64]) -> Self {
        Matrix { n, starts, columns, entries, mass: None }
    }

    pub fn with_mass(self, mass: &'a [f64]) -> Self {
        Matrix { mass: Some(mass), ..self }
    }

    /// The matrix, each row divided by its mass if there is one, transposed: what the calls of [`transposed`] run on. The result has no mass.
    pub fn transposed(&self) -> Result<Csr, Error> {
        let mut buffers = transposed::Owned::new(self)?;
        lent::transposed::check(self, buffers.lend()).map_err(|refusal| Error::Refused { refusal, state: None })?;
        Ok(buffers.csr(self))
    }
}

/// A sparse matrix by rows that owns its lists: what [`join`] and [`Matrix::transposed`] give.
#[derive(Clone, Debug, PartialEq)]
pub struct Csr {
    pub n: usize,
    pub starts: Vec<u32>,
    pub columns: Vec<u32>,
    pub entries: Vec<f64>,
}

impl Csr {
    /// As it is handed to the library, without a mass.
    pub fn matrix(&self) -> Matrix<'_> {
        Matrix::new(self.n, &self.starts, &self.columns, &self.entries)
    }
}

/// docs/CHOOSING.md says which to take.
#[derive(Clone, Copy, Debug, PartialEq)]
pub struct KrylovOptions {
    /// The accuracy wanted of the whole run, strictly between 0 and 1: the part of it that a substep may add to the error grows with its
    /// length. Relative to the 2-norm of the start, all rows of it together with the few numbers that stand for the further vectors. Below
    /// about tau times the norm times 2^-52 nothing is gained: round-off is not governed by it.
    pub tol: f64,
    /// Columns of a substep.
    pub m: usize,
    /// The limit of substeps.
    pub max_substeps: usize,
}

impl Default for KrylovOptions {
    fn default() -> Self {
        KrylovOptions { tol: 1e-10, m: 40, max_substeps: 100_000 }
    }
}

#[derive(Clone, Copy, Debug, PartialEq)]
pub struct TaylorOptions {
    /// The highest degree of a sweep, 1 to 30. A lower one costs more sweeps; up to 1 no plan is found.
    pub degree: u32,
}

impl Default for TaylorOptions {
    fn default() -> Self {
        TaylorOptions { degree: sizes::MAX_DEGREE }
    }
}

#[derive(Clone, Copy, Debug, PartialEq)]
pub enum Solver {
    Taylor(TaylorOptions),
    Krylov(KrylovOptions),
}

impl Default for Solver {
    fn default() -> Self {
        Solver::Taylor(TaylorOptions::default())
    }
}

/// What a Taylor job did.
#[derive(Clone, Copy, Debug, PartialEq)]
pub struct Plan {
    /// Sweeps.
    pub s: u32,
    /// The degree to which each goes.
    pub m: u32,
    /// The shift, 0 for none.
    pub mu: f64,
    /// Products with the generator, over all functions of a batch.
    pub applications: u64,
}

/// What a Krylov job did.
#[derive(Clone, Copy, Debug, Default, PartialEq)]
pub struct Report {
    /// Substeps accepted.
    pub substeps: usize,
    /// Products with the generator.
    pub matvecs: usize,
    /// Lengths rejected.
    pub rejected: usize,
    /// The sum over the substeps of their estimated errors, each at least its share of round-off, (tau times the norm + 2) times 2^-52 of
    /// the state's norm; relative to the 2-norm of the start, as tol is. It may exceed tol by its round-off, and is mostly far above the
    /// actual error.
    pub estimated_error: f64,
    /// The shortest substep accepted, as a part of tau; 0 where none was taken.
    pub shortest_step: f64,
    /// The last one.
    pub last_step: f64,
}

#[derive(Clone, Copy, Debug, PartialEq)]
pub enum Cost {
    Taylor(Plan),
    Krylov(Report),
}

/// The norm of an accepted matrix, or of its rows divided by their masses: the largest sum of the sizes in a row.
#[derive(Clone, Copy, Debug, PartialEq)]
pub struct Largest {
    pub norm: f64,
    /// The first row whose sum is the norm, from 0.
    pub row: usize,
}

/// An accepted job: the field, and what it cost.
#[derive(Clone, Debug, PartialEq)]
pub struct Soaked<C> {
    pub field: Vec<f64>,
    pub cost: C,
}

/// The sum over k of tau^k phi_k(tau G) w_k for `count` vectors, one after the other in `w`, by Taylor sweeps.
pub fn phi_combination(a: &Matrix, tau: f64, count: usize, w: &[f64], options: TaylorOptions) -> Result<Soaked<Plan>, Error> {
    let work = sizes::taylor_work(a.n, a.entries.len(), a.mass.is_some(), count);
    with_memory(sizes::output(a.n, 0), work, |out, work| lent::phi_combination(a, tau, count, w, options, out, work))
}

/// phi_k(tau G) v, by Taylor sweeps.
pub fn phi_action(a: &Matrix, tau: f64, k: usize, v: &[f64], options: TaylorOptions) -> Result<Soaked<Plan>, Error> {
    let work = sizes::action_work(a.n, a.entries.len(), a.mass.is_some());
    with_memory(sizes::output(a.n, 0), work, |out, work| lent::phi_action(a, tau, k, v, options, out, work))
}

/// phi_0(tau G) v to phi_p(tau G) v, one after the other, by Taylor sweeps.
pub fn phi_action_batched(a: &Matrix, tau: f64, p: usize, v: &[f64], options: TaylorOptions) -> Result<Soaked<Plan>, Error> {
    let work = sizes::action_work(a.n, a.entries.len(), a.mass.is_some());
    with_memory(sizes::output(a.n, p), work, |out, work| lent::phi_action_batched(a, tau, p, v, options, out, work))
}

/// The sum over k of tau^k phi_k(tau G) w_k for `count` vectors, one after the other in `w`, by Krylov substeps.
pub fn phi_combination_krylov(a: &Matrix, tau: f64, count: usize, w: &[f64], options: KrylovOptions) -> Result<Soaked<Report>, Error> {
    let work = sizes::krylov_work(a.n, a.entries.len(), a.mass.is_some(), count, options.m);
    with_memory(sizes::output(a.n, 0), work, |out, work| lent::phi_combination_krylov(a, tau, count, w, options, out, work))
}

/// The sum over k of tau^k phi_k(tau G) w_k, by either solver.
pub fn combine(solver: Solver, a: &Matrix, tau: f64, count: usize, w: &[f64]) -> Result<Soaked<Cost>, Error> {
    let work = sizes::work(a.n, a.entries.len(), a.mass.is_some(), count, solver);
    with_memory(sizes::output(a.n, 0), work, |out, work| lent::combine(solver, a, tau, count, w, out, work))
}

/// The plan of a Taylor job alone: s, m, mu and the products with the generator that its run would report, before it is run. The refusals are
/// those that matrix, mass, tau and degree decide: 1 to 11, 14, 33, 24 and 25. A batch of p + 1 functions makes p + 1 times as many products.
///
/// ```
/// use hazhendu::{phi_combination, taylor_plan, Matrix, TaylorOptions};
///
/// let a = Matrix::new(2, &[0, 2, 4], &[0, 1, 0, 1], &[0.5, -0.5, -0.5, 0.6]).with_mass(&[8.0, 8.0]);
/// let plan = taylor_plan(&a, 60.0, TaylorOptions::default())?;
/// assert_eq!(plan.applications, u64::from(plan.s) * u64::from(plan.m));
/// assert_eq!(phi_combination(&a, 60.0, 1, &[20.0, 20.0], TaylorOptions::default())?.cost, plan);
/// # Ok::<(), hazhendu::Error>(())
/// ```
pub fn taylor_plan(a: &Matrix, tau: f64, options: TaylorOptions) -> Result<Plan, Error> {
    let mut work = zeros(sizes::plan_work(a.entries.len(), a.mass.is_some()))?;
    lent::taylor_plan(a, tau, options, &mut work).map_err(|refusal| Error::Refused { refusal, state: None })
}

/// The checks of the matrix alone, 1 to 11; then its norm and the first row that has it.
pub fn check(a: &Matrix) -> Result<Largest, Error> {
    lent::check(a).map_err(|refusal| Error::Refused { refusal, state: None })
}

/// A barrel's matrix and its mount's, over the same rows, as one: rows merged by column, an entry of both added in one rounded sum, the
/// barrel's first. In each row of both the columns rise strictly, and so they do in the result. A sum of 0 is kept; entries before the
/// first row start are not carried. Masses are not looked at: the result has none, and takes that of barrel and mount together.
///
/// ```
/// use hazhendu::{join, Matrix};
///
/// // Two bodies; the mount joins both by 0.25 W/K.
/// let barrel = Matrix::new(2, &[0, 1, 2], &[0, 1], &[0.5, 0.1]);
/// let mount = Matrix::new(2, &[0, 2, 4], &[0, 1, 0, 1], &[0.25, -0.25, -0.25, 0.25]);
/// let both = join(&barrel, &mount)?;
/// assert_eq!(both.entries, [0.75, -0.25, -0.25, 0.35]);
/// assert_eq!(both.matrix().with_mass(&[8.0, 8.0]).starts, [0, 2, 4]);
/// # Ok::<(), hazhendu::Error>(())
/// ```
pub fn join(a: &Matrix, b: &Matrix) -> Result<Csr, Error> {
    let most = sizes::joined(a.entries.len(), b.entries.len());
    let mut joined = Csr { n: a.n, starts: zeros(sizes::starts(a.n))?, columns: zeros(most)?, entries: zeros(most)? };
    let Csr { starts, columns, entries, .. } = &mut joined;
    let count = lent::join(a, b, starts, columns, entries).map_err(|refusal| Error::Refused { refusal, state: None })?;
    columns.truncate(count);
    entries.truncate(count);
    Ok(joined)
}

pub(crate) fn with_memory<C>(
    out: usize,
    work: usize,
    call: impl FnOnce(&mut [f64], &mut [f64]) -> Result<C, Refusal>,
) -> Result<Soaked<C>, Error> {
    let mut field = zeros(out)?;
    match call(&mut field, &mut zeros(work)?) {
        Ok(cost) => Ok(Soaked { field, cost }),
        Err(refusal) => Err(Error::Refused { refusal, state: refusal.leaves_state().then_some(field) }),
    }
}

pub(crate) fn zeros<T: Copy + Default>(length: usize) -> Result<Vec<T>, Error> {
    let mut memory = Vec::new();
    memory.try_reserve_exact(length).map_err(|_| Error::OutOfMemory { doubles: length })?;
    memory.resize(length, T::default());
    Ok(memory)
}

pub(crate) fn push<T>(list: &mut Vec<T>, value: T) -> Result<(), Error> {
    list.try_reserve(1).map_err(|_| Error::OutOfMemory { doubles: list.len() })?;
    list.push(value);
    Ok(())
}

/// The shortest decimal that reads back as the same double.
pub fn shortest(x: f64) -> String {
    let text = format!("{x:?}");
    text.strip_suffix(".0").map(str::to_owned).unwrap_or(text)
}
