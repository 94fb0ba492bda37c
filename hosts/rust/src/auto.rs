//! The solver, where the caller names none: by the size of the matrix and by the plan, which tells what Taylor costs before it is run.
//! docs/CHOOSING.md has the measurements behind the rule.

use crate::{combine, sizes, taylor_plan, transposed, Cost, Error, KrylovOptions, Matrix, Plan, Refusal, Soaked, Solver, TaylorOptions};
use std::fmt;

/// Up to so many entries and rows together an application of Taylor costs less than what Krylov's small exponential makes in its place.
pub const SMALL: usize = 350;
/// Up to so many applications Taylor costs about as much as the first few substeps of Krylov.
pub const MILD: u64 = 400;
/// The m that are tried in turn where Krylov is refused by 28, before Taylor is.
pub const OTHER_DIMENSIONS: [usize; 3] = [60, 20, 15];

/// What each solver is taken with.
#[derive(Clone, Copy, Debug, Default, PartialEq)]
pub struct AutoOptions {
    pub taylor: TaylorOptions,
    /// `m` is the one tried first.
    pub krylov: KrylovOptions,
}

/// Why a solver is taken.
#[derive(Clone, Copy, Debug, PartialEq)]
pub enum Why {
    /// Taylor, for so many entries and rows.
    Small { size: usize },
    /// Taylor, for it makes so few applications.
    Mild { applications: u64 },
    /// Krylov, for Taylor would make so many.
    Stiff { applications: u64 },
    /// Krylov, for Taylor is refused by 24 or 25.
    NoPlan { number: u32 },
    /// Taylor, which refuses the matrix, tau or the degree as Krylov would.
    Refused { number: u32 },
    /// For Krylov with this m was refused by 28.
    Rejected { m: usize },
}

impl fmt::Display for Why {
    fn fmt(&self, f: &mut fmt::Formatter) -> fmt::Result {
        match self {
            Why::Small { size } => write!(f, "{size} entries and rows, and up to {SMALL} taylor is mostly as fast or faster"),
            Why::Mild { applications } => write!(f, "{applications} applications, and up to {MILD} taylor is about as fast"),
            Why::Stiff { applications } => write!(f, "taylor would make {applications} applications"),
            Why::NoPlan { number } => write!(f, "taylor is refused by {number}"),
            Why::Refused { number } => write!(f, "refused by {number}"),
            Why::Rejected { m } => write!(f, "krylov with m {m} is refused by 28"),
        }
    }
}

/// A solver, and why.
#[derive(Clone, Debug, PartialEq)]
pub struct Choice {
    pub solver: Solver,
    pub why: Why,
    /// What Taylor costs, if it has a plan.
    pub plan: Option<Plan>,
    /// What is left to try, the next one last.
    left: Vec<Solver>,
}

impl Choice {
    /// What to take after a refusal by 28: Krylov with another m, then Taylor; nothing where all were tried.
    pub fn after_28(mut self) -> Option<Choice> {
        let Solver::Krylov(KrylovOptions { m, .. }) = self.solver else { return None };
        let solver = self.left.pop()?;
        Some(Choice { solver, why: Why::Rejected { m }, ..self })
    }
}

/// The solver for a job of `count` vectors. The only error is that there is no memory: what the plan is refused by, but 24 and 25, the run
/// is refused by too.
pub fn choose(a: &Matrix, tau: f64, count: usize, options: AutoOptions) -> Result<Choice, Error> {
    let AutoOptions { taylor, krylov } = options;
    let (by_taylor, by_krylov) = (Solver::Taylor(taylor), Solver::Krylov(krylov));
    let alone = |solver, why, plan| Ok(Choice { solver, why, plan, left: vec![] });
    let size = a.entries.len().saturating_add(a.n);
    match taylor_plan(a, tau, taylor) {
        Ok(plan) if size <= SMALL => alone(by_taylor, Why::Small { size }, Some(plan)),
        Ok(plan) if plan.applications <= MILD => alone(by_taylor, Why::Mild { applications: plan.applications }, Some(plan)),
        Ok(plan) => {
            let mut left = others(a.n, count, krylov);
            left.insert(0, by_taylor);
            Ok(Choice { solver: by_krylov, why: Why::Stiff { applications: plan.applications }, plan: Some(plan), left })
        }
        Err(Error::Refused { refusal: Refusal { number: number @ (24 | 25), .. }, .. }) => {
            Ok(Choice { solver: by_krylov, why: Why::NoPlan { number }, plan: None, left: others(a.n, count, krylov) })
        }
        Err(Error::Refused { refusal, .. }) => alone(by_taylor, Why::Refused { number: refusal.number }, None),
        Err(error) => Err(error),
    }
}

/// Krylov with each other m whose M is another, the first one last.
fn others(n: usize, count: usize, krylov: KrylovOptions) -> Vec<Solver> {
    let mut tried = vec![sizes::dimension(n, count, krylov.m)];
    let mut left = vec![];
    for m in OTHER_DIMENSIONS {
        let dimension = sizes::dimension(n, count, m);
        if !tried.contains(&dimension) {
            tried.push(dimension);
            left.insert(0, Solver::Krylov(KrylovOptions { m, ..krylov }));
        }
    }
    left
}

/// An accepted job, with the solver that was taken in the end, and why.
#[derive(Clone, Debug, PartialEq)]
pub struct Auto {
    pub field: Vec<f64>,
    pub cost: Cost,
    pub choice: Choice,
}

/// [`combine`] by the solver that [`choose`] takes; where Krylov is refused by 28, with another m, then by Taylor.
///
/// ```
/// use hazhendu::{auto, AutoOptions, Matrix, Solver};
///
/// let a = Matrix::new(2, &[0, 2, 4], &[0, 1, 0, 1], &[0.5, -0.5, -0.5, 0.6]).with_mass(&[8.0, 8.0]);
/// let soaked = auto(&a, 60.0, 1, &[20.0, 20.0], AutoOptions::default())?;
/// assert!(matches!(soaked.choice.solver, Solver::Taylor(_)));
/// assert_eq!(soaked.choice.why.to_string(), "6 entries and rows, and up to 350 taylor is mostly as fast or faster");
/// # Ok::<(), hazhendu::Error>(())
/// ```
pub fn auto(a: &Matrix, tau: f64, count: usize, w: &[f64], options: AutoOptions) -> Result<Auto, Error> {
    until_taken(choose(a, tau, count, options)?, |solver| combine(solver, a, tau, count, w))
}

/// The same on the transposed matrix.
pub(crate) fn auto_transposed(a: &Matrix, tau: f64, count: usize, w: &[f64], options: AutoOptions) -> Result<Auto, Error> {
    let choice = choose(&a.transposed()?.matrix(), tau, count, options)?;
    until_taken(choice, |solver| transposed::combine(solver, a, tau, count, w))
}

fn until_taken(mut choice: Choice, run: impl Fn(Solver) -> Result<Soaked<Cost>, Error>) -> Result<Auto, Error> {
    loop {
        let error = match run(choice.solver) {
            Ok(Soaked { field, cost }) => return Ok(Auto { field, cost, choice }),
            Err(error) => error,
        };
        choice = match error {
            Error::Refused { refusal: Refusal { number: 28, .. }, .. } => choice.after_28().ok_or(error)?,
            _ => return Err(error),
        };
    }
}
