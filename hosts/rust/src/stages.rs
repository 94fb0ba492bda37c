//! A soak in stages: warm-up, hold and cool-down over one matrix.

use crate::lent::stages::{self as lent, Refused};
use crate::sizes::{self, MAX_VECTORS};
use crate::{zeros, Error, Matrix, Refusal, Solver};
use std::fmt;

/// One stage of a schedule. Its w_0 is the field of the stage before it.
#[derive(Clone, Copy, Debug, Default, PartialEq)]
pub struct Stage<'a> {
    pub tau: f64,
    /// w_1 and on, at most three, each of n numbers.
    pub further: &'a [&'a [f64]],
    pub solver: Solver,
}

/// What the stages cost together.
#[derive(Clone, Copy, Debug, Default, PartialEq)]
pub struct StagedReport {
    /// Products with the generator, by either solver.
    pub applications: u64,
    /// Substeps that Krylov stages accepted, and lengths that they rejected.
    pub substeps: u64,
    pub rejected: u64,
}

/// An accepted schedule: the field after its last stage, and what all stages cost.
#[derive(Clone, Debug, PartialEq)]
pub struct Staged {
    pub field: Vec<f64>,
    pub report: StagedReport,
}

/// A schedule without a result.
#[derive(Clone, Debug)]
pub enum StageError {
    Refused {
        refusal: Refusal,
        /// Which stage, from 1; 0 where the matrix or the schedule as a whole is refused.
        stage: u32,
        /// The field that was left: of the stage before, or, after 27 to 29, after the last accepted substep of the stage itself; none where
        /// no stage was begun.
        field: Option<Vec<f64>>,
    },
    /// The job is within the library's limits, but this many doubles are not to be had.
    OutOfMemory { doubles: usize },
}

impl StageError {
    pub fn refusal(&self) -> Option<Refusal> {
        match self {
            StageError::Refused { refusal, .. } => Some(*refusal),
            StageError::OutOfMemory { .. } => None,
        }
    }

    /// Which stage, from 1; 0 where none was reached.
    pub fn stage(&self) -> u32 {
        match self {
            StageError::Refused { stage, .. } => *stage,
            StageError::OutOfMemory { .. } => 0,
        }
    }

    /// The field that was left.
    pub fn field(&self) -> Option<&[f64]> {
        match self {
            StageError::Refused { field, .. } => field.as_deref(),
            StageError::OutOfMemory { .. } => None,
        }
    }
}

impl fmt::Display for StageError {
    fn fmt(&self, f: &mut fmt::Formatter) -> fmt::Result {
        match self {
            StageError::Refused { refusal, stage, .. } => Refused { refusal: *refusal, stage: *stage }.fmt(f),
            StageError::OutOfMemory { doubles } => Error::OutOfMemory { doubles: *doubles }.fmt(f),
        }
    }
}

impl std::error::Error for StageError {}

impl From<Error> for StageError {
    fn from(error: Error) -> Self {
        match error {
            Error::Refused { refusal, state } => StageError::Refused { refusal, stage: 0, field: state },
            Error::OutOfMemory { doubles } => StageError::OutOfMemory { doubles },
        }
    }
}

/// Runs 1 to 64 stages in order, from `start`: the field of one is w_0 of the next, as if each were a single call of
/// [`combine`](crate::combine()). Each stage is checked when it is reached; a vector that is not n long is refused by 16 at its stage.
///
/// ```
/// use hazhendu::{stages, KrylovOptions, Matrix, Solver, Stage};
///
/// // Two bodies of 8 J/K, joined by 0.5 W/K; the second loses 0.1 W/K to the room. 2 W for a minute, 1 W for ten, then nothing.
/// let a = Matrix::new(2, &[0, 2, 4], &[0, 1, 0, 1], &[0.5, -0.5, -0.5, 0.6]).with_mass(&[8.0, 8.0]);
/// let (full, half) = ([2.0 / 8.0, 0.0], [1.0 / 8.0, 0.0]);
/// let schedule = [
///     Stage { tau: 60.0, further: &[&full], ..Stage::default() },
///     Stage { tau: 600.0, further: &[&half], solver: Solver::Krylov(KrylovOptions::default()) },
///     Stage { tau: 120.0, ..Stage::default() },
/// ];
/// let staged = stages(&a, &schedule, &[0.0, 0.0])?;
/// assert!(staged.field[0] > 0.0 && staged.report.applications > 0);
/// # Ok::<(), hazhendu::StageError>(())
/// ```
pub fn stages(a: &Matrix, schedule: &[Stage], start: &[f64]) -> Result<Staged, StageError> {
    let counted: Vec<lent::Stage> = schedule.iter().take(sizes::MAX_STAGES + 1).map(counted).collect();
    let further = flat(a.n, schedule)?;
    let mut field = zeros(sizes::output(a.n, 0))?;
    let mut work = zeros(sizes::stages_work(a.n, a.entries.len(), a.mass.is_some(), &counted))?;
    match lent::stages(a, &counted, start, &further, &mut field, &mut work) {
        Ok(report) => Ok(Staged { field, report }),
        Err(refused) => {
            let Refused { refusal, stage } = refused;
            Err(StageError::Refused { refusal, stage, field: refused.leaves_field().then_some(field) })
        }
    }
}

fn counted(stage: &Stage) -> lent::Stage {
    lent::Stage { tau: stage.tau, count: stage.further.len().saturating_add(1), solver: stage.solver }
}

/// The further vectors one after the other. The library sees one slice, in which a vector too short and one too long could make up for each
/// other: it ends before the first stage that has a vector of the wrong length, which is then too short for that stage.
fn flat(n: usize, schedule: &[Stage]) -> Result<Vec<f64>, StageError> {
    let fits = |stage: &&Stage| stage.further.len() < MAX_VECTORS && stage.further.iter().all(|w| w.len() == n);
    let stages = schedule.iter().take(sizes::MAX_STAGES).take_while(fits);
    let doubles = stages.clone().map(|stage| stage.further.len() * n).sum();
    let mut all = Vec::new();
    all.try_reserve_exact(doubles).map_err(|_| StageError::OutOfMemory { doubles })?;
    stages.flat_map(|stage| stage.further).for_each(|w| all.extend_from_slice(w));
    Ok(all)
}
