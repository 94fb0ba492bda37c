//! The schedule of a soak in stages: a table with commas, a line a stage.

use crate::failure::Failure;
use crate::input::{Source, Vector};
use crate::stages::Done;
use crate::table::{self, Row, Table};
use hazhendu::sizes::MAX_DEGREE;
use hazhendu::{shortest, KrylovOptions, Solver, TaylorOptions};

/// The library refuses fewer lines than the most that are read (37).
const TABLE: Table = Table {
    columns: &["name", "tau", "solver", "degree", "tol", "m", "limit", "vectors"],
    needed: &["tau"],
    most: 1000,
    too_many: "more than 1000 stages; at most 64 are taken",
};

pub struct Stage {
    /// Where it stands, as FILE:LINE.
    pub place: String,
    pub name: Option<String>,
    pub tau: f64,
    pub solver: Solver,
    /// The files of w_1 and on.
    pub vectors: Vec<Vector>,
}

impl Stage {
    /// For people: its number from 1, and its name.
    pub fn called(&self, i: usize) -> String {
        match &self.name {
            Some(name) => format!("{} ({name})", i + 1),
            None => (i + 1).to_string(),
        }
    }

    pub fn solver_name(&self) -> &'static str {
        match self.solver {
            Solver::Taylor(_) => "taylor",
            Solver::Krylov(_) => "krylov",
        }
    }

    pub fn further(&self) -> Vec<&[f64]> {
        self.vectors.iter().map(|vector| vector.numbers.as_slice()).collect()
    }
}

pub fn read(source: &Source) -> Result<Vec<Stage>, Failure> {
    table::read(source, &TABLE, stage)
}

fn stage(row: &Row) -> Result<Stage, Failure> {
    let tau = row.number("tau", "a number")?.ok_or_else(|| row.wrong("no tau".into()))?;
    let files = row.cell("vectors").map_or(Ok(vec![]), |cell| row.files("vectors", cell))?;
    let read = |source: &Source| source.vector().map_err(|failure| table::named_at(row.place, failure));
    let vectors = files.iter().map(read).collect::<Result<_, _>>()?;
    Ok(Stage { place: row.place.to_owned(), name: row.cell("name").map(str::to_owned), tau, solver: solver(row)?, vectors })
}

fn solver(row: &Row) -> Result<Solver, Failure> {
    let whole = "a whole number that fits";
    let degree = row.number("degree", whole)?;
    let (tol, m, limit) = (row.number("tol", "a number")?, row.number("m", whole)?, row.number("limit", whole)?);
    let usual = KrylovOptions::default();
    match row.cell("solver") {
        Some("krylov") if degree.is_some() => Err(row.wrong("degree is for solver taylor".into())),
        Some("krylov") => Ok(Solver::Krylov(KrylovOptions {
            tol: tol.unwrap_or(usual.tol),
            m: m.unwrap_or(usual.m),
            max_substeps: limit.unwrap_or(usual.max_substeps),
        })),
        Some("taylor") | None if tol.is_some() || m.is_some() || limit.is_some() => {
            Err(row.wrong("tol, m and limit are for solver krylov".into()))
        }
        Some("taylor") | None => Ok(Solver::Taylor(TaylorOptions { degree: degree.unwrap_or(MAX_DEGREE) })),
        Some(other) => Err(row.wrong(format!("solver {other:?}: taylor or krylov"))),
    }
}

/// The start, and the field after each stage that was run, each with its name.
pub fn curves<'a>(start: &'a [f64], stages: &[Stage], done: &'a [Done]) -> Vec<(String, &'a [f64])> {
    let named = done.iter().zip(stages).enumerate().map(|(i, (done, stage))| (format!("stage {}", stage.called(i)), done.field.as_slice()));
    std::iter::once(("start".into(), start)).chain(named).collect()
}

/// Its time, and what it does, in a few words.
pub fn line(stage: &Stage, i: usize, of: usize) -> String {
    format!("stage {} of {of}, tau {}, {}", stage.called(i), shortest(stage.tau), stage.solver_name())
}
