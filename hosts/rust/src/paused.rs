//! A Krylov soak that is looked at between its substeps.

use crate::lent::paused::{self as lent, State};
use crate::{sizes, zeros, Error, KrylovOptions, Matrix, Refusal, Report, Soaked};

/// A Krylov run that is paused after its start and after each substep. Matrix, tau and vectors come again at each step; as long as they are
/// the start's and nothing is tightened, the run ends with the bits, the report or the refusal of [`crate::phi_combination_krylov`].
///
/// ```
/// use hazhendu::{KrylovOptions, Matrix, Paused};
///
/// // Two bodies of 8 J/K, joined by 0.5 W/K; the second loses 0.1 W/K to the room; 2 W heat the first.
/// let a = Matrix::new(2, &[0, 2, 4], &[0, 1, 0, 1], &[0.5, -0.5, -0.5, 0.6]).with_mass(&[8.0, 8.0]);
/// let w = [20.0, 20.0, 2.0 / 8.0, 0.0];
/// let mut run = Paused::start(&a, 60.0, 2, &w, KrylovOptions { tol: 1e-6, m: 2, ..KrylovOptions::default() })?;
/// while !run.ended() {
///     run.step(&a, 60.0, 2, &w)?;
///     if run.time() >= 0.5 {
///         run.tighten(1e-8);
///     }
/// }
/// assert!(run.field()[0] > run.field()[1] && run.report().substeps > 1);
/// # Ok::<(), hazhendu::Error>(())
/// ```
#[derive(Clone, Debug)]
pub struct Paused {
    state: State,
    /// Scaled, with the few numbers that stand for the further vectors.
    scaled: Vec<f64>,
    field: Vec<f64>,
    work: Vec<f64>,
    /// For the next step.
    tol: Option<f64>,
    /// 27 to 29, if that ended the run.
    refused: Option<Refusal>,
}

impl Paused {
    /// Every check of a Krylov job, and no substep. A start that is all zeros has ended.
    pub fn start(a: &Matrix, tau: f64, count: usize, w: &[f64], options: KrylovOptions) -> Result<Self, Error> {
        let mut field = zeros(sizes::output(a.n, 0))?;
        let mut scaled = zeros(sizes::field(a.n, count))?;
        let mut work = zeros(sizes::krylov_work(a.n, a.entries.len(), a.mass.is_some(), count, options.m))?;
        match lent::start(a, tau, count, w, options, &mut field, &mut work, &mut scaled) {
            Ok(state) => Ok(Paused { state, scaled, field, work, tol: None, refused: None }),
            Err(refusal) => Err(Error::Refused { refusal, state: None }),
        }
    }

    /// One substep. 27 to 29 end the run, and [`Paused::field`] is that after the last accepted substep; every other refusal leaves the run
    /// as it was: 31 if it has ended, 16 if rows or vectors are not as many as at its start.
    pub fn step(&mut self, a: &Matrix, tau: f64, count: usize, w: &[f64]) -> Result<(), Error> {
        let need = sizes::krylov_work(a.n, a.entries.len(), a.mass.is_some(), count, self.state.m());
        if self.work.len() < need {
            self.work = zeros(need)?;
        }
        // An output of the job's own length, so that another n is told by 16.
        let mut others = zeros(if a.n == self.state.n() { 0 } else { sizes::output(a.n, 0) })?;
        let out = if a.n == self.state.n() { &mut self.field } else { &mut others };
        let stepped = lent::step(&mut self.state, a, tau, count, w, self.tol.take(), out, &mut self.work, &mut self.scaled);
        stepped.map_err(|refusal| {
            let ended = refusal.leaves_state();
            self.refused = if ended { Some(refusal) } else { self.refused };
            Error::Refused { refusal, state: ended.then(|| self.field.clone()) }
        })
    }

    /// Brings a new tolerance with the next step, for it and the later ones. If that step is refused before its substep, the run keeps the
    /// old one. One that is not strictly between 0 and 1 is refused by 18. It may be larger too.
    pub fn tighten(&mut self, tol: f64) {
        self.tol = Some(tol);
    }

    /// Steps to the end: the soak, or the refusal that ended the run.
    pub fn finish(mut self, a: &Matrix, tau: f64, count: usize, w: &[f64]) -> Result<Soaked<Report>, Error> {
        while !self.ended() {
            self.step(a, tau, count, w)?;
        }
        match self.refused {
            None => Ok(Soaked { cost: self.report(), field: self.field }),
            Some(refusal) => Err(Error::Refused { refusal, state: Some(self.field) }),
        }
    }

    /// The field so far: what a whole run that stopped here leaves.
    pub fn field(&self) -> &[f64] {
        &self.field
    }

    /// How far the run is, as a part of tau: 0 at the start, 1 at the end.
    pub fn time(&self) -> f64 {
        self.state.time()
    }

    /// What the run has cost so far; the estimated error is relative to the norm of the start at every moment.
    pub fn report(&self) -> Report {
        let report = self.state.report();
        let relative = self.ended() && self.refused.is_none();
        Report { estimated_error: if relative { report.estimated_error } else { report.estimated_error / self.state.norm() }, ..report }
    }

    /// Whether the run has ended: its time is 1, its field or its start is all zeros, or it met 27 to 29.
    pub fn ended(&self) -> bool {
        self.state.ended()
    }

    /// The tolerance in force.
    pub fn tol(&self) -> f64 {
        self.state.tol()
    }

    /// The state as the library keeps it.
    pub fn state(&self) -> &State {
        &self.state
    }
}
