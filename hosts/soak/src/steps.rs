//! A Krylov soak by substeps: with progress, tolerances that change on the way, frames, and Ctrl-C.

use crate::arguments::Request;
use crate::failure::Failure;
use crate::interrupt::Listening;
use crate::job::Job;
use crate::progress::Progress;
use hazhendu::{Cost, Csr, KrylovOptions, Matrix, Paused, Report, Soaked, Solver};
use std::io::{self, IsTerminal};

/// From the first substep at or after this share of tau with this tol.
#[derive(Clone, Copy, Debug, PartialEq)]
pub struct Tightening {
    pub share: f64,
    pub tol: f64,
}

/// A run that Ctrl-C stopped between two substeps.
#[derive(Debug)]
pub struct Stopped {
    /// How far it was, as a part of tau.
    pub time: f64,
    pub tau: f64,
    pub report: Report,
    pub field: Vec<f64>,
    /// How many vectors there are: with a third one the heating of the rest would be another.
    pub count: usize,
}

impl Stopped {
    /// The time that remains, where the run can go on from the field alone.
    pub fn rest(&self) -> Option<f64> {
        (self.count <= 2).then_some(self.tau * (1.0 - self.time))
    }
}

/// The options of a run by substeps; any other is one call. The bits are the same.
pub fn options(request: &Request, solver: Solver) -> Option<KrylovOptions> {
    let asked = !request.tightenings.is_empty() || request.frames.is_some() || !request.series.files.is_empty();
    let wanted = asked || io::stderr().is_terminal();
    match solver {
        Solver::Krylov(options) if wanted => Some(options),
        _ => None,
    }
}

/// `seen` gets the field at the start and after each substep, how far the run is, and how many substeps it took.
pub fn soak(
    job: &Job,
    request: &Request,
    options: KrylovOptions,
    mut seen: impl FnMut(&[f64], f64, usize) -> Result<(), Failure>,
) -> Result<Soaked<Cost>, Failure> {
    let (count, w) = job.flat()?;
    let turned = job.turned()?;
    let matrix: Matrix = turned.as_ref().map_or_else(|| job.matrix(), Csr::matrix);
    let mut tightenings = Tightenings::of(&request.tightenings);
    let mut progress = Progress::new();
    let interrupt = Listening::new();
    let mut run = Paused::start(&matrix, request.tau, count, &w, options).map_err(|error| job.failure(error))?;
    seen(run.field(), run.time(), 0)?;
    while !run.ended() {
        if interrupt.heard() {
            let (time, report, field) = (run.time(), run.report(), run.field().to_vec());
            return Err(Failure::Stopped(Stopped { time, tau: request.tau, report, field, count }));
        }
        if let Some(tol) = tightenings.at(run.time()) {
            run.tighten(tol);
        }
        let stepped = run.step(&matrix, request.tau, count, &w);
        progress.tell(run.time(), &run.report(), run.ended());
        stepped.map_err(|error| job.failure(error))?;
        seen(run.field(), run.time(), run.report().substeps)?;
    }
    Ok(Soaked { cost: Cost::Krylov(run.report()), field: run.field().to_vec() })
}

/// Those still to come, in the order of their shares; of equal shares the one given last holds.
struct Tightenings(Vec<Tightening>);

impl Tightenings {
    fn of(given: &[Tightening]) -> Self {
        let mut list = given.to_vec();
        list.sort_by(|a, b| a.share.total_cmp(&b.share));
        Tightenings(list)
    }

    /// The tolerance for a substep from this time on, if it is another.
    fn at(&mut self, time: f64) -> Option<f64> {
        let due = self.0.iter().take_while(|next| next.share <= time).count();
        self.0.drain(..due).next_back().map(|last| last.tol)
    }
}

#[cfg(test)]
mod tests {
    use super::{Tightening, Tightenings};

    #[test]
    fn tolerances_come_in_the_order_of_their_shares() {
        let given = [(0.5, 1e-8), (0.25, 1e-6), (0.5, 1e-9), (0.75, 1e-10)].map(|(share, tol)| Tightening { share, tol });
        let mut list = Tightenings::of(&given);
        assert_eq!(
            [0.0, 0.3, 0.4, 0.5, 0.6, 0.9, 1.0].map(|time| list.at(time)),
            [None, Some(1e-6), None, Some(1e-9), None, Some(1e-10), None]
        );
        assert_eq!(Tightenings::of(&given).at(0.8), Some(1e-10));
    }
}
