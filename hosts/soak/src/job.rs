//! A job in memory: what the files hold, the call, and where in the files a refusal has its cause.

use crate::arguments::Request;
use crate::choice::Asked;
use crate::failure::Failure;
use crate::input::{Source, Vector};
use crate::memory::joined;
use crate::model::Model;
use hazhendu::sizes::{MAX_DEGREE, MAX_VECTORS};
use hazhendu::{combine, shortest, taylor_plan, transposed, Cost, Csr, Error, Matrix, Plan, Refusal, Soaked, Solver, TaylorOptions};

pub struct Job<'a> {
    request: &'a Request,
    model: Model<'a>,
    vectors: Vec<Vector>,
}

impl<'a> Job<'a> {
    pub fn read(request: &'a Request) -> Result<Self, Failure> {
        Ok(Job {
            request,
            model: Model::read(&request.files)?,
            vectors: request.vectors.iter().map(Source::vector).collect::<Result<_, _>>()?,
        })
    }

    /// Rows, entries and vectors.
    pub fn size(&self) -> String {
        let a = self.model.matrix();
        format!("rows {}, entries {}, vectors {}", a.n, a.entries.len(), self.vectors.len())
    }

    pub fn matrix(&self) -> Matrix<'_> {
        self.model.matrix()
    }

    /// Of the mean of a field: the mass, or of a sensitivity nothing.
    pub fn weights(&self) -> Option<&[f64]> {
        self.model.mass().filter(|_| !self.request.files.transposed)
    }

    /// The numbers of each vector.
    pub fn vectors(&self) -> Vec<&[f64]> {
        self.vectors.iter().map(|vector| vector.numbers.as_slice()).collect()
    }

    pub fn soak(&self, solver: Solver) -> Result<Soaked<Cost>, Failure> {
        self.soak_over(solver, self.request.tau)
    }

    /// The same over another time.
    pub fn soak_over(&self, solver: Solver, tau: f64) -> Result<Soaked<Cost>, Failure> {
        let (count, w) = self.flat()?;
        let combine = if self.request.files.transposed { transposed::combine } else { combine };
        combine(solver, &self.model.matrix(), tau, count, &w).map_err(|error| self.failure(error))
    }

    /// The norm of the generator, if the matrix is accepted.
    pub fn norm(&self) -> Option<f64> {
        self.model.check().ok().map(|largest| largest.norm)
    }

    /// What a Taylor soak over this time costs, if it has a plan.
    pub fn plan(&self, tau: f64, options: TaylorOptions) -> Option<Plan> {
        let planned = if self.request.files.transposed { transposed::taylor_plan } else { taylor_plan };
        planned(&self.model.matrix(), tau, options).ok()
    }

    pub fn failure(&self, error: Error) -> Failure {
        self.model.failure(error, |refusal| self.place(refusal))
    }

    /// The transposed matrix, if that is asked for: a run by substeps is made on it.
    pub fn turned(&self) -> Result<Option<Csr>, Failure> {
        let turned = self.request.files.transposed.then(|| self.matrix().transposed());
        turned.transpose().map_err(|error| self.failure(error))
    }

    /// The library sees one slice, in which a vector too short and one too long could make up for each other. A vector of the wrong
    /// length is therefore put to it alone, for the library to refuse (unless there are too many vectors, which it refuses first).
    pub fn flat(&self) -> Result<(usize, Vec<f64>), Failure> {
        let put = match self.misfit() {
            Some(i) if self.vectors.len() <= MAX_VECTORS => &self.vectors[i..=i],
            _ => &self.vectors,
        };
        Ok((put.len(), joined(put.iter().map(|vector| vector.numbers.as_slice()))?))
    }

    fn misfit(&self) -> Option<usize> {
        self.vectors.iter().position(|vector| vector.numbers.len() != self.model.matrix().n)
    }

    /// The highest degree, where it is lower than it may be.
    fn degree(&self) -> String {
        let degree = match self.request.solver {
            Asked::Named(Solver::Taylor(options)) => options.degree,
            Asked::Auto(options) => options.taylor.degree,
            Asked::Named(Solver::Krylov(_)) => MAX_DEGREE,
        };
        if degree < MAX_DEGREE {
            format!(", --degree {degree}")
        } else {
            String::new()
        }
    }

    /// Where a refusal has its cause.
    fn place(&self, refusal: Refusal) -> Option<String> {
        match refusal.number {
            12 => Some(format!("--vector is given {} times", self.vectors.len())),
            14 => Some(format!("--tau {}", shortest(self.request.tau))),
            16 => self.misfit().map(|i| self.model.length_told(&self.vectors[i])),
            17 => self.vectors.iter().find_map(|vector| vector.first(|x| !x.is_finite())),
            18 => Some("--tol".into()),
            33 => Some("--degree".into()),
            19 => Some("--limit".into()),
            20 => Some("--m or --limit".into()),
            21 | 22 => Some("--tau and the vectors from the second on".into()),
            25 => Some(format!("--tau {}, {}{}", shortest(self.request.tau), self.request.files.matrix, self.degree())),
            24 | 29 => Some(format!("--tau {} and {}", shortest(self.request.tau), self.request.files.matrix)),
            27 => Some("--limit".into()),
            28 => Some("--m; a soak of its own without --solver takes another m by itself, then taylor".into()),
            _ => self.model.place(refusal),
        }
    }
}

/// The plan or report in one line.
pub fn cost_line(cost: &Cost) -> String {
    match cost {
        Cost::Taylor(plan) => {
            format!("taylor: s {}, m {}, mu {}, {} applications", plan.s, plan.m, shortest(plan.mu), plan.applications)
        }
        Cost::Krylov(report) => format!(
            "krylov: {} substeps (shortest {}, last {} of tau), {} applications, {} rejected, estimated error {}",
            report.substeps,
            shortest(report.shortest_step),
            shortest(report.last_step),
            report.matvecs,
            report.rejected,
            shortest(report.estimated_error)
        ),
    }
}
