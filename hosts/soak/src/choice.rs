//! Which solver a soak is made with: the one that is named, or the one that is taken by size and plan.

use crate::failure::Failure;
use crate::job::Job;
use hazhendu::{choose, AutoOptions, Choice, Csr, Matrix, Solver, Why};

/// What --solver asks for.
#[derive(Clone, Copy, Debug, PartialEq)]
pub enum Asked {
    Auto(AutoOptions),
    Named(Solver),
}

impl Asked {
    /// Whether a run may leave a state: Taylor leaves none.
    pub fn may_leave_state(self) -> bool {
        !matches!(self, Asked::Named(Solver::Taylor(_)))
    }
}

/// What is taken.
pub struct Taken {
    pub solver: Solver,
    /// What was chosen, and why, a line for each try.
    pub told: Vec<String>,
    choice: Option<Choice>,
}

impl Taken {
    pub fn of(asked: Asked, job: &Job, tau: f64) -> Result<Taken, Failure> {
        let options = match asked {
            Asked::Named(solver) => return Ok(Taken { solver, told: vec![], choice: None }),
            Asked::Auto(options) => options,
        };
        let turned = match job.turned() {
            // The run tells why.
            Err(Failure::Refused { .. }) => return Ok(Taken { solver: Solver::Taylor(options.taylor), told: vec![], choice: None }),
            turned => turned?,
        };
        let matrix: Matrix = turned.as_ref().map_or_else(|| job.matrix(), Csr::matrix);
        let choice = choose(&matrix, tau, job.vectors().len(), options).map_err(|error| job.failure(error))?;
        Ok(Taken { solver: choice.solver, told: line(&choice).into_iter().collect(), choice: Some(choice) })
    }

    /// Whether something else is left to take after 28.
    pub fn after_28(&mut self) -> bool {
        self.choice = self.choice.take().and_then(Choice::after_28);
        let Some(choice) = &self.choice else { return false };
        self.solver = choice.solver;
        self.told.extend(line(choice));
        true
    }
}

/// What is taken, and why; a refusal tells itself.
pub fn line(choice: &Choice) -> Option<String> {
    let dimension = match choice.solver {
        Solver::Krylov(options) => format!(" with m {}", options.m),
        Solver::Taylor(_) => String::new(),
    };
    let told = format!("auto: {}{dimension}: {}", name(choice.solver), choice.why);
    (!matches!(choice.why, Why::Refused { .. })).then_some(told)
}

pub fn name(solver: Solver) -> &'static str {
    match solver {
        Solver::Taylor(_) => "taylor",
        Solver::Krylov(_) => "krylov",
    }
}
