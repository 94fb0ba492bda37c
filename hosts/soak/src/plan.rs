//! `soak plan`: what a Taylor soak would cost, and which solver would be taken, before any run.

use crate::choice;
use crate::failure::Failure;
use crate::job::cost_line;
use crate::model::{Files, Model};
use crate::sink;
use crate::tell;
use crate::warnings::Heating;
use hazhendu::{choose, shortest, taylor_plan, AutoOptions, Cost, Csr, Error, Matrix, Refusal, TaylorOptions};

#[derive(Debug)]
pub struct Request {
    pub files: Files,
    pub tau: f64,
    pub taylor: TaylorOptions,
}

/// Without vectors there is nothing that tells their number: M is that of two.
const COUNT: usize = 2;

pub fn run(request: &Request) -> Result<(), Failure> {
    let model = Model::read(&request.files)?;
    if let Some(heating) = Heating::of(&model.matrix()) {
        tell(&heating.warning(&request.files.matrix.to_string()));
    }
    let failure = |error: Error| model.failure(error, |refusal| place(request, &model, refusal));
    let turned = request.files.transposed.then(|| model.matrix().transposed()).transpose().map_err(failure)?;
    let matrix: Matrix = turned.as_ref().map_or_else(|| model.matrix(), Csr::matrix);
    let plan = taylor_plan(&matrix, request.tau, request.taylor).map_err(failure)?;
    let options = AutoOptions { taylor: request.taylor, ..AutoOptions::default() };
    let choice = choose(&matrix, request.tau, COUNT, options).map_err(failure)?;
    sink::to_stdout(|to| {
        writeln!(to, "{}", cost_line(&Cost::Taylor(plan)))?;
        choice::line(&choice).map_or(Ok(()), |line| writeln!(to, "{line}"))
    })
}

/// Where a refusal has its cause.
fn place(request: &Request, model: &Model, refusal: Refusal) -> Option<String> {
    match refusal.number {
        14 => Some(format!("--tau {}", shortest(request.tau))),
        33 => Some("--degree".into()),
        24 | 25 => Some(format!("--tau {}, {}, --degree {}", shortest(request.tau), request.files.matrix, request.taylor.degree)),
        _ => model.place(refusal),
    }
}
