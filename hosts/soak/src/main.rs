//! `soak`: the proved library on models in files. See arguments.rs for what it does (`soak --help`).

#![deny(unsafe_code)]

mod ahead;
mod arguments;
mod choice;
mod failure;
mod frames;
mod guard;
mod input;
mod interrupt;
mod job;
mod join;
mod log;
mod memory;
mod model;
mod plan;
mod plot;
mod points;
mod progress;
mod records;
mod report;
mod rotate;
mod schedule;
mod series;
mod sink;
mod soak;
mod stages;
mod steps;
mod summary;
mod table;
mod warnings;

use arguments::Command;
use failure::Failure;
use hazhendu::{matrix_market, shortest};
use join::{Pair, Parts};
use model::{Files, Model};
use sink::Sink;
use std::io::{self, IsTerminal, Write};
use std::path::Path;
use std::process::ExitCode;
use warnings::Heating;

fn main() -> ExitCode {
    match run() {
        Ok(()) => ExitCode::SUCCESS,
        Err(failure) => {
            if !failure.is_quiet() {
                tell(&failure.to_string());
            }
            ExitCode::from(failure.status())
        }
    }
}

fn run() -> Result<(), Failure> {
    match arguments::parse(std::env::args_os())? {
        Command::Help => sink::to_stdout(|to| to.write_all(arguments::HELP.as_bytes())),
        Command::Version => sink::to_stdout(|to| writeln!(to, "soak {}", env!("CARGO_PKG_VERSION"))),
        Command::Check(files) => check(&files),
        Command::Plan(request) => plan::run(&request),
        Command::Join(pair) => join(&pair),
        Command::Stages(request) => stages::run(&request),
        Command::Log(request) => log::run(&request),
        Command::Rotate(request) => rotate::run(&request),
        Command::Soak(request) => soak::run(&request),
    }
}

fn check(files: &Files) -> Result<(), Failure> {
    let model = Model::read(files)?;
    let largest = model.check()?;
    if let Some(heating) = Heating::of(&model.matrix()) {
        tell(&heating.warning(&files.matrix.to_string()));
    }
    sink::to_stdout(|to| {
        writeln!(to, "norm {}", shortest(largest.norm))?;
        writeln!(to, "{} {}, sum {}", model.line(), largest.row + 1, shortest(model.sums()[largest.row]))
    })
}

fn join(pair: &Pair) -> Result<(), Failure> {
    let parts = Parts::read(pair)?;
    let output = Sink::open(pair.output.as_deref().unwrap_or(Path::new("-")))?;
    let joined = parts.joined()?;
    output.fill(|to| matrix_market::write(to, &joined.matrix()))?;
    tell(&parts.cost_line(&joined));
    Ok(())
}

/// Where even this cannot be written, there is nobody to tell.
fn tell(text: &str) {
    let _ = writeln!(io::stderr(), "{text}");
}

fn tell_terminal(text: &str) {
    if io::stderr().is_terminal() {
        tell(text);
    }
}
