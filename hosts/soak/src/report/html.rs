//! The page of a soak.

use super::page::{self, figures, named, refused, seconds, solver, spent, status, summed, table, Named};
use super::{Outcome, Report};
use crate::plot::{self, Picture};
use crate::steps::{Stopped, Tightening};
use hazhendu::{shortest, Cost};

pub fn page(report: &Report) -> String {
    let matrix = || report.request.files.matrix.short_name();
    let title = match &report.outcome {
        Outcome::Soaked { picture, .. } => picture.title.clone(),
        Outcome::Refused { .. } => format!("{}, refused", matrix()),
        Outcome::Stopped { .. } => format!("{}, stopped", matrix()),
    };
    let body = match &report.outcome {
        Outcome::Soaked { cost, picture } => soaked(report, cost, picture),
        Outcome::Refused { refusal, place, state } => {
            let mut rows = refused(*refusal, *place);
            rows.extend(state.as_deref().map(|path| ("state after the last accepted substep".into(), named(path))));
            status(false, "Refused: there is no field.") + &table(rows)
        }
        Outcome::Stopped { stopped, state } => stopped_run(stopped, report.seconds, state.as_deref().map(named)),
    };
    page::whole(&title, report.warnings, &body, &table(asked(report)))
}

fn soaked(report: &Report, cost: &Cost, picture: &Picture) -> String {
    let told = match report.status() {
        0 => status(true, "Soaked."),
        _ => status(false, &page::not_finite(picture.summary, picture.field.len())),
    };
    let mut pictures = picture.all();
    if report.series.moments.len() > 1 {
        let over_time = plot::series(report.series, &picture.title, picture.unit);
        pictures.push((format!("{} over the time, after each substep", picture.quantity), over_time));
    }
    let mut took = spent(cost);
    took.push(seconds(report.seconds));
    format!(
        "{told}{}{}<h2>What it took</h2>\n{}<h2>The field</h2>\n{}",
        table(summed(picture)),
        figures(&pictures),
        table(took),
        page::field(picture)
    )
}

fn stopped_run(stopped: &Stopped, time: f64, state: Option<String>) -> String {
    let mut rows: Vec<Named> = vec![("stopped at, of tau".into(), shortest(stopped.time))];
    rows.extend(state.map(|path| ("state after the last accepted substep".into(), path)));
    rows.extend(stopped.rest().map(|rest| ("to go on from it".into(), format!("--tau {}", shortest(rest)))));
    rows.extend(spent(&Cost::Krylov(stopped.report)));
    rows.push(seconds(time));
    status(false, "Stopped by Ctrl-C: there is no field at tau.") + &table(rows)
}

fn asked(report: &Report) -> Vec<Named> {
    let request = report.request;
    let mut rows = page::model(&request.files, report.rows, report.entries);
    rows.extend(request.vectors.iter().enumerate().map(|(k, source)| (format!("w_{k}"), source.to_string())));
    rows.push(("tau".into(), format!("{} s", shortest(request.tau))));
    let transposed = if request.files.transposed { ", on the transposed matrix" } else { "" };
    rows.push(("solver".into(), format!("{}{transposed}", solver(&report.taken.solver))));
    rows.extend(report.taken.told.iter().map(|line| ("chosen".into(), line.trim_start_matches("auto: ").to_owned())));
    let tightened = |t: &Tightening| format!("tol {} from {} of tau on", shortest(t.tol), shortest(t.share));
    rows.extend(request.tightenings.iter().map(|t| ("tightened".into(), tightened(t))));
    rows
}
