//! A soak as JSON.

use super::values::{head, list, null, number, object, places, refused, solver, spent, string, summed};
use super::{Outcome, Report};
use hazhendu::Cost;

pub fn text(report: &Report) -> String {
    let request = report.request;
    let mut fields = head(report.status(), &request.files, report.rows, report.entries);
    fields.extend([
        ("transposed", request.files.transposed.to_string()),
        ("vectors", list(request.vectors.iter().map(|source| string(&source.to_string())))),
        ("tau", number(request.tau)),
        ("solver", solver(&report.taken.solver)),
        ("chosen", list(report.taken.told.iter().map(|line| string(line)))),
        ("tightened", list(request.tightenings.iter().map(|t| object(vec![("share", number(t.share)), ("tol", number(t.tol))])))),
        ("seconds", number(report.seconds)),
        ("warnings", list(report.warnings.iter().map(|warning| string(warning)))),
    ]);
    match &report.outcome {
        Outcome::Refused { refusal, place, state } => {
            fields.push(("refusal", object(refused(*refusal, *place))));
            fields.push(("state", state.as_ref().map_or(null(), |path| string(&path.display().to_string()))));
        }
        Outcome::Stopped { stopped, state } => fields.extend([
            ("refusal", null()),
            ("stopped_at", number(stopped.time)),
            ("cost", spent(&Cost::Krylov(stopped.report))),
            ("state", state.as_ref().map_or(null(), |path| string(&path.display().to_string()))),
        ]),
        Outcome::Soaked { cost, picture } => {
            fields.extend([
                ("refusal", null()),
                ("cost", spent(cost)),
                ("quantity", string(picture.quantity)),
                ("unit", string(picture.unit)),
            ]);
            fields.extend(summed(picture.summary));
            fields.push(("field", list(picture.field.iter().map(|x| number(*x)))));
        }
    }
    if let Some(geometry) = report.geometry {
        fields.extend(places(geometry));
    }
    object(fields) + "\n"
}
