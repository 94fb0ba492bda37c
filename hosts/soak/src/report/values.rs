//! What reports as JSON are made of. Doubles are the shortest decimals that read back as the same; what is not finite is null.

use super::command_line;
use crate::model::Files;
use crate::plot::geometry::Geometry;
use crate::summary::{Extreme, Summary};
use hazhendu::{shortest, Cost, Refusal, Solver};

/// A name and its value.
pub type Named = (&'static str, String);

/// What every report begins with.
pub fn head(status: u32, files: &Files, rows: usize, entries: usize) -> Vec<Named> {
    vec![
        ("soak", string(env!("CARGO_PKG_VERSION"))),
        ("command", string(&command_line())),
        ("folder", std::env::current_dir().map_or(null(), |folder| string(&folder.display().to_string()))),
        ("status", status.to_string()),
        ("matrix", string(&files.matrix.to_string())),
        ("rows", rows.to_string()),
        ("entries", entries.to_string()),
        ("mass", files.mass.as_ref().map_or(null(), |mass| string(&mass.to_string()))),
    ]
}

pub fn solver(solver: &Solver) -> String {
    match solver {
        Solver::Taylor(options) => object(vec![("name", string("taylor")), ("degree", options.degree.to_string())]),
        Solver::Krylov(options) => object(vec![
            ("name", string("krylov")),
            ("tol", number(options.tol)),
            ("m", options.m.to_string()),
            ("limit", options.max_substeps.to_string()),
        ]),
    }
}

pub fn spent(cost: &Cost) -> String {
    match cost {
        Cost::Taylor(plan) => object(vec![
            ("s", plan.s.to_string()),
            ("m", plan.m.to_string()),
            ("mu", number(plan.mu)),
            ("applications", plan.applications.to_string()),
        ]),
        Cost::Krylov(report) => object(vec![
            ("substeps", report.substeps.to_string()),
            ("applications", report.matvecs.to_string()),
            ("rejected", report.rejected.to_string()),
            ("estimated_error", number(report.estimated_error)),
            ("shortest_step", number(report.shortest_step)),
            ("last_step", number(report.last_step)),
        ]),
    }
}

pub fn refused(refusal: Refusal, place: Option<&str>) -> Vec<Named> {
    vec![
        ("number", refusal.number.to_string()),
        ("wrong", string(refusal.wrong())),
        ("value", number(refusal.value)),
        ("told", refusal.told().map_or(null(), |told| string(&told))),
        ("where", place.map_or(null(), string)),
        ("change", string(refusal.change())),
    ]
}

pub fn summed(summary: &Summary) -> [Named; 5] {
    let extreme = |extreme: &Option<Extreme>| {
        extreme.map_or(null(), |Extreme { row, value }| object(vec![("row", (row + 1).to_string()), ("value", number(value))]))
    };
    [
        ("hottest", extreme(&summary.hottest)),
        ("coldest", extreme(&summary.coldest)),
        ("mean", summary.mean.map_or(null(), number)),
        ("mean_by", string(if summary.by_mass { "mass" } else { "rows" })),
        ("not_finite", summary.not_finite.to_string()),
    ]
}

pub fn places(geometry: &Geometry) -> [Named; 2] {
    let place = |[across, up]: [f64; 2]| list([number(across), number(up)].into_iter());
    [("axes", list([&geometry.across, &geometry.up].into_iter().map(|name| string(name)))), ("places", list(geometry.middles().map(place)))]
}

pub fn null() -> String {
    "null".into()
}

pub fn number(x: f64) -> String {
    if x.is_finite() {
        shortest(x)
    } else {
        null()
    }
}

pub fn string(text: &str) -> String {
    let mut quoted = String::from('"');
    for c in text.chars() {
        match c {
            '"' | '\\' => quoted.extend(['\\', c]),
            '\n' => quoted += "\\n",
            c if c < ' ' => quoted += &format!("\\u{:04x}", u32::from(c)),
            c => quoted.push(c),
        }
    }
    quoted.push('"');
    quoted
}

pub fn list(values: impl Iterator<Item = String>) -> String {
    format!("[{}]", values.collect::<Vec<_>>().join(","))
}

pub fn object(fields: Vec<Named>) -> String {
    let fields: Vec<String> = fields.iter().map(|(name, value)| format!("{}:{value}", string(name))).collect();
    format!("{{{}}}", fields.join(",\n"))
}

#[cfg(test)]
mod tests {
    use super::{number, string};

    #[test]
    fn what_json_has_no_word_for_is_escaped_or_null() {
        assert_eq!(string("a\"b\\c\n\u{1}é"), "\"a\\\"b\\\\c\\n\\u0001é\"");
        assert_eq!([0.1, 1e300, -0.0, f64::NAN, f64::INFINITY].map(number), ["0.1", "1e300", "-0", "null", "null"]);
    }
}
