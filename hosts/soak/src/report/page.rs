//! What the pages of all reports are made of: one page that needs nothing else.

use super::command_line;
use crate::model::Files;
use crate::plot::{escaped, Picture};
use crate::sink::is_standard_output;
use crate::summary::{extremes, rounded, Extreme, Summary};
use hazhendu::{shortest, Cost, Refusal, Solver};
use std::path::Path;

/// A list of more lines is left to other files.
pub const LISTED: usize = 5000;

const STYLE: &str = "\
body { font-family: sans-serif; color: #222; max-width: 60em; margin: 2em auto; padding: 0 1em; line-height: 1.4; }
h1 { font-size: 1.4em; margin-bottom: 0.2em; } h2 { font-size: 1.1em; margin-top: 2em; }
table { border-collapse: collapse; } th, td { text-align: left; padding: 0.2em 1.2em 0.2em 0; border-bottom: 1px solid #ddd; vertical-align: top; }
th { font-weight: normal; color: #555; white-space: nowrap; } td.number, th.number { text-align: right; font-variant-numeric: tabular-nums; }
.good { color: #1b5e20; } .bad { color: #b00020; } .warning { border-left: 4px solid #b00020; padding: 0.4em 1em; background: #fdecef; white-space: pre-line; }
figure { margin: 1.5em 0; } figure svg { max-width: 100%; height: auto; border: 1px solid #ddd; } figcaption { color: #555; }
pre { background: #f4f4f4; padding: 0.8em; white-space: pre-wrap; overflow-wrap: anywhere; }
";

/// A name and what it is.
pub type Named = (String, String);

/// `body` is HTML; `asked` is what the command was asked for.
pub fn whole(title: &str, warnings: &[String], body: &str, asked: &str) -> String {
    let title = escaped(title);
    let warning = |text: &String| format!("<p class=\"warning\">{}</p>\n", escaped(text.trim_start_matches("soak: ")));
    let warnings: String = warnings.iter().map(warning).collect();
    format!(
        "<!DOCTYPE html>\n<html lang=\"en\">\n<head>\n<meta charset=\"utf-8\">\n<title>{title}</title>\n<style>\n{STYLE}</style>\n</head>\n<body>\n\
         <h1>{title}</h1>\n{warnings}{body}<h2>What was asked</h2>\n{asked}<h2>The command</h2>\n<pre>{}</pre>\n\
         <p>soak {}, over the proved library hazhendu.</p>\n</body>\n</html>\n",
        escaped(&command_line()),
        env!("CARGO_PKG_VERSION")
    )
}

/// How it ended, in a few words.
pub fn status(good: bool, told: &str) -> String {
    format!("<p class=\"{}\">{}</p>\n", if good { "good" } else { "bad" }, escaped(told))
}

pub fn not_finite(summary: &Summary, count: usize) -> String {
    format!("{} of {count} numbers of the field are not finite.", summary.not_finite)
}

pub fn figures(pictures: &[Named]) -> String {
    let figure = |(caption, svg): &Named| format!("<figure>\n{svg}<figcaption>{}</figcaption>\n</figure>\n", escaped(caption));
    pictures.iter().map(figure).collect()
}

pub fn table(rows: Vec<Named>) -> String {
    let row = |(name, value): &Named| format!("<tr><th>{}</th><td>{}</td></tr>\n", escaped(name), escaped(value));
    let rows: String = rows.iter().map(row).collect();
    format!("<table>\n{rows}</table>\n")
}

/// What stands in a column.
#[derive(Clone, Copy, PartialEq)]
pub enum Column {
    Words,
    Number,
}

/// A table with a line of names above it.
pub fn columns(head: &[(&str, Column)], rows: &[Vec<String>]) -> String {
    let class = |i: usize| if head[i].1 == Column::Number { " class=\"number\"" } else { "" };
    let cell = |tag: &str, i: usize, text: &str| format!("<{tag}{}>{}</{tag}>", class(i), escaped(text));
    let names: String = head.iter().enumerate().map(|(i, (name, _))| cell("th", i, name)).collect();
    let line = |row: &Vec<String>| {
        let cells: String = row.iter().enumerate().map(|(i, text)| cell("td", i, text)).collect();
        format!("<tr>{cells}</tr>\n")
    };
    let lines: String = rows.iter().map(line).collect();
    format!("<table>\n<tr>{names}</tr>\n{lines}</table>\n")
}

/// The same, folded up under a line that says what it is.
pub fn folded(what: &str, head: &[(&str, Column)], rows: &[Vec<String>]) -> String {
    format!("<details><summary>{}</summary>\n{}</details>\n", escaped(what), columns(head, rows))
}

pub fn named(path: &Path) -> String {
    if is_standard_output(path) {
        "the standard output".into()
    } else {
        path.display().to_string()
    }
}

pub fn refused(refusal: Refusal, place: Option<&str>) -> Vec<Named> {
    let mut rows = vec![("refused".into(), format!("({}) {}", refusal.number, refusal.wrong()))];
    rows.extend(refusal.told().map(|told| ("told".into(), told)));
    rows.extend(place.map(|place| ("where".into(), place.to_owned())));
    rows.push(("what to change".into(), refusal.change().to_owned()));
    rows
}

pub fn summed(picture: &Picture) -> Vec<Named> {
    let (summary, unit) = (picture.summary, picture.unit);
    let extreme = |extreme: &Option<Extreme>| {
        extreme.map_or("none is finite".into(), |Extreme { row, value }| format!("{} {unit}, row {}", rounded(value), row + 1))
    };
    let mean = if summary.by_mass { "mean, weighed by the mass" } else { "mean of the rows" };
    let [most, least] = extremes(picture.quantity);
    vec![
        (most.into(), extreme(&summary.hottest)),
        (least.into(), extreme(&summary.coldest)),
        (mean.into(), summary.mean.map_or("none".into(), |mean| format!("{} {unit}", rounded(mean)))),
    ]
}

pub fn spent(cost: &Cost) -> Vec<Named> {
    match cost {
        Cost::Taylor(plan) => vec![
            ("sweeps".into(), plan.s.to_string()),
            ("degree of each".into(), plan.m.to_string()),
            ("shift".into(), shortest(plan.mu)),
            ("products with the generator".into(), plan.applications.to_string()),
        ],
        Cost::Krylov(report) => vec![
            ("substeps".into(), report.substeps.to_string()),
            ("shortest and last, of tau".into(), format!("{}, {}", rounded(report.shortest_step), rounded(report.last_step))),
            ("lengths rejected".into(), report.rejected.to_string()),
            ("products with the generator".into(), report.matvecs.to_string()),
            ("estimated error, of the norm of the start".into(), rounded(report.estimated_error)),
        ],
    }
}

pub fn seconds(seconds: f64) -> Named {
    ("time of the call".into(), format!("{seconds:.3} s"))
}

/// A solver with its options.
pub fn solver(solver: &Solver) -> String {
    match solver {
        Solver::Taylor(options) => format!("taylor, degree up to {}", options.degree),
        Solver::Krylov(options) => {
            format!("krylov, tol {}, m {}, at most {} substeps", shortest(options.tol), options.m, options.max_substeps)
        }
    }
}

/// The matrix and its mass.
pub fn model(files: &Files, rows: usize, entries: usize) -> Vec<Named> {
    vec![
        ("matrix".into(), format!("{}, {rows} rows, {entries} entries", files.matrix)),
        ("mass".into(), files.mass.as_ref().map_or("none".into(), ToString::to_string)),
    ]
}

/// The field row by row, with its places where they are known.
pub fn field(picture: &Picture) -> String {
    let count = picture.field.len();
    if count > LISTED {
        return format!("<p>{count} rows: --output or a report as JSON lists them.</p>\n");
    }
    let quantity = format!("{}, {}", picture.quantity, picture.unit);
    let mut head = vec![("row", Column::Number)];
    if let Some(geometry) = picture.geometry {
        head.extend([(geometry.across.as_str(), Column::Number), (geometry.up.as_str(), Column::Number)]);
    }
    head.push((&quantity, Column::Number));
    let row = |(i, value): (usize, &f64)| {
        let middle = picture.geometry.and_then(|geometry| geometry.cells.get(i)).map(|cell| cell.middle());
        let places = middle.into_iter().flatten().map(rounded);
        std::iter::once((i + 1).to_string()).chain(places).chain([shortest(*value)]).collect()
    };
    let rows: Vec<Vec<String>> = picture.field.iter().enumerate().map(row).collect();
    folded(&format!("{count} rows"), &head, &rows)
}
