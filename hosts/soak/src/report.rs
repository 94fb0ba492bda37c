//! A soak told to people (HTML) and to programs (JSON, CSV).

mod csv;
mod html;
mod json;
pub mod log;
mod page;
pub mod stages;
mod values;

use crate::arguments::Request;
use crate::choice::Taken;
use crate::failure::Failure;
use crate::plot::{Geometry, Picture};
use crate::series::Series;
use crate::sink::Sink;
use crate::steps::Stopped;
use hazhendu::{Cost, Refusal};
use std::path::{Path, PathBuf};

#[derive(Clone, Copy, Debug, PartialEq)]
pub enum Kind {
    Html,
    Json,
    Csv,
}

impl Kind {
    pub fn of(path: &Path) -> Option<Kind> {
        match path.extension()?.to_str()?.to_ascii_lowercase().as_str() {
            "html" | "htm" => Some(Kind::Html),
            "json" => Some(Kind::Json),
            "csv" => Some(Kind::Csv),
            _ => None,
        }
    }
}

/// Each of the files of --report is of a kind.
pub fn check(paths: &[PathBuf]) -> Result<(), Failure> {
    match paths.iter().find(|path| Kind::of(path).is_none()) {
        Some(path) => Err(Failure::Usage(format!("--report {}: a name that ends in .html, .json or .csv", path.display()))),
        None => Ok(()),
    }
}

/// Each tried before the run.
pub struct Sinks(Vec<(Kind, Sink)>);

impl Sinks {
    pub fn open(paths: &[PathBuf]) -> Result<Sinks, Failure> {
        let kinds = paths.iter().filter_map(|path| Some((Kind::of(path)?, path)));
        kinds.map(|(kind, path)| Ok((kind, Sink::open(path)?))).collect::<Result<_, _>>().map(Sinks)
    }

    /// Where there is nothing of a kind to be told, no file is written.
    pub fn fill(&self, text: impl Fn(Kind) -> Option<String>) -> Result<(), Failure> {
        for (kind, sink) in &self.0 {
            text(*kind).map_or(Ok(()), |text| sink.fill(|to| to.write_all(text.as_bytes())))?;
        }
        Ok(())
    }
}

/// What was asked, and what came of it.
pub struct Report<'a> {
    pub request: &'a Request,
    pub taken: &'a Taken,
    /// Of a run by substeps.
    pub series: &'a Series,
    pub rows: usize,
    pub entries: usize,
    /// Of the call.
    pub seconds: f64,
    pub warnings: &'a [String],
    pub geometry: Option<&'a Geometry>,
    pub outcome: Outcome<'a>,
}

pub enum Outcome<'a> {
    Soaked {
        cost: &'a Cost,
        picture: Picture<'a>,
    },
    Refused {
        refusal: Refusal,
        place: Option<&'a str>,
        state: Option<PathBuf>,
    },
    /// By Ctrl-C.
    Stopped {
        stopped: &'a Stopped,
        state: Option<PathBuf>,
    },
}

impl Report<'_> {
    /// A report of a kind; a job without a field at tau has no rows to list.
    pub fn text(&self, kind: Kind) -> Option<String> {
        match (kind, &self.outcome) {
            (Kind::Html, _) => Some(html::page(self)),
            (Kind::Json, _) => Some(json::text(self)),
            (Kind::Csv, Outcome::Soaked { picture, .. }) => Some(csv::text(picture)),
            (Kind::Csv, Outcome::Refused { .. } | Outcome::Stopped { .. }) => None,
        }
    }

    fn status(&self) -> u32 {
        match &self.outcome {
            Outcome::Refused { refusal, .. } => refusal.number,
            Outcome::Stopped { .. } => 81,
            Outcome::Soaked { picture, .. } if picture.summary.not_finite > 0 => 80,
            Outcome::Soaked { .. } => 0,
        }
    }
}

/// The words of the command as a shell takes them.
pub fn command_line() -> String {
    let words = std::env::args_os().map(|word| word.to_string_lossy().into_owned());
    let plain = |word: &str| !word.is_empty() && word.chars().all(|c| c.is_alphanumeric() || "-_./=+:,%@".contains(c));
    let quoted = |word: String| if plain(&word) { word } else { format!("'{}'", word.replace('\'', r"'\''")) };
    words.map(quoted).collect::<Vec<_>>().join(" ")
}
