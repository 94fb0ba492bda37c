//! A soak over its time: the hottest and the coldest row and the mean at each moment that is known, and one row if it is asked for.

use crate::failure::Failure;
use crate::plot;
use crate::sink::Sink;
use crate::summary::{Extreme, Summary};
use hazhendu::shortest;
use std::fmt::Write;
use std::path::{Path, PathBuf};

/// Where a series goes.
#[derive(Clone, Copy, Debug, PartialEq)]
pub enum Kind {
    Svg,
    Csv,
}

impl Kind {
    pub fn of(path: &Path) -> Option<Kind> {
        match path.extension()?.to_str()?.to_ascii_lowercase().as_str() {
            "svg" => Some(Kind::Svg),
            "csv" => Some(Kind::Csv),
            _ => None,
        }
    }
}

/// What is asked for.
#[derive(Debug, Default, PartialEq)]
pub struct Asked {
    pub files: Vec<PathBuf>,
    /// From 1.
    pub node: Option<usize>,
}

impl Asked {
    pub fn check(&self, rows: usize) -> Result<(), Failure> {
        match self.node {
            Some(node) if node > rows => Err(Failure::Usage(format!("--node {node}: the matrix has {rows} rows"))),
            _ => Ok(()),
        }
    }

    pub fn open(&self) -> Result<Sinks, Failure> {
        let open = |path: &PathBuf| Ok((Kind::of(path).unwrap_or(Kind::Csv), Sink::open(path)?));
        self.files.iter().map(open).collect::<Result<_, _>>().map(Sinks)
    }
}

/// Each tried before the run.
pub struct Sinks(Vec<(Kind, Sink)>);

impl Sinks {
    pub fn fill(&self, series: &Series, title: &str, unit: &str) -> Result<(), Failure> {
        for (kind, sink) in &self.0 {
            let text = match kind {
                Kind::Svg => plot::series(series, title, unit),
                Kind::Csv => series.csv(),
            };
            sink.fill(|to| to.write_all(text.as_bytes()))?;
        }
        Ok(())
    }
}

/// A field at its time.
pub struct Moment {
    /// In seconds, if tau is.
    pub time: f64,
    pub hottest: Option<Extreme>,
    pub coldest: Option<Extreme>,
    pub mean: Option<f64>,
    /// That of the row asked for.
    pub value: Option<f64>,
}

pub struct Series {
    pub moments: Vec<Moment>,
    /// From 1.
    pub node: Option<usize>,
    /// What a moment is: the start, then each of these.
    pub each: &'static str,
    /// What the field is: temperature or sensitivity.
    pub quantity: &'static str,
}

impl Series {
    pub fn new(node: Option<usize>, each: &'static str, quantity: &'static str) -> Self {
        Series { moments: vec![], node, each, quantity }
    }

    pub fn push(&mut self, time: f64, field: &[f64], mass: Option<&[f64]>) {
        let Summary { hottest, coldest, mean, .. } = Summary::of(field, mass);
        let value = self.node.and_then(|node| field.get(node - 1)).copied();
        self.moments.push(Moment { time, hottest, coldest, mean, value });
    }

    fn csv(&self) -> String {
        let mut text = String::from("time,hottest,hottest row,coldest,coldest row,mean");
        let _ = self.node.map_or(Ok(()), |node| write!(text, ",row {node}"));
        text.push('\n');
        let number = |x: Option<f64>| x.map_or(String::new(), shortest);
        let extreme = |x: &Option<Extreme>| x.map_or(",".into(), |Extreme { row, value }| format!("{},{}", shortest(value), row + 1));
        for moment in &self.moments {
            let _ = write!(text, "{},{},{}", shortest(moment.time), extreme(&moment.hottest), extreme(&moment.coldest));
            let _ = write!(text, ",{}", number(moment.mean));
            let _ = self.node.map_or(Ok(()), |_| write!(text, ",{}", number(moment.value)));
            text.push('\n');
        }
        text
    }
}

#[cfg(test)]
mod tests {
    use super::Series;

    #[test]
    fn a_moment_is_a_line() {
        let mut series = Series::new(Some(2), "substep", "temperature");
        series.push(0.0, &[1.0, 3.0], None);
        series.push(60.0, &[f64::NAN, f64::NAN], None);
        assert_eq!(series.csv(), "time,hottest,hottest row,coldest,coldest row,mean,row 2\n0,3,2,1,1,2,3\n60,,,,,,NaN\n");
    }
}
