//! A soak in stages told to people (HTML) and to programs (JSON, CSV).

use super::page::{self, columns, figures, refused, seconds, solver, status, summed, table, Column, Named};
use super::values::{self, list, null, number, object, string};
use super::{csv, Kind};
use crate::plot::{self, Geometry, Picture};
use crate::schedule::{self, Stage};
use crate::series::{Moment, Series};
use crate::stages::{Done, Request};
use crate::summary::{rounded, Extreme, Summary};
use hazhendu::{shortest, Cost, Refusal, StagedReport};

/// What was asked, and what came of it.
pub struct Report<'a> {
    pub request: &'a Request,
    pub title: &'a str,
    pub unit: &'a str,
    pub rows: usize,
    pub entries: usize,
    pub mass: Option<&'a [f64]>,
    pub start: &'a [f64],
    pub stages: &'a [Stage],
    /// Those that were run, one by one.
    pub done: &'a [Done],
    pub spent: StagedReport,
    pub series: &'a Series,
    pub geometry: Option<&'a Geometry>,
    /// Of all calls.
    pub seconds: f64,
    pub warnings: &'a [String],
    pub refused: Option<Refused<'a>>,
}

pub struct Refused<'a> {
    pub refusal: Refusal,
    pub place: Option<&'a str>,
    /// From 1, 0 before any.
    pub stage: usize,
    /// What was written in the place of the field after all stages.
    pub left: Option<&'a str>,
}

impl Report<'_> {
    /// A refused schedule has no rows to list.
    pub fn text(&self, kind: Kind) -> Option<String> {
        match kind {
            Kind::Html => Some(self.page()),
            Kind::Json => Some(self.json()),
            Kind::Csv => self.refused.is_none().then(|| csv::fields(&self.curves(), self.geometry)),
        }
    }

    fn status(&self) -> u32 {
        match (&self.refused, self.summary()) {
            (Some(refused), _) => refused.refusal.number,
            (None, Some(summary)) if summary.not_finite > 0 => 80,
            _ => 0,
        }
    }

    /// Of the field after the last stage that was run.
    fn summary(&self) -> Option<Summary> {
        self.done.last().map(|last| Summary::of(&last.field, self.mass))
    }

    /// The start, and the field after each stage, each with its name.
    fn curves(&self) -> Vec<(String, &[f64])> {
        schedule::curves(self.start, self.stages, self.done)
    }

    fn page(&self) -> String {
        let title = if self.refused.is_some() { format!("{}, refused", self.title) } else { self.title.to_owned() };
        let mut body = self.told();
        if let (Some(last), Some(summary)) = (self.done.last(), self.summary()) {
            let picture = self.picture(&last.field, &summary);
            let (took, field) = (self.took(), page::field(&picture));
            body += &table(summed(&picture));
            body += &figures(&self.pictures(&picture));
            body += &format!("<h2>Stage by stage</h2>\n{}<h2>What it took</h2>\n{took}", self.by_stage());
            body += &format!("<h2>The field after {}</h2>\n{field}", self.last_name());
        }
        page::whole(&title, self.warnings, &body, &self.asked())
    }

    fn told(&self) -> String {
        let Some(told) = &self.refused else {
            return match self.summary() {
                Some(summary) if summary.not_finite > 0 => status(false, &page::not_finite(&summary, self.rows)),
                _ => status(true, &format!("Soaked in {} stages.", self.stages.len())),
            };
        };
        let mut rows = refused(told.refusal, told.place);
        rows.extend(told.left.map(|left| ("what is written".into(), left.to_owned())));
        let short = match told.stage {
            0 => "Refused before any stage: there is no field.".into(),
            stage => format!("Refused at stage {stage}: there is no field after all stages."),
        };
        let rest =
            if self.done.is_empty() { String::new() } else { format!("<p>What follows is of the {} before it.</p>\n", self.counted()) };
        status(false, &short) + &table(rows) + &rest
    }

    fn counted(&self) -> String {
        match self.done.len() {
            1 => "stage".into(),
            count => format!("{count} stages"),
        }
    }

    fn last_name(&self) -> String {
        let last = self.done.len().saturating_sub(1);
        self.stages.get(last).map_or(String::new(), |stage| format!("stage {}", stage.called(last)))
    }

    fn picture<'a>(&'a self, field: &'a [f64], summary: &'a Summary) -> Picture<'a> {
        let title = format!("{}, after {}", self.title, self.last_name());
        Picture { title, quantity: "temperature", unit: self.unit, field, summary, geometry: self.geometry }
    }

    /// With places those of the last field; then all stages over the rows and over the time.
    fn pictures(&self, picture: &Picture) -> Vec<Named> {
        let mut pictures = picture.placed();
        let over_rows = Picture { title: self.title.to_owned(), geometry: None, ..*picture };
        pictures.push(("temperature over the rows, at the start and after each stage".into(), plot::curves(&over_rows, &self.curves())));
        let over_time = plot::series(self.series, self.title, self.unit);
        pictures.push(("temperature over the time, at the start and after each stage; nothing is computed between them".into(), over_time));
        pictures
    }

    fn by_stage(&self) -> String {
        let named = |name: &str| format!("{name}, {}", self.unit);
        let names = [named("hottest"), named("coldest"), named("mean")];
        let [hottest, coldest, mean] = [&names[0], &names[1], &names[2]].map(|name| (name.as_str(), Column::Number));
        let row = ("in row", Column::Number);
        let head = [("stage", Column::Words), ("until, s", Column::Number), hottest, row, coldest, row, mean];
        let after_each = self.series.moments.iter().skip(1).enumerate();
        let rows: Vec<Vec<String>> = after_each.map(|(i, moment)| cells(self.stages[i].called(i), moment)).collect();
        columns(&head, &rows)
    }

    /// A line for each stage that was run, and their sums.
    fn took(&self) -> String {
        let names = ["products with the generator", "substeps", "lengths rejected", "estimated error"];
        let head: Vec<(&str, Column)> = std::iter::once(("stage", Column::Words)).chain(names.map(|name| (name, Column::Number))).collect();
        let mut lines: Vec<Vec<String>> =
            self.done.iter().enumerate().map(|(i, done)| work(self.stages[i].called(i), &done.cost)).collect();
        let StagedReport { applications, substeps, rejected } = self.spent;
        lines.push(vec!["all".into(), applications.to_string(), substeps.to_string(), rejected.to_string(), String::new()]);
        columns(&head, &lines) + &table(vec![seconds(self.seconds)])
    }

    fn asked(&self) -> String {
        let mut rows = page::model(&self.request.files, self.rows, self.entries);
        rows.push(("start".into(), self.request.start.to_string()));
        rows.push(("schedule".into(), format!("{}, {} stages", self.request.schedule, self.stages.len())));
        let head = [("stage", Column::Words), ("tau, s", Column::Number), ("solver", Column::Words), ("vectors", Column::Words)];
        let stage = |(i, stage): (usize, &Stage)| {
            vec![stage.called(i), shortest(stage.tau), solver(&stage.solver), sources(stage).collect::<Vec<_>>().join(", ")]
        };
        let stages: Vec<Vec<String>> = self.stages.iter().enumerate().map(stage).collect();
        table(rows) + &columns(&head, &stages)
    }

    fn json(&self) -> String {
        let mut fields = values::head(self.status(), &self.request.files, self.rows, self.entries);
        fields.extend([
            ("start", string(&self.request.start.to_string())),
            ("schedule", string(&self.request.schedule.to_string())),
            ("seconds", number(self.seconds)),
            ("warnings", list(self.warnings.iter().map(|warning| string(warning)))),
            ("refusal", self.refused.as_ref().map_or(null(), refusal)),
            ("applications", self.spent.applications.to_string()),
            ("substeps", self.spent.substeps.to_string()),
            ("rejected", self.spent.rejected.to_string()),
            ("unit", string(self.unit)),
            ("stages", list(self.stages.iter().enumerate().map(|(i, stage)| object(self.stage(i, stage))))),
        ]);
        if let Some(geometry) = self.geometry {
            fields.extend(values::places(geometry));
        }
        object(fields) + "\n"
    }

    /// A stage that was not run has neither cost nor field.
    fn stage(&self, i: usize, stage: &Stage) -> Vec<values::Named> {
        let mut fields = vec![
            ("name", stage.name.as_ref().map_or(null(), |name| string(name))),
            ("tau", number(stage.tau)),
            ("vectors", list(sources(stage).map(|source| string(&source)))),
            ("solver", values::solver(&stage.solver)),
        ];
        if let (Some(done), Some(moment)) = (self.done.get(i), self.series.moments.get(i + 1)) {
            fields.extend([("until", number(moment.time)), ("cost", values::spent(&done.cost))]);
            fields.extend(values::summed(&Summary::of(&done.field, self.mass)));
            fields.push(("field", list(done.field.iter().map(|x| number(*x)))));
        }
        fields
    }
}

fn sources(stage: &Stage) -> impl Iterator<Item = String> + '_ {
    stage.vectors.iter().map(|vector| vector.source.to_string())
}

fn refusal(refused: &Refused) -> String {
    let mut fields = values::refused(refused.refusal, refused.place);
    fields.push(("stage", refused.stage.to_string()));
    fields.push(("left", refused.left.map_or(null(), string)));
    object(fields)
}

/// What a stage came to.
fn cells(name: String, moment: &Moment) -> Vec<String> {
    let extreme = |extreme: &Option<Extreme>| {
        extreme.map_or(["none is finite".into(), String::new()], |Extreme { row, value }| [rounded(value), (row + 1).to_string()])
    };
    let mut cells = vec![name, shortest(moment.time)];
    cells.extend(extreme(&moment.hottest));
    cells.extend(extreme(&moment.coldest));
    cells.push(moment.mean.map_or("none".into(), rounded));
    cells
}

fn work(name: String, cost: &Cost) -> Vec<String> {
    match cost {
        Cost::Taylor(plan) => vec![name, plan.applications.to_string(), String::new(), String::new(), String::new()],
        Cost::Krylov(report) => {
            let counts = [report.matvecs, report.substeps, report.rejected].map(|count| count.to_string());
            std::iter::once(name).chain(counts).chain([rounded(report.estimated_error)]).collect()
        }
    }
}
