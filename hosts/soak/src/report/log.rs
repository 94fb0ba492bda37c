//! A soak under a changing level told to people (HTML) and to programs (JSON, CSV).

use super::page::{self, figures, folded, seconds, status, table, Column, Named, LISTED};
use super::values::{self, list, null, number, object, string};
use super::Kind;
use crate::log::Request;
use crate::plot::{self, Curves, Geometry, Picture};
use crate::summary::{rounded, Extreme, Summary};
use hazhendu::{shortest, Refusal};

/// What was asked, and what came of it.
pub struct Report<'a> {
    pub request: &'a Request,
    pub rows: usize,
    pub entries: usize,
    pub mass: Option<&'a [f64]>,
    /// The records of the file.
    pub records: usize,
    /// Those that have a result.
    pub curves: Curves<'a>,
    /// After the last of them.
    pub field: Option<&'a [f64]>,
    /// By the plans of those that have a result.
    pub applications: Option<u64>,
    pub geometry: Option<&'a Geometry>,
    /// Of the calls.
    pub seconds: f64,
    pub warnings: &'a [String],
    pub end: End<'a>,
}

pub enum End<'a> {
    Done,
    /// After this record, from 1.
    NotANumber(usize),
    /// The record from 1, 0 before any.
    Refused {
        refusal: Refusal,
        place: Option<&'a str>,
        record: usize,
    },
}

impl Report<'_> {
    /// A log without all its results has no list.
    pub fn text(&self, kind: Kind) -> Option<String> {
        match kind {
            Kind::Html => Some(self.page()),
            Kind::Json => Some(self.json()),
            Kind::Csv => matches!(self.end, End::Done).then(|| self.csv()),
        }
    }

    fn status(&self) -> u32 {
        match (&self.end, self.summary()) {
            (End::Refused { refusal, .. }, _) => refusal.number,
            (End::NotANumber(_), _) => 82,
            (End::Done, Some(summary)) if summary.not_finite > 0 => 80,
            (End::Done, _) => 0,
        }
    }

    fn summary(&self) -> Option<Summary> {
        self.field.map(|field| Summary::of(field, self.mass))
    }

    fn page(&self) -> String {
        let mut body = self.told();
        if !self.curves.temperatures.is_empty() {
            body += &table(self.node());
            body += &figures(&[(self.caption(), plot::log(&self.curves))]);
            body += &format!("<h2>What it took</h2>\n{}<h2>The records</h2>\n{}", table(self.took()), self.listed());
        }
        if let (Some(field), Some(summary)) = (self.field, self.summary()) {
            let title = format!("{}, {}", self.curves.title, self.when());
            let picture =
                Picture { title, quantity: "temperature", unit: self.curves.unit, field, summary: &summary, geometry: self.geometry };
            body += &format!("<h2>The field {}</h2>\n{}", self.when(), table(page::summed(&picture)));
            body += &figures(&picture.all());
            body += &page::field(&picture);
        }
        page::whole(&self.title(), self.warnings, &body, &table(self.asked()))
    }

    fn title(&self) -> String {
        match self.end {
            End::Done => self.curves.title.clone(),
            End::NotANumber(_) => format!("{}, not a number", self.curves.title),
            End::Refused { .. } => format!("{}, refused", self.curves.title),
        }
    }

    fn told(&self) -> String {
        let rest = match self.curves.temperatures.len() {
            0 => String::new(),
            1 => "<p>What follows is of the record before it.</p>\n".into(),
            count => format!("<p>What follows is of the {count} records before it.</p>\n"),
        };
        match &self.end {
            End::Done if self.status() == 0 => status(true, &format!("Soaked through {}.", counted(self.records))),
            End::Done => self.summary().map_or(String::new(), |summary| status(false, &page::not_finite(&summary, self.rows))),
            End::NotANumber(record) => status(false, &format!("Not a number after record {record} of {}.", self.records)) + &rest,
            End::Refused { refusal, place, record } => {
                let short = match record {
                    0 => "Refused before any record: there is no result.".into(),
                    record => format!("Refused at record {record} of {}.", self.records),
                };
                status(false, &short) + &table(page::refused(*refusal, *place)) + &rest
            }
        }
    }

    /// When the field is.
    fn when(&self) -> String {
        match (&self.end, self.curves.temperatures.len()) {
            (End::NotANumber(record), _) => format!("after record {record}"),
            (_, 0) => "at the start".into(),
            (_, count) => format!("after record {count}"),
        }
    }

    /// The temperature that is shown.
    fn node(&self) -> Vec<Named> {
        let Curves { temperatures, unit, row, .. } = &self.curves;
        let Summary { hottest, coldest, .. } = Summary::of(temperatures, None);
        let extreme = |extreme: Option<Extreme>| {
            extreme.map_or("none is finite".into(), |Extreme { row, value }| format!("{} {unit}, after record {}", rounded(value), row + 1))
        };
        let last = temperatures.last().map_or("none".into(), |x| format!("{} {unit}", rounded(*x)));
        vec![
            (format!("row {row}, after record {}", temperatures.len()), last),
            ("its largest after a record".into(), extreme(hottest)),
            ("its smallest".into(), extreme(coldest)),
        ]
    }

    fn caption(&self) -> String {
        let Curves { row, window, .. } = self.curves;
        let band = if window > 1 { format!(", the band of the last {window} records") } else { String::new() };
        format!("temperature of row {row} over the time{band}, and the level")
    }

    fn took(&self) -> Vec<Named> {
        let mut rows = vec![("records".into(), self.curves.temperatures.len().to_string())];
        rows.extend(self.applications.map(|applications| ("products with the generator, by the plans".into(), applications.to_string())));
        rows.push(seconds(self.seconds));
        rows
    }

    /// Of each record with a result: its end, and what is shown.
    fn results(&self) -> impl Iterator<Item = [f64; 6]> + '_ {
        let Curves { durations, levels, temperatures, largest, smallest, .. } = &self.curves;
        let mut time = 0.0;
        (0..temperatures.len()).map(move |i| {
            time += durations[i];
            [time, durations[i], levels[i], temperatures[i], largest[i], smallest[i]]
        })
    }

    fn listed(&self) -> String {
        let count = self.curves.temperatures.len();
        if count > LISTED {
            return format!("<p>{count} records: --results or a report as JSON or CSV lists them.</p>\n");
        }
        let temperature = format!("temperature, {}", self.curves.unit);
        let names = ["record", "until, s", "duration, s", "level", &temperature, "largest", "smallest"];
        let line = |(i, numbers): (usize, [f64; 6])| std::iter::once((i + 1).to_string()).chain(numbers.map(shortest)).collect();
        let lines: Vec<Vec<String>> = self.results().enumerate().map(line).collect();
        folded(&counted(count), &names.map(|name| (name, Column::Number)), &lines)
    }

    fn asked(&self) -> Vec<Named> {
        let request = self.request;
        let mut rows = page::model(&request.files, self.rows, self.entries);
        rows.extend([
            ("field at the start".into(), request.field.to_string()),
            ("load".into(), request.load.to_string()),
            ("records".into(), format!("{}, {}", request.records, counted(self.records))),
            ("row shown".into(), request.node.to_string()),
            ("window".into(), counted(request.window)),
        ]);
        rows
    }

    fn csv(&self) -> String {
        let line = |(i, numbers): (usize, [f64; 6])| format!("{},{}\n", i + 1, numbers.map(shortest).join(","));
        let lines: String = self.results().enumerate().map(line).collect();
        format!("record,until,duration,level,temperature,largest,smallest\n{lines}")
    }

    fn json(&self) -> String {
        let request = self.request;
        let mut fields = values::head(self.status(), &request.files, self.rows, self.entries);
        let file = |source: &dyn ToString| string(&source.to_string());
        fields.extend([
            ("start", file(&request.field)),
            ("load", file(&request.load)),
            ("records_file", file(&request.records)),
            ("node", request.node.to_string()),
            ("window", request.window.to_string()),
            ("seconds", number(self.seconds)),
            ("warnings", list(self.warnings.iter().map(|warning| string(warning)))),
        ]);
        fields.extend(self.ended());
        fields.push(("unit", string(self.curves.unit)));
        fields.extend(self.lists());
        if let (Some(field), Some(summary)) = (self.field, self.summary()) {
            fields.extend(values::summed(&summary));
            fields.push(("field", list(field.iter().map(|x| number(*x)))));
        }
        fields.extend(self.geometry.iter().flat_map(|geometry| values::places(geometry)));
        object(fields) + "\n"
    }

    fn ended(&self) -> [values::Named; 3] {
        let (refusal, not_a_number) = match &self.end {
            End::Done => (null(), null()),
            End::NotANumber(record) => (null(), record.to_string()),
            End::Refused { refusal, place, record } => {
                let mut fields = values::refused(*refusal, *place);
                fields.push(("record", record.to_string()));
                (object(fields), null())
            }
        };
        [
            ("refusal", refusal),
            ("not_a_number_after", not_a_number),
            ("applications", self.applications.map_or(null(), |applications| applications.to_string())),
        ]
    }

    /// A list for each column.
    fn lists(&self) -> Vec<values::Named> {
        let names = ["until", "durations", "levels", "temperatures", "largest", "smallest"];
        let column = |(k, name)| (name, list(self.results().map(move |numbers| number(numbers[k]))));
        names.into_iter().enumerate().map(column).collect()
    }
}

fn counted(records: usize) -> String {
    if records == 1 {
        "1 record".into()
    } else {
        format!("{records} records")
    }
}
