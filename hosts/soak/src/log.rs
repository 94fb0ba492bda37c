//! A soak under a changing ambient level from its files to its files.

use crate::arguments::Drawing;
use crate::failure::Failure;
use crate::guard;
use crate::input::{Source, Vector};
use crate::model::{Files, Model};
use crate::plot::{self, Curves, Geometry};
use crate::points;
use crate::progress::{lasting, percent, Paced};
use crate::records::Records;
use crate::report;
use crate::sink::Sink;
use crate::soak::not_finite;
use crate::summary::{rounded, Extreme, Summary};
use crate::warnings::{self, Heating};
use crate::{tell, tell_terminal};
use hazhendu::sizes::MAX_RECORDS;
use hazhendu::{ambient, phi_combination, shortest, taylor_plan, vectors, AmbientError, Error, Log, Logged, Refusal, TaylorOptions};
use std::collections::HashMap;
use std::io::{self, IsTerminal, Write};
use std::path::PathBuf;
use std::time::{Duration, Instant};

/// What a block of records may take before a line tells how far the run is.
const BLOCK: Duration = Duration::from_millis(50);

#[derive(Debug)]
pub struct Request {
    pub files: Files,
    pub field: Source,
    pub load: Source,
    pub records: Source,
    /// From 1.
    pub node: usize,
    pub window: usize,
    pub results: PathBuf,
    pub output: Option<PathBuf>,
    pub plot: Option<PathBuf>,
    pub reports: Vec<PathBuf>,
    pub drawing: Drawing,
}

impl Request {
    pub fn guarded(&self) -> guard::Files<'_> {
        let drawn = self.drawing.points.iter().chain(&self.drawing.outline);
        let files = guard::Files::default().reads(self.files.sources()).reads([&self.field, &self.load, &self.records]).reads(drawn);
        files
            .writes("--results", [&self.results])
            .writes("--output", &self.output)
            .writes("--plot", &self.plot)
            .writes("--report", &self.reports)
    }

    /// The field is drawn on the pages of reports alone, and the unit is in the lines too.
    pub fn drawn(&self) -> Result<(), Failure> {
        let Drawing { points, outline, title, .. } = &self.drawing;
        let usage = |text: &str| Err(Failure::Usage(text.into()));
        match self.reports.is_empty() {
            true if points.is_some() || outline.is_some() => usage("--points and --outline are for --report"),
            true if title.is_some() && self.plot.is_none() => usage("--title is for --plot and --report"),
            _ if outline.is_some() && points.is_none() => usage("--outline is for --points"),
            _ => Ok(()),
        }
    }

    fn unit(&self) -> &str {
        self.drawing.unit.as_deref().unwrap_or("K")
    }
}

/// How a run ended: records from 1, 0 before any.
#[derive(Clone, Copy)]
enum End {
    Done,
    NotANumber(usize),
    Refused(Refusal, usize),
}

/// The results of the records that have one, and the field that is left.
struct Ran {
    temperatures: Vec<f64>,
    largest: Vec<f64>,
    smallest: Vec<f64>,
    field: Option<Vec<f64>>,
    end: End,
}

pub fn run(request: &Request) -> Result<(), Failure> {
    let job = Job::read(request)?;
    let sinks = Sinks::open(request)?;
    job.warnings().iter().for_each(|warning| tell(warning));
    let matrix = job.model.matrix();
    tell_terminal(&format!("soak: rows {}, entries {}, records {}", matrix.n, matrix.entries.len(), job.records.count));
    let begun = Instant::now();
    // The library refuses a log of any other length before all records.
    let counted = (1..=MAX_RECORDS).contains(&job.records.count);
    let ran = if counted && io::stderr().is_terminal() { job.in_blocks()? } else { job.in_one_call()? };
    let seconds = begun.elapsed().as_secs_f64();
    tell_terminal(&format!("soak: {seconds:.3} s"));
    job.write(&sinks, &ran)?;
    let ended = job.ended(&ran);
    job.report(&sinks, &ran, &ended, seconds)?;
    ended
}

/// Where a log is written, each tried before the run.
struct Sinks {
    results: Sink,
    output: Option<Sink>,
    plot: Option<Sink>,
    reports: report::Sinks,
}

impl Sinks {
    fn open(request: &Request) -> Result<Self, Failure> {
        Ok(Sinks {
            results: Sink::open(&request.results)?,
            output: request.output.as_deref().map(Sink::open).transpose()?,
            plot: request.plot.as_deref().map(Sink::open).transpose()?,
            reports: report::Sinks::open(&request.reports)?,
        })
    }
}

struct Job<'a> {
    request: &'a Request,
    model: Model<'a>,
    field: Vector,
    load: Vector,
    records: Records,
    geometry: Option<Geometry>,
    heating: Option<Heating>,
}

impl<'a> Job<'a> {
    fn read(request: &'a Request) -> Result<Self, Failure> {
        let model = Model::read(&request.files)?;
        let (field, load) = (request.field.vector()?, request.load.vector()?);
        let records = Records::read(&request.records)?;
        let geometry = points::of(&request.drawing, model.matrix().n, &request.files.matrix)?;
        let heating = Heating::of(&model.matrix());
        Ok(Job { request, model, field, load, records, geometry, heating })
    }

    /// The largest size that conduction can give after all records.
    fn most(&self) -> f64 {
        let (Log { durations, levels }, load) = (self.records.log(), warnings::largest(&self.load.numbers));
        let added: f64 = durations.iter().zip(levels).map(|(duration, level)| warnings::added(*duration, &[&[load * level]])).sum();
        warnings::largest(&self.field.numbers) + added
    }

    /// Of a log that has all its results.
    fn beyond(&self, ran: &Ran) -> Option<String> {
        let field = ran.field.as_ref().filter(|field| matches!(ran.end, End::Done) && field.iter().all(|x| x.is_finite()))?;
        warnings::beyond(field, self.most(), self.request.unit())
    }

    fn warnings(&self) -> Vec<String> {
        self.heating.iter().map(|heating| heating.warning(&self.request.files.matrix.to_string())).collect()
    }

    fn node(&self) -> usize {
        self.request.node - 1
    }

    fn called(&self, log: &Log, field: &[f64]) -> Result<Ran, Failure> {
        match ambient(&self.model.matrix(), log, field, &self.load.numbers, self.request.window, self.node()) {
            Ok(Logged { field, temperatures, largest, smallest, not_a_number }) => {
                Ok(Ran { temperatures, largest, smallest, field: Some(field), end: not_a_number.map_or(End::Done, End::NotANumber) })
            }
            Err(AmbientError::OutOfMemory { doubles }) => Err(Failure::OutOfMemory { doubles }),
            Err(AmbientError::Refused { refusal, record, temperatures, largest, smallest, field }) => {
                Ok(Ran { temperatures, largest, smallest, field, end: End::Refused(refusal, record as usize) })
            }
        }
    }

    /// The library's own call.
    fn in_one_call(&self) -> Result<Ran, Failure> {
        self.called(&self.records.log(), &self.field.numbers)
    }

    /// Some records at a time, to the same bits, with a line about how far it is: the field of a block is the next one's. The library's
    /// windows begin anew in each block, so that the extremes are taken of all temperatures here.
    fn in_blocks(&self) -> Result<Ran, Failure> {
        let mut line = Paced::new();
        let mut ran = Ran { temperatures: vec![], largest: vec![], smallest: vec![], field: None, end: End::Done };
        let (mut done, mut length) = (0, 1);
        while done < self.records.count && matches!(ran.end, End::Done) {
            let to = self.records.count.min(done + length);
            let begun = Instant::now();
            let text = |gone| format!("{}; record {} for {}", self.line(&ran.temperatures), done + 1, lasting(gone));
            let block = line.during(text, || self.block(done, to, ran.field.as_deref()))?;
            length = if begun.elapsed() < BLOCK { length * 2 } else { (length / 2).max(1) };
            ran.temperatures.extend(block.temperatures);
            ran.field = block.field.or(ran.field);
            ran.end = match block.end {
                End::Done => End::Done,
                End::NotANumber(record) => End::NotANumber(done + record),
                End::Refused(refusal, 0) => End::Refused(refusal, 0),
                End::Refused(refusal, record) => End::Refused(refusal, done + record),
            };
            done = to;
            line.tell(done == self.records.count, || self.line(&ran.temperatures));
        }
        let window = self.request.window;
        ran.largest = extremes(&ran.temperatures, window, |a, b| b > a);
        ran.smallest = extremes(&ran.temperatures, window, |a, b| b < a);
        Ok(ran)
    }

    /// Records from one on, up to another. A field that is not finite the library refuses before all records of a call, and of a record behind
    /// its duration: the single call says which of the two it is.
    fn block(&self, from: usize, to: usize, field: Option<&[f64]>) -> Result<Ran, Failure> {
        let log = self.records.part(from, to);
        match field {
            Some(field) if field.iter().any(|x| !x.is_finite()) => {
                let w: Vec<f64> = field.iter().copied().chain(self.load.numbers.iter().map(|x| x * log.levels[0])).collect();
                match phi_combination(&self.model.matrix(), log.durations[0], 2, &w, TaylorOptions::default()) {
                    Err(Error::Refused { refusal, .. }) => {
                        Ok(Ran { temperatures: vec![], largest: vec![], smallest: vec![], field: None, end: End::Refused(refusal, 1) })
                    }
                    Err(Error::OutOfMemory { doubles }) => Err(Failure::OutOfMemory { doubles }),
                    Ok(_) => self.called(&log, field),
                }
            }
            _ => self.called(&log, field.unwrap_or(&self.field.numbers)),
        }
    }

    fn line(&self, temperatures: &[f64]) -> String {
        let (done, of) = (temperatures.len(), self.records.count);
        let last = temperatures.last().map_or(String::new(), |x| format!(", temperature {} {}", rounded(*x), self.request.unit()));
        format!("record {done} of {of}, {} %{last}", percent(done as f64 / of as f64))
    }

    /// What is said of a log that has not all its results.
    fn unfinished(&self, ran: &Ran) -> Option<String> {
        match ran.end {
            End::Done => None,
            End::NotANumber(record) => {
                Some(format!("after record {record} ({}) the temperature is not a number", self.records.place(record - 1)))
            }
            End::Refused(refusal, 0) => Some(format!("it is refused by {}", refusal.number)),
            End::Refused(refusal, record) => {
                Some(format!("record {record} ({}) is refused by {}", self.records.place(record - 1), refusal.number))
            }
        }
    }

    /// What there is, and that it is not all where it is not.
    fn write(&self, sinks: &Sinks, ran: &Ran) -> Result<(), Failure> {
        let unfinished = self.unfinished(ran);
        if !ran.temperatures.is_empty() || matches!(ran.end, End::NotANumber(_)) {
            sinks.results.fill(|to| self.write_results(to, ran, unfinished.as_deref()))?;
            if let Some(plot) = &sinks.plot {
                plot.fill(|to| to.write_all(plot::log(&self.curves(ran)).as_bytes()))?;
            }
        }
        if let (Some(output), Some(field)) = (&sinks.output, &ran.field) {
            output.fill(|to| {
                unfinished.iter().try_for_each(|told| writeln!(to, "# not the field after the whole log: {}", told))?;
                vectors::write(to, field)
            })?;
        }
        if let Some(told) = unfinished.filter(|_| ran.field.is_some()) {
            tell(&format!("soak: what is written is not the whole log: {told}"));
        }
        Ok(())
    }

    /// A line for each record that has a result; a comment before them if some have none.
    fn write_results(&self, to: &mut dyn Write, ran: &Ran, unfinished: Option<&str>) -> io::Result<()> {
        if let Some(told) = unfinished {
            writeln!(to, "# not the whole log: {told}")?;
        }
        writeln!(to, "duration,level,temperature,largest,smallest")?;
        let Log { durations, levels } = self.records.log();
        for i in 0..ran.temperatures.len() {
            let numbers = [durations[i], levels[i], ran.temperatures[i], ran.largest[i], ran.smallest[i]];
            writeln!(to, "{}", numbers.map(shortest).join(","))?;
        }
        Ok(())
    }

    /// The records that have a result, as they are drawn.
    fn curves<'b>(&'b self, ran: &'b Ran) -> Curves<'b> {
        let Log { durations, levels } = self.records.part(0, ran.temperatures.len());
        let usual =
            || format!("{}, {}, row {}", self.request.files.matrix.short_name(), self.request.records.short_name(), self.request.node);
        Curves {
            title: self.request.drawing.title.clone().unwrap_or_else(usual),
            unfinished: self.unfinished(ran).map(|told| format!("not the whole log: {told}")),
            unit: self.request.unit(),
            row: self.request.node,
            window: self.request.window,
            start: self.field.numbers.get(self.node()).copied().unwrap_or(f64::NAN),
            durations,
            levels,
            temperatures: &ran.temperatures,
            largest: &ran.largest,
            smallest: &ran.smallest,
        }
    }

    /// The line about the work done, or why it is not done.
    fn ended(&self, ran: &Ran) -> Result<(), Failure> {
        let matrix = self.request.files.matrix.to_string();
        match ran.end {
            End::Refused(refusal, record) => Err(Failure::RefusedRecord { refusal, place: self.place(refusal, record, ran), record }),
            End::NotANumber(record) => Err(Failure::NotANumber(self.not_a_number(record))),
            End::Done => {
                self.beyond(ran).iter().for_each(|warning| tell(warning));
                tell(&self.told(&ran.temperatures));
                let Some(field) = &ran.field else { return Ok(()) };
                let summary = Summary::of(field, self.model.mass());
                tell_terminal(&format!("soak: {}", summary.line("temperature", self.request.unit())));
                let told = not_finite(&summary, field.len(), self.heating.as_ref(), &matrix, self.request.output.is_some());
                told.map_or(Ok(()), |told| Err(Failure::NotFinite(told)))
            }
        }
    }

    fn report(&self, sinks: &Sinks, ran: &Ran, ended: &Result<(), Failure>, seconds: f64) -> Result<(), Failure> {
        if self.request.reports.is_empty() {
            return Ok(());
        }
        let mut warnings: Vec<String> = self.warnings().into_iter().chain(self.beyond(ran)).collect();
        let end = match ended {
            Err(Failure::RefusedRecord { refusal, place, record }) => {
                report::log::End::Refused { refusal: *refusal, place: place.as_deref(), record: *record }
            }
            _ => match ran.end {
                End::NotANumber(record) => report::log::End::NotANumber(record),
                _ => report::log::End::Done,
            },
        };
        warnings.extend(ended.as_ref().err().filter(|_| !matches!(end, report::log::End::Refused { .. })).map(ToString::to_string));
        let report = report::log::Report {
            request: self.request,
            rows: self.model.matrix().n,
            entries: self.model.matrix().entries.len(),
            mass: self.model.mass(),
            records: self.records.count,
            curves: self.curves(ran),
            field: ran.field.as_deref(),
            applications: self.applications(ran.temperatures.len()),
            geometry: self.geometry.as_ref(),
            seconds,
            warnings: &warnings,
            end,
        };
        sinks.reports.fill(|kind| report.text(kind))
    }

    /// What the first records took: the plan of each is what its run makes. Records of one duration have one plan.
    fn applications(&self, records: usize) -> Option<u64> {
        let matrix = self.model.matrix();
        let mut plans: HashMap<u64, u64> = HashMap::new();
        self.records.part(0, records).durations.iter().try_fold(0, |sum, duration| {
            let made = match plans.get(&duration.to_bits()) {
                Some(made) => *made,
                None => taylor_plan(&matrix, *duration, TaylorOptions::default()).ok()?.applications,
            };
            plans.insert(duration.to_bits(), made);
            Some(sum + made)
        })
    }

    fn told(&self, temperatures: &[f64]) -> String {
        let unit = self.request.unit();
        let Summary { hottest, coldest, .. } = Summary::of(temperatures, None);
        let extreme = |name: &str, extreme: Option<Extreme>| match extreme {
            Some(Extreme { row, value }) => format!("{name} {} {unit} after record {}", rounded(value), row + 1),
            None => format!("no {name} that is finite"),
        };
        let last = temperatures.last().map_or("none".into(), |x| rounded(*x));
        let (largest, smallest) = (extreme("largest", hottest), extreme("smallest", coldest));
        let records = if temperatures.len() == 1 { "1 record".into() } else { format!("{} records", temperatures.len()) };
        format!("log: {records}, row {}: {last} {unit} at the end, {largest}, {smallest}", self.request.node)
    }

    fn not_a_number(&self, record: usize) -> String {
        let (i, matrix) = (record - 1, self.request.files.matrix.to_string());
        let change = match &self.heating {
            Some(heating) => format!("{}; {}", heating.told(&matrix), heating.change()),
            None => "the units of matrix, mass, durations, levels and load: the numbers grow too large on the way".into(),
        };
        format!(
            "soak: not a number: the temperature of row {} after record {record}; it and later records have no result\n  where: {}, {}\n  \
             what to change: {change}",
            self.request.node,
            self.records.place(i),
            self.numbers(i)
        )
    }

    fn numbers(&self, i: usize) -> String {
        let Log { durations, levels } = self.records.log();
        format!("duration {}, level {}", shortest(durations[i]), shortest(levels[i]))
    }

    /// Where a refusal has its cause.
    fn place(&self, refusal: Refusal, record: usize, ran: &Ran) -> Option<String> {
        let n = self.model.matrix().n;
        let Some(i) = record.checked_sub(1) else {
            return match refusal.number {
                16 => [&self.field, &self.load].into_iter().find(|vector| vector.numbers.len() != n).map(|v| self.model.length_told(v)),
                17 => [&self.field, &self.load].into_iter().find_map(|vector| vector.first(|x| !x.is_finite())),
                38 if self.request.node > n => Some(format!("--node {}, {} has {n} rows", self.request.node, self.request.files.matrix)),
                38 => Some(format!("--window {}", self.request.window)),
                39 => Some(format!("{} has {} records", self.request.records, self.records.count)),
                _ => self.model.place(refusal),
            };
        };
        let at = self.records.place(i);
        let Log { durations, levels } = self.records.log();
        let before = ran.field.as_deref().unwrap_or(&self.field.numbers);
        Some(match refusal.number {
            14 => format!("{at}, duration {}", shortest(durations[i])),
            17 => match before.iter().position(|x| !x.is_finite()) {
                Some(row) => format!("{at}, row {} of the field before it", row + 1),
                None => {
                    let row = self.load.numbers.iter().position(|x| !(x * levels[i]).is_finite()).map_or(0, |row| row + 1);
                    format!("{at}, level {} times row {row} of {}", shortest(levels[i]), self.load.source)
                }
            },
            24 | 25 => format!("{at}, duration {}, {}", shortest(durations[i]), self.request.files.matrix),
            _ => format!("{at}, {}", self.numbers(i)),
        })
    }
}

/// The extreme among the last W numbers at each place, fewer at the start; 0 is +0. None is NaN.
fn extremes(numbers: &[f64], window: usize, beyond: fn(f64, f64) -> bool) -> Vec<f64> {
    let of = |i: usize| {
        let last = &numbers[(i + 1).saturating_sub(window)..=i];
        let kept = last.iter().copied().reduce(|a, b| if beyond(a, b) { b } else { a }).unwrap_or_default();
        // -0 + 0 is +0.
        kept + 0.0
    };
    (0..numbers.len()).map(of).collect()
}

#[cfg(test)]
mod tests {
    use super::extremes;
    use hazhendu::{ambient, Log, Matrix};

    /// The library's own, of a body that keeps what it is given.
    #[test]
    fn extremes_are_the_librarys() {
        let bare = Matrix::new(1, &[0, 0], &[], &[]);
        let levels: Vec<f64> = (0..200).map(|i| if i % 7 < 3 { -0.0 } else { f64::from(i * i % 23) - 11.0 }).collect();
        let durations = vec![1.0; levels.len()];
        for (start, window) in [(-0.0, 1), (0.0, 2), (-3.0, 7), (5.0, 64), (-0.0, 1024)] {
            let logged = ambient(&bare, &Log { durations: &durations, levels: &levels }, &[start], &[1.0], window, 0).unwrap();
            let bits = |list: &[f64]| list.iter().map(|x| x.to_bits()).collect::<Vec<u64>>();
            assert_eq!(bits(&extremes(&logged.temperatures, window, |a, b| b > a)), bits(&logged.largest));
            assert_eq!(bits(&extremes(&logged.temperatures, window, |a, b| b < a)), bits(&logged.smallest));
            assert!(logged.smallest.iter().any(|x| x.to_bits() == 0) || window > 2);
        }
    }
}
