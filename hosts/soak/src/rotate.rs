//! Several barrels on one unit: Krylov soaks in rotation, one substep each in turn, from a table to a folder.

use crate::arguments::{self, Drawing};
use crate::choice::Asked;
use crate::failure::Failure;
use crate::guard;
use crate::input::Source;
use crate::interrupt::Listening;
use crate::job::{cost_line, Job};
use crate::model::Files;
use crate::progress::{self, Block};
use crate::series;
use crate::sink::{self, Sink};
use crate::soak::not_finite;
use crate::summary::Summary;
use crate::table::{self, Row, Table};
use crate::warnings::{self, Heating};
use crate::{tell, tell_terminal};
use hazhendu::sizes::MAX_RUNS;
use hazhendu::{shortest, vectors, Cost, Error, Joined, KrylovOptions, Report, Soaked, Solver, Turned, Unit};
use std::fs;
use std::io;
use std::path::{Path, PathBuf};
use std::time::Instant;

const TABLE: Table = Table {
    columns: &["name", "matrix", "mass", "vectors", "tau", "tol", "m", "limit"],
    needed: &["name", "matrix", "vectors", "tau"],
    most: 1000,
    too_many: "more than 1000 barrels",
};

#[derive(Debug)]
pub struct Request {
    pub barrels: Source,
    /// The folder that gets the fields.
    pub output: PathBuf,
}

/// A line of the table.
struct Barrel {
    /// Where it stands, as FILE:LINE.
    place: String,
    name: String,
    /// As if it were soaked alone.
    alone: arguments::Request,
}

/// What became of a barrel.
struct Outcome {
    status: u8,
    report: Report,
    /// Where its field or state is.
    file: Option<PathBuf>,
}

pub fn run(request: &Request) -> Result<(), Failure> {
    let barrels = table::read(&request.barrels, &TABLE, |row| barrel(row, &request.output))?;
    named_once(&barrels)?;
    if barrels.is_empty() {
        return Err(Failure::BadFile { place: request.barrels.to_string(), wrong: "no barrel".into() });
    }
    let files = guard::Files::default().reads([&request.barrels]).reads(barrels.iter().flat_map(Barrel::sources));
    files.writes("--output", [&request.output]).check()?;
    let jobs = barrels.iter().map(Barrel::job).collect::<Result<Vec<_>, _>>()?;
    let put = jobs.iter().map(Job::flat).collect::<Result<Vec<_>, _>>()?;
    opened(&request.output)?;
    let heating: Vec<Option<Heating>> = jobs.iter().map(|job| Heating::of(&job.matrix())).collect();
    for (barrel, heating) in barrels.iter().zip(&heating) {
        heating.iter().for_each(|heating| tell(&format!("{}: {}", barrel.name, heating.warning(&barrel.matrix()))));
    }
    tell_terminal(&format!("soak: {} barrels, {MAX_RUNS} at a time", barrels.len()));
    let begun = Instant::now();
    let mut round =
        Round { barrels: &barrels, jobs: &jobs, put: &put, heating: &heating, outcomes: barrels.iter().map(|_| None).collect() };
    let stopped = round.run();
    tell_terminal(&format!("soak: {:.3} s", begun.elapsed().as_secs_f64()));
    let stopped = stopped?;
    round.table()?;
    round.status(stopped)
}

fn barrel(row: &Row, folder: &Path) -> Result<Barrel, Failure> {
    let name = row.needed("name")?;
    if name.contains('/') || name.starts_with('.') {
        return Err(row.wrong(format!("name {name:?}: a file is named by it, so no / and no . in front")));
    }
    let one = |column: &str, cell: &str| row.files(column, cell).map(|mut files| files.swap_remove(0));
    let whole = "a whole number that fits";
    let usual = KrylovOptions::default();
    let options = KrylovOptions {
        tol: row.number("tol", "a number")?.unwrap_or(usual.tol),
        m: row.number("m", whole)?.unwrap_or(usual.m),
        max_substeps: row.number("limit", whole)?.unwrap_or(usual.max_substeps),
    };
    let alone = arguments::Request {
        files: Files {
            matrix: one("matrix", row.needed("matrix")?)?,
            mass: row.cell("mass").map(|cell| one("mass", cell)).transpose()?,
            transposed: false,
        },
        vectors: row.files("vectors", row.needed("vectors")?)?,
        tau: row.number("tau", "a number")?.ok_or_else(|| row.wrong("no tau".into()))?,
        solver: Asked::Named(Solver::Krylov(options)),
        output: folder.join(format!("{name}.txt")),
        plot: None,
        reports: vec![],
        drawing: Drawing::default(),
        tightenings: vec![],
        frames: None,
        series: series::Asked::default(),
    };
    Ok(Barrel { place: row.place.to_owned(), name: name.to_owned(), alone })
}

impl Barrel {
    fn sources(&self) -> impl Iterator<Item = &Source> {
        self.alone.files.sources().chain(&self.alone.vectors)
    }

    fn job(&self) -> Result<Job<'_>, Failure> {
        Job::read(&self.alone).map_err(|failure| table::named_at(&self.place, failure))
    }

    fn matrix(&self) -> String {
        self.alone.files.matrix.to_string()
    }

    fn options(&self) -> KrylovOptions {
        match self.alone.solver {
            Asked::Named(Solver::Krylov(options)) => options,
            Asked::Named(Solver::Taylor(_)) | Asked::Auto(_) => KrylovOptions::default(),
        }
    }
}

/// A file is named by each name.
fn named_once(barrels: &[Barrel]) -> Result<(), Failure> {
    let twice = (1..barrels.len()).find(|i| barrels[..*i].iter().any(|other| other.name == barrels[*i].name));
    twice.map_or(Ok(()), |i| {
        let Barrel { place, name, .. } = &barrels[i];
        Err(Failure::BadFile { place: place.clone(), wrong: format!("a second barrel {name}") })
    })
}

/// The folder is made if it is not there, and has to be empty, so that nothing is written over.
fn opened(folder: &Path) -> Result<(), Failure> {
    let failed = |error| Failure::CannotWrite { name: folder.display().to_string(), error };
    match fs::create_dir(folder) {
        Err(error) if error.kind() == io::ErrorKind::AlreadyExists => {}
        made => return made.map_err(failed),
    }
    match fs::read_dir(folder).map_err(failed)?.next() {
        None => Sink::open(&folder.join("field.txt")).map(|_| ()),
        Some(_) => Err(failed(io::Error::new(io::ErrorKind::Other, "the folder of --output is not empty"))),
    }
}

/// All barrels, each with its job and what is put to the library.
struct Round<'a> {
    barrels: &'a [Barrel],
    jobs: &'a [Job<'a>],
    put: &'a [(usize, Vec<f64>)],
    heating: &'a [Option<Heating>],
    outcomes: Vec<Option<Outcome>>,
}

impl Round<'_> {
    /// In the order of the table they come to the unit, a further one as soon as a place is free. Whether Ctrl-C stopped it.
    fn run(&mut self) -> Result<bool, Failure> {
        let mut unit = Unit::new();
        let mut coming = 0;
        let mut block = Block::new();
        let interrupt = Listening::new();
        loop {
            while unit.len() < MAX_RUNS && coming < self.barrels.len() {
                self.join(&mut unit, coming)?;
                coming += 1;
            }
            let Some((_, &i)) = unit.next() else { return Ok(false) };
            if interrupt.heard() {
                block.clear();
                unit.barrels().try_for_each(|(_, run)| self.stop(*run.key(), run.time(), run.report(), run.field()))?;
                return Ok(true);
            }
            let ((count, w), a) = (&self.put[i], self.jobs[i].matrix());
            let turned = unit.turn(&a, self.barrels[i].alone.tau, *count, w, None);
            match turned.map_err(|error| self.jobs[i].failure(error))? {
                Turned::Waits { .. } => block.tell(|| self.progress(&unit)),
                Turned::Ended { key, soaked, .. } => {
                    block.clear();
                    self.end(key, soaked)?;
                }
            }
        }
    }

    fn join(&mut self, unit: &mut Unit<usize>, i: usize) -> Result<(), Failure> {
        let Barrel { alone, .. } = &self.barrels[i];
        let (count, w) = &self.put[i];
        match unit.join(i, &self.jobs[i].matrix(), alone.tau, *count, w, self.barrels[i].options()) {
            Ok(Joined::Waits { .. }) => Ok(()),
            Ok(Joined::Ended { key, soaked }) => self.end(key, Ok(soaked)),
            Err(error) => self.end(i, Err(error)),
        }
    }

    /// How far each of those on the unit is, a line each.
    fn progress(&self, unit: &Unit<usize>) -> Vec<String> {
        let line = |run: &hazhendu::Barrel<usize>| progress::line(run.time(), &run.report());
        unit.barrels().map(|(_, run)| format!("{}: {}", self.barrels[*run.key()].name, line(run))).collect()
    }

    /// A run that has ended, or was refused at its start: the field or the state is written at once.
    fn end(&mut self, i: usize, soaked: Result<Soaked<Report>, Error>) -> Result<(), Failure> {
        let Barrel { name, alone, .. } = &self.barrels[i];
        match soaked {
            Ok(Soaked { field, cost }) => {
                Sink::open(&alone.output)?.fill(|to| vectors::write(to, &field))?;
                tell(&format!("{name}: {}", cost_line(&Cost::Krylov(cost))));
                let summary = Summary::of(&field, self.jobs[i].weights());
                let told = not_finite(&summary, field.len(), self.heating[i].as_ref(), &self.barrels[i].matrix(), true);
                let most = warnings::reachable(alone.tau, &self.jobs[i].vectors());
                let beyond = warnings::beyond(&field, most, "K").filter(|_| told.is_none());
                beyond.iter().chain(&told).for_each(|told| tell(&format!("{name}: {told}")));
                let status = if told.is_some() { 80 } else { 0 };
                self.outcomes[i] = Some(Outcome { status, report: cost, file: Some(alone.output.clone()) });
            }
            Err(error) => {
                let failure = self.placed(i, error);
                tell(&format!("{name}: {failure}"));
                let state = match &failure {
                    Failure::Refused { refusal, state: Some(state), .. } => {
                        let what = format!("the state after the last accepted substep of a run refused by {}", refusal.number);
                        Some(self.left(i, &what, state)?)
                    }
                    _ => None,
                };
                self.outcomes[i] = Some(Outcome { status: failure.status(), report: Report::default(), file: state });
            }
        }
        Ok(())
    }

    /// A refusal with the line of the table, whose columns are called as the options are.
    fn placed(&self, i: usize, error: Error) -> Failure {
        let at = &self.barrels[i].place;
        match self.jobs[i].failure(error) {
            Failure::Refused { refusal, place, state } => {
                let place = place.map_or_else(|| at.clone(), |place| format!("{at}, {}", place.replace("--", "")));
                Failure::Refused { refusal, place: Some(place), state }
            }
            other => other,
        }
    }

    /// A comment says what it is, so that nobody takes it for the field; as a vector it reads back.
    fn left(&self, i: usize, what: &str, state: &[f64]) -> Result<PathBuf, Failure> {
        let alone = &self.barrels[i].alone;
        let path = alone.state().unwrap_or_else(|| alone.output.clone());
        Sink::open(&path)?.fill(|to| {
            writeln!(to, "# not the field at tau {}: {what}", shortest(alone.tau))?;
            vectors::write(to, state)
        })?;
        Ok(path)
    }

    fn stop(&mut self, i: usize, time: f64, report: Report, field: &[f64]) -> Result<(), Failure> {
        let what = format!("the state of a run paused at {} of it, after {} substeps", shortest(time), report.substeps);
        let path = self.left(i, &what, field)?;
        self.outcomes[i] = Some(Outcome { status: 81, report, file: Some(path) });
        Ok(())
    }

    /// A line for each barrel, in the order of the table.
    fn table(&self) -> Result<(), Failure> {
        sink::to_stdout(|to| {
            writeln!(to, "name,status,substeps,applications,rejected,estimated error,file")?;
            for (Barrel { name, .. }, outcome) in self.barrels.iter().zip(&self.outcomes) {
                let Some(Outcome { status, report, file }) = outcome else {
                    writeln!(to, "{name},81,,,,,")?;
                    continue;
                };
                let file = file.as_ref().map_or(String::new(), |file| file.display().to_string());
                let Report { substeps, matvecs, rejected, estimated_error, .. } = report;
                match status {
                    0 | 80 | 81 => writeln!(to, "{name},{status},{substeps},{matvecs},{rejected},{},{file}", shortest(*estimated_error))?,
                    _ => writeln!(to, "{name},{status},,,,,{file}")?,
                }
            }
            Ok(())
        })
    }

    /// The first barrel's that has one.
    fn status(&self, stopped: bool) -> Result<(), Failure> {
        let status_of = |outcome: &Option<Outcome>| outcome.as_ref().map_or(81, |outcome| outcome.status);
        let without = self.outcomes.iter().filter(|outcome| status_of(outcome) != 0).count();
        let first = self.outcomes.iter().map(status_of).find(|status| *status != 0);
        let by = if stopped { ", stopped by Ctrl-C" } else { "" };
        first.map_or(Ok(()), |status| {
            let told = format!("soak: {without} of {} barrels without a finite field at tau{by}", self.barrels.len());
            Err(Failure::Barrels { status, told })
        })
    }
}
