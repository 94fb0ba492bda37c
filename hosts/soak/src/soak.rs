//! A soak from its files to its files.

use crate::ahead::Ahead;
use crate::arguments::Request;
use crate::choice::{self, Taken};
use crate::failure::Failure;
use crate::frames::Frames;
use crate::job::{cost_line, Job};
use crate::plot::{Geometry, Picture};
use crate::points;
use crate::progress::{percent, Line};
use crate::report::{self, Outcome, Report};
use crate::series::{self, Series};
use crate::sink::{is_standard_output, Sink};
use crate::steps::{self, Stopped};
use crate::summary::Summary;
use crate::warnings::{self, Heating};
use crate::{tell, tell_terminal};
use hazhendu::{shortest, vectors, Cost, Matrix, Soaked, Solver};
use std::io::{self, IsTerminal};
use std::path::PathBuf;
use std::time::Instant;

pub fn run(request: &Request) -> Result<(), Failure> {
    let job = Job::read(request)?;
    let geometry = points::of(&request.drawing, job.matrix().n, &request.files.matrix)?;
    request.frames.as_ref().map_or(Ok(()), Frames::open)?;
    let sinks = Sinks::open(request)?;
    let heating = Heating::of(&job.matrix());
    let mut warnings: Vec<String> = heating.iter().map(|heating| heating.warning(&request.files.matrix.to_string())).collect();
    request.series.check(job.matrix().n)?;
    let taken = Taken::of(request.solver, &job, request.tau)?;
    if let Solver::Krylov(options) = taken.solver {
        warnings.extend(job.norm().and_then(|norm| warnings::below_round_off(options.tol, request.tau, norm)));
    }
    let series = Series::new(request.series.node, "substep", quantity(request));
    let mut run = Run { request, job, taken, geometry, sinks, heating, warnings, series, seconds: 0.0 };
    run.warnings.iter().for_each(|warning| tell(warning));
    let soaked = run.soak();
    tell_terminal(&format!("soak: {:.3} s", run.seconds));
    match soaked {
        Ok(soaked) => run.finish(&soaked),
        Err(failure) => run.refused(failure),
    }
}

/// A soak, its call made.
struct Run<'a> {
    request: &'a Request,
    job: Job<'a>,
    taken: Taken,
    geometry: Option<Geometry>,
    sinks: Sinks,
    heating: Option<Heating>,
    warnings: Vec<String>,
    series: Series,
    /// Of the calls, all tries together.
    seconds: f64,
}

impl Run<'_> {
    /// By the solver that is taken; one that was chosen is followed by the next on 28.
    fn soak(&mut self) -> Result<Soaked<Cost>, Failure> {
        loop {
            self.taken.told.last().iter().for_each(|line| tell(line));
            let ahead = self.ahead();
            let planned = ahead.as_ref().map_or(String::new(), |ahead| format!(", {} applications", ahead.plan.applications));
            tell_terminal(&format!("soak: {}, solver {}{planned}", self.job.size(), choice::name(self.taken.solver)));
            let begun = Instant::now();
            let soaked = self.attempt(ahead);
            self.seconds += begun.elapsed().as_secs_f64();
            match soaked {
                Err(Failure::Refused { refusal, .. }) if refusal.number == 28 && self.taken.after_28() => {}
                soaked => return soaked,
            }
        }
    }

    /// On a terminal, what a Taylor soak is going to take: it tells nothing until its end.
    fn ahead(&self) -> Option<Ahead> {
        match self.taken.solver {
            Solver::Taylor(options) if io::stderr().is_terminal() => Ahead::of(&self.job, self.request.tau, options),
            _ => None,
        }
    }

    fn attempt(&mut self, ahead: Option<Ahead>) -> Result<Soaked<Cost>, Failure> {
        let mut series = Series::new(self.request.series.node, "substep", quantity(self.request));
        let Some(options) = steps::options(self.request, self.taken.solver) else {
            self.series = series;
            let whole = || self.job.soak(self.taken.solver);
            return ahead.map_or_else(whole, |ahead| Line::new().during(|gone| ahead.line(gone), whole));
        };
        let soaked = steps::soak(&self.job, self.request, options, |field, time, substeps| {
            series.push(time * self.request.tau, field, self.job.weights());
            self.frame(field, time, substeps)
        });
        self.series = series;
        soaked
    }

    /// The field is written whatever it holds; that it is not finite has a status of its own.
    fn finish(mut self, soaked: &Soaked<Cost>) -> Result<(), Failure> {
        let field = &soaked.field;
        self.sinks.output.fill(|to| vectors::write(to, field))?;
        let summary = Summary::of(field, self.job.weights());
        let unit = unit(self.request);
        let not_finite = not_finite(&summary, field.len(), self.heating.as_ref(), &self.request.files.matrix.to_string(), true);
        let beyond = warnings::beyond(field, warnings::reachable(self.request.tau, &self.job.vectors()), unit)
            .filter(|_| not_finite.is_none() && !self.request.files.transposed);
        beyond.iter().for_each(|warning| tell(warning));
        self.warnings.extend(beyond.into_iter().chain(not_finite.clone()));
        if let Some(plot) = &self.sinks.plot {
            plot.fill(|to| to.write_all(self.picture(field, &summary).main().as_bytes()))?;
        }
        self.sinks.series.fill(&self.series, &self.title(), unit)?;
        self.report(Outcome::Soaked { cost: &soaked.cost, picture: self.picture(field, &summary) })?;
        tell(&cost_line(&soaked.cost));
        tell_terminal(&format!("soak: {}", summary.line(quantity(self.request), unit)));
        not_finite.map_or(Ok(()), |told| Err(Failure::NotFinite(told)))
    }

    fn refused(self, failure: Failure) -> Result<(), Failure> {
        match &failure {
            Failure::Refused { refusal, place, state } => {
                let told = format!("the state after the last accepted substep of a run refused by {}", refusal.number);
                let kept = state.as_ref().map(|state| self.keep_state(&told, state)).transpose()?.flatten();
                self.report(Outcome::Refused { refusal: *refusal, place: place.as_deref(), state: kept })?;
            }
            Failure::Stopped(stopped) => {
                let Stopped { time, report, field, .. } = stopped;
                let told = format!("the state of a run paused at {} of it, after {} substeps", shortest(*time), report.substeps);
                let kept = self.keep_state(&told, field)?;
                self.report(Outcome::Stopped { stopped, state: kept })?;
            }
            _ => {}
        }
        Err(failure)
    }

    /// A comment says what it is, so that nobody takes it for the field; as a vector it reads back. Where it is.
    fn keep_state(&self, told: &str, state: &[f64]) -> Result<Option<PathBuf>, Failure> {
        let (Some(sink), Some(place)) = (&self.sinks.state, self.request.state()) else { return Ok(None) };
        sink.fill(|to| {
            writeln!(to, "# not the field at tau {}: {told}", shortest(self.request.tau))?;
            vectors::write(to, state)
        })?;
        let told = if is_standard_output(&place) { "above".into() } else { format!("in {}", place.display()) };
        tell(&format!("soak: the state after the last accepted substep, at an earlier time than tau, is {told}"));
        Ok(Some(place))
    }

    fn frame(&self, field: &[f64], time: f64, substeps: usize) -> Result<(), Failure> {
        let Some(frames) = self.request.frames.as_ref().filter(|frames| frames.is_due(substeps)) else { return Ok(()) };
        let picture = self.request.plot.as_ref().map(|_| {
            let summary = Summary::of(field, self.job.weights());
            let picture = self.picture(field, &summary);
            Picture { title: format!("{}, at {} % of tau", picture.title, percent(time)), ..picture }.main()
        });
        frames.write(substeps, time, self.request.tau, field, picture)
    }

    fn picture<'a>(&'a self, field: &'a [f64], summary: &'a Summary) -> Picture<'a> {
        let (title, quantity) = (self.title(), quantity(self.request));
        Picture { title, quantity, unit: unit(self.request), field, summary, geometry: self.geometry.as_ref() }
    }

    /// Folder and file of the matrix, what was asked, and by which solver: what tells two jobs apart.
    fn title(&self) -> String {
        let request = self.request;
        if let Some(title) = &request.drawing.title {
            return title.clone();
        }
        let transposed = if request.files.transposed { ", transposed" } else { "" };
        let matrix = request.files.matrix.short_name();
        format!("{matrix}{transposed}, tau {} s, {}", shortest(request.tau), choice::name(self.taken.solver))
    }

    fn report(&self, outcome: Outcome) -> Result<(), Failure> {
        let Run { request, taken, series, seconds, .. } = self;
        let Matrix { n, entries, .. } = self.job.matrix();
        let (warnings, geometry) = (&self.warnings[..], self.geometry.as_ref());
        let entries = entries.len();
        let report = Report { request, taken, series, rows: n, entries, seconds: *seconds, warnings, geometry, outcome };
        self.sinks.reports.fill(|kind| report.text(kind))
    }
}

/// What is told of a field that is not finite.
pub fn not_finite(summary: &Summary, n: usize, heating: Option<&Heating>, matrix: &str, written: bool) -> Option<String> {
    let first = summary.first_not_finite?;
    let (place, change) = match heating {
        Some(heating) => (heating.told(matrix), heating.change()),
        None => (
            "no row of the matrix heats itself".into(),
            "the units of matrix, mass, tau and vectors: the numbers grow too large on the way",
        ),
    };
    let written = if written { "; it is written as the library gives it" } else { "" };
    Some(format!(
        "soak: the field is not finite: {} of {n} numbers, the first in row {} ({}){written}\n  where: {place}\n  what to change: {change}",
        summary.not_finite,
        first.row + 1,
        shortest(first.value)
    ))
}

/// Where a soak writes, each tried before the run.
struct Sinks {
    output: Sink,
    state: Option<Sink>,
    plot: Option<Sink>,
    reports: report::Sinks,
    series: series::Sinks,
}

impl Sinks {
    fn open(request: &Request) -> Result<Self, Failure> {
        Ok(Sinks {
            output: Sink::open(&request.output)?,
            state: request.state().as_deref().map(Sink::open).transpose()?,
            plot: request.plot.as_deref().map(Sink::open).transpose()?,
            reports: report::Sinks::open(&request.reports)?,
            series: request.series.open()?,
        })
    }
}

/// Of a sensitivity K for each K at the start.
fn unit(request: &Request) -> &str {
    request.drawing.unit.as_deref().unwrap_or(if request.files.transposed { "K/K" } else { "K" })
}

/// What the field is.
fn quantity(request: &Request) -> &'static str {
    if request.files.transposed {
        "sensitivity"
    } else {
        "temperature"
    }
}
