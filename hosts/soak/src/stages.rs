//! A soak in stages from its files to its files.

use crate::arguments::Drawing;
use crate::failure::Failure;
use crate::guard;
use crate::input::{Source, Vector};
use crate::job::cost_line;
use crate::model::{Files, Model};
use crate::plot::{self, Geometry, Picture};
use crate::points;
use crate::progress::{self, Line};
use crate::report;
use crate::schedule::{self, Stage};
use crate::series::{self, Series};
use crate::sink::Sink;
use crate::soak::not_finite;
use crate::summary::Summary;
use crate::warnings::{self, Heating};
use crate::{tell, tell_terminal};
use hazhendu::sizes::{MAX_STAGES, MAX_VECTORS};
use hazhendu::{combine, shortest, stages, vectors, Cost, Error, Refusal, StageError, StagedReport};
use std::fs;
use std::io::{self, IsTerminal};
use std::path::{Path, PathBuf};
use std::time::Instant;

#[derive(Debug)]
pub struct Request {
    pub files: Files,
    pub start: Source,
    pub schedule: Source,
    pub output: PathBuf,
    pub plot: Option<PathBuf>,
    pub drawing: Drawing,
    /// The folder that gets the field after each stage.
    pub every_stage: Option<PathBuf>,
    pub series: series::Asked,
    pub reports: Vec<PathBuf>,
}

impl Request {
    pub fn guarded(&self) -> guard::Files<'_> {
        let drawn = self.drawing.points.iter().chain(&self.drawing.outline);
        let files = guard::Files::default().reads(self.files.sources()).reads([&self.start, &self.schedule]).reads(drawn);
        files
            .writes("--output", [&self.output])
            .writes("--plot", &self.plot)
            .writes("--every-stage", &self.every_stage)
            .writes("--series", &self.series.files)
            .writes("--report", &self.reports)
    }

    fn unit(&self) -> &str {
        self.drawing.unit.as_deref().unwrap_or("K")
    }

    /// Whether the field after each stage is wanted.
    fn is_one_by_one(&self) -> bool {
        let asked = self.every_stage.is_some() || self.plot.is_some() || !self.series.files.is_empty() || !self.reports.is_empty();
        asked || io::stderr().is_terminal()
    }
}

/// A stage that was run: the field after it, and what it cost.
pub struct Done {
    pub field: Vec<f64>,
    pub cost: Cost,
}

/// The field after all stages, and what they cost.
struct Soaked {
    field: Vec<f64>,
    report: StagedReport,
}

/// A refusal, and the field that it leaves, if there is one.
struct Refused {
    failure: Failure,
    /// And what it is.
    left: Option<(Vec<f64>, String)>,
}

impl From<Failure> for Box<Refused> {
    fn from(failure: Failure) -> Self {
        Box::new(Refused { failure, left: None })
    }
}

pub fn run(request: &Request) -> Result<(), Failure> {
    let job = Job::read(request)?;
    let sinks = Sinks::open(request, job.model.matrix().n)?;
    job.warnings().iter().for_each(|warning| tell(warning));
    tell_terminal(&format!("soak: rows {}, entries {}, stages {}", job.rows(), job.model.matrix().entries.len(), job.stages.len()));
    let begun = Instant::now();
    // The library refuses a schedule of any other length before all stages.
    let counted = (1..=MAX_STAGES).contains(&job.stages.len());
    let mut done = vec![];
    let soaked = if request.is_one_by_one() && counted { job.one_by_one(sinks.folder.as_ref(), &mut done) } else { job.in_one_call() };
    let seconds = begun.elapsed().as_secs_f64();
    tell_terminal(&format!("soak: {seconds:.3} s"));
    let ended = Ended { job: &job, sinks: &sinks, series: job.series(&done), done, seconds };
    match soaked {
        Ok(soaked) => ended.finish(&soaked),
        Err(refused) => ended.refused(*refused),
    }
}

/// Where stages are written, each tried before the run.
struct Sinks<'a> {
    output: Sink,
    plot: Option<Sink>,
    folder: Option<Folder<'a>>,
    series: series::Sinks,
    reports: report::Sinks,
}

impl<'a> Sinks<'a> {
    fn open(request: &'a Request, rows: usize) -> Result<Self, Failure> {
        let output = Sink::open(&request.output)?;
        let plot = request.plot.as_deref().map(Sink::open).transpose()?;
        let reports = report::Sinks::open(&request.reports)?;
        let folder = request.every_stage.as_deref().map(Folder::open).transpose()?;
        request.series.check(rows)?;
        Ok(Sinks { output, plot, folder, series: request.series.open()?, reports })
    }
}

/// A schedule after its run.
struct Ended<'a> {
    job: &'a Job<'a>,
    sinks: &'a Sinks<'a>,
    /// Those that were run one by one.
    done: Vec<Done>,
    series: Series,
    seconds: f64,
}

impl Ended<'_> {
    /// The field is written whatever it holds; that it is not finite has a status of its own.
    fn finish(&self, soaked: &Soaked) -> Result<(), Failure> {
        let Soaked { field, report } = soaked;
        let (job, unit, title) = (self.job, self.job.request.unit(), self.job.title());
        self.sinks.output.fill(|to| vectors::write(to, field))?;
        let summary = Summary::of(field, job.model.mass());
        self.sinks.series.fill(&self.series, &title, unit)?;
        if let Some(plot) = &self.sinks.plot {
            let after =
                job.geometry.as_ref().and(job.stages.last()).map(|last| format!(", after stage {}", last.called(job.stages.len() - 1)));
            let title = title + &after.unwrap_or_default();
            let picture = Picture { title, quantity: "temperature", unit, field, summary: &summary, geometry: job.geometry.as_ref() };
            plot.fill(|to| to.write_all(self.drawn(&picture).as_bytes()))?;
        }
        let told = not_finite(&summary, field.len(), job.heating.as_ref(), &job.request.files.matrix.to_string(), true);
        let beyond = warnings::beyond(field, job.most(), unit).filter(|_| told.is_none());
        beyond.iter().for_each(|warning| tell(warning));
        self.report(job.warnings().into_iter().chain(beyond).chain(told.clone()).collect(), *report, None)?;
        tell(&format!(
            "stages: {} stages, {} applications, {} substeps, {} rejected",
            job.stages.len(),
            report.applications,
            report.substeps,
            report.rejected
        ));
        tell_terminal(&format!("soak: {}", summary.line("temperature", unit)));
        told.map_or(Ok(()), |told| Err(Failure::NotFinite(told)))
    }

    /// The field that is left goes where the field would go; a comment says what it is, and as a vector it reads back.
    fn refused(&self, Refused { failure, left }: Refused) -> Result<(), Failure> {
        if let Some((field, what)) = &left {
            self.sinks.output.fill(|to| {
                writeln!(to, "# not the field after all stages: {what}")?;
                vectors::write(to, field)
            })?;
            tell(&format!("soak: what is written is not the field after all stages: {what}"));
        }
        if let Failure::RefusedStage { refusal, place, stage } = &failure {
            let left = left.as_ref().map(|(_, what)| what.as_str());
            let told = report::stages::Refused { refusal: *refusal, place: place.as_deref(), stage: *stage, left };
            let mut spent = StagedReport::default();
            self.done.iter().for_each(|done| add(&mut spent, &done.cost));
            self.report(self.job.warnings(), spent, Some(told))?;
        }
        Err(failure)
    }

    fn report(&self, warnings: Vec<String>, spent: StagedReport, refused: Option<report::stages::Refused>) -> Result<(), Failure> {
        let Ended { job, done, series, seconds, .. } = self;
        let report = report::stages::Report {
            request: job.request,
            title: &job.title(),
            unit: job.request.unit(),
            rows: job.rows(),
            entries: job.model.matrix().entries.len(),
            mass: job.model.mass(),
            start: &job.start.numbers,
            stages: &job.stages,
            done,
            spent,
            series,
            geometry: job.geometry.as_ref(),
            seconds: *seconds,
            warnings: &warnings,
            refused,
        };
        self.sinks.reports.fill(|kind| report.text(kind))
    }

    /// With places a map of the last field, else a curve for the start and one for each stage.
    fn drawn(&self, picture: &Picture) -> String {
        match picture.geometry {
            Some(_) => picture.main(),
            None => plot::curves(picture, &schedule::curves(&self.job.start.numbers, &self.job.stages, &self.done)),
        }
    }
}

struct Job<'a> {
    request: &'a Request,
    model: Model<'a>,
    start: Vector,
    stages: Vec<Stage>,
    geometry: Option<Geometry>,
    heating: Option<Heating>,
}

impl<'a> Job<'a> {
    fn read(request: &'a Request) -> Result<Self, Failure> {
        let model = Model::read(&request.files)?;
        let start = request.start.vector()?;
        let stages = schedule::read(&request.schedule)?;
        request.guarded().reads(stages.iter().flat_map(|stage| &stage.vectors).map(|vector| &vector.source)).check()?;
        let geometry = points::of(&request.drawing, model.matrix().n, &request.files.matrix)?;
        let heating = Heating::of(&model.matrix());
        Ok(Job { request, model, start, stages, geometry, heating })
    }

    fn rows(&self) -> usize {
        self.model.matrix().n
    }

    /// The largest size that conduction can give after all stages.
    fn most(&self) -> f64 {
        let added: f64 = self.stages.iter().map(|stage| warnings::added(stage.tau, &stage.further())).sum();
        warnings::largest(&self.start.numbers) + added
    }

    fn warnings(&self) -> Vec<String> {
        self.heating.iter().map(|heating| heating.warning(&self.request.files.matrix.to_string())).collect()
    }

    /// The library's own call.
    fn in_one_call(&self) -> Result<Soaked, Box<Refused>> {
        let further: Vec<Vec<&[f64]>> = self.stages.iter().map(Stage::further).collect();
        let of = |(stage, further): (&Stage, _)| hazhendu::Stage { tau: stage.tau, further, solver: stage.solver };
        let schedule: Vec<hazhendu::Stage> = self.stages.iter().zip(further.iter().map(Vec::as_slice)).map(of).collect();
        match stages(&self.model.matrix(), &schedule, &self.start.numbers) {
            Ok(staged) => Ok(Soaked { field: staged.field, report: staged.report }),
            Err(StageError::OutOfMemory { doubles }) => Err(Failure::OutOfMemory { doubles }.into()),
            Err(StageError::Refused { refusal, stage, field }) => Err(self.refused(refusal, stage as usize, field)),
        }
    }

    /// Each stage as a call of its own, to the same bits and counts, with a line about it and its field written where that is asked for.
    fn one_by_one(&self, folder: Option<&Folder>, done: &mut Vec<Done>) -> Result<Soaked, Box<Refused>> {
        let mut soaked = Soaked { field: self.start.numbers.clone(), report: StagedReport::default() };
        for (i, stage) in self.stages.iter().enumerate() {
            let made = self.watched(i, &soaked.field);
            let (field, cost) = made.map_err(|error| self.refused_single(error, i, &soaked))?;
            tell(&format!("stage {}: {}", stage.called(i), cost_line(&cost)));
            add(&mut soaked.report, &cost);
            folder.map_or(Ok(()), |folder| folder.write(i, stage, &field))?;
            done.push(Done { field: field.clone(), cost });
            soaked.field = field;
        }
        Ok(soaked)
    }

    /// A stage, with a line about it on a terminal that tells how long it has been running.
    fn watched(&self, i: usize, field: &[f64]) -> Result<(Vec<f64>, Cost), Error> {
        let told = schedule::line(&self.stages[i], i, self.stages.len());
        let mut line = Line::new();
        line.write(&told);
        line.during(|gone| format!("{told}, {}", progress::lasting(gone)), || self.single(i, field))
    }

    /// A vector of the wrong length is put to the library alone, for it to refuse by 16 in its place.
    fn single(&self, i: usize, field: &[f64]) -> Result<(Vec<f64>, Cost), Error> {
        let (stage, a) = (&self.stages[i], self.model.matrix());
        let further = stage.further();
        let (count, w) = match self.misfit(i) {
            Some(misfit) if further.len() < MAX_VECTORS => (1, misfit.numbers.clone()),
            _ => (1 + further.len(), [&[field][..], &further[..]].concat().concat()),
        };
        combine(stage.solver, &a, stage.tau, count, &w).map(|soaked| (soaked.field, soaked.cost))
    }

    /// The start, for the first stage, or a vector of a stage that is not n long.
    fn misfit(&self, i: usize) -> Option<&Vector> {
        let start = (i == 0).then_some(&self.start);
        start.into_iter().chain(&self.stages[i].vectors).find(|vector| vector.numbers.len() != self.model.matrix().n)
    }

    fn refused_single(&self, error: Error, i: usize, before: &Soaked) -> Box<Refused> {
        match error {
            Error::OutOfMemory { doubles } => Failure::OutOfMemory { doubles }.into(),
            // The matrix itself is refused before any stage.
            Error::Refused { refusal, .. } if refusal.number <= 11 => self.refused(refusal, 0, None),
            Error::Refused { refusal, state } => self.refused(refusal, i + 1, state.or((i > 0).then(|| before.field.clone()))),
        }
    }

    /// `stage` from 1, 0 before any.
    fn refused(&self, refusal: Refusal, stage: usize, left: Option<Vec<f64>>) -> Box<Refused> {
        let what = match refusal.leaves_state() {
            true => format!("the state after the last accepted substep of stage {stage}, refused by {}", refusal.number),
            false => format!("the field after stage {}; stage {stage} is refused by {}", stage.saturating_sub(1), refusal.number),
        };
        let place = self.place(refusal, stage);
        // The library sees all further vectors in one slice; the file that is wrong has a length of its own.
        let misfit = stage.checked_sub(1).filter(|_| refusal.number == 16).and_then(|i| self.misfit(i));
        let refusal = misfit.map_or(refusal, |misfit| Refusal { value: misfit.numbers.len() as f64, ..refusal });
        let failure = Failure::RefusedStage { refusal, place, stage };
        Box::new(Refused { failure, left: left.map(|field| (field, what)) })
    }

    /// Where a refusal has its cause.
    fn place(&self, refusal: Refusal, stage: usize) -> Option<String> {
        let Some(at) = stage.checked_sub(1).and_then(|i| self.stages.get(i)) else {
            return match refusal.number {
                37 => Some(format!("{} has {} stages", self.request.schedule, self.stages.len())),
                _ => self.model.place(refusal),
            };
        };
        let in_stage = |what: String| Some(format!("{}, {what}", at.place));
        match refusal.number {
            12 => in_stage(format!("{} vectors with the field", 1 + at.vectors.len())),
            14 => in_stage(format!("tau {}", shortest(at.tau))),
            16 => self.misfit(stage - 1).and_then(|misfit| match misfit.source == self.start.source {
                true => Some(self.model.length_told(misfit)),
                false => in_stage(self.model.length_told(misfit)),
            }),
            17 => self.not_finite_at(at, stage),
            18 => in_stage("tol".into()),
            19 | 27 => in_stage("limit".into()),
            20 => in_stage("m or limit".into()),
            21 | 22 => in_stage("tau and vectors".into()),
            24 | 25 => in_stage(format!("tau {}, {}", shortest(at.tau), self.request.files.matrix)),
            28 => in_stage("m".into()),
            33 => in_stage("degree".into()),
            _ => Some(at.place.clone()),
        }
    }

    fn not_finite_at(&self, at: &Stage, stage: usize) -> Option<String> {
        let infinite = |vector: &Vector| vector.first(|x| !x.is_finite());
        let start = if stage == 1 { infinite(&self.start) } else { None };
        start.or_else(|| {
            let found = at.vectors.iter().find_map(infinite).unwrap_or_else(|| "the field of the stage before it".into());
            Some(format!("{}, {found}", at.place))
        })
    }

    /// The start, and the field after each stage that was run, at its time.
    fn series(&self, done: &[Done]) -> Series {
        let mut series = Series::new(self.request.series.node, "stage", "temperature");
        let mut time = 0.0;
        series.push(time, &self.start.numbers, self.model.mass());
        for (stage, Done { field, .. }) in self.stages.iter().zip(done) {
            time += stage.tau;
            series.push(time, field, self.model.mass());
        }
        series
    }

    fn title(&self) -> String {
        let usual = || format!("{}, {}", self.request.files.matrix.short_name(), self.request.schedule.short_name());
        self.request.drawing.title.clone().unwrap_or_else(usual)
    }
}

fn add(report: &mut StagedReport, cost: &Cost) {
    match cost {
        Cost::Taylor(plan) => report.applications += plan.applications,
        Cost::Krylov(made) => {
            report.applications += made.matvecs as u64;
            report.substeps += made.substeps as u64;
            report.rejected += made.rejected as u64;
        }
    }
}

/// Where the field after each stage goes.
struct Folder<'a>(&'a Path);

impl<'a> Folder<'a> {
    /// It is made if it is not there, and has to be empty, so that nothing is written over.
    fn open(folder: &'a Path) -> Result<Self, Failure> {
        let failed = |error| Failure::CannotWrite { name: folder.display().to_string(), error };
        match fs::create_dir(folder) {
            Err(error) if error.kind() == io::ErrorKind::AlreadyExists => {}
            made => return made.map(|()| Folder(folder)).map_err(failed),
        }
        match fs::read_dir(folder).map_err(failed)?.next() {
            None => Sink::open(&Folder(folder).path(0)).map(|_| Folder(folder)),
            Some(_) => Err(failed(io::Error::new(io::ErrorKind::Other, "the folder of --every-stage is not empty"))),
        }
    }

    fn path(&self, i: usize) -> PathBuf {
        self.0.join(format!("stage-{:02}.txt", i + 1))
    }

    fn write(&self, i: usize, stage: &Stage, field: &[f64]) -> Result<(), Failure> {
        Sink::open(&self.path(i))?.fill(|to| {
            writeln!(to, "# the field after stage {}, tau {}", stage.called(i), shortest(stage.tau))?;
            vectors::write(to, field)
        })
    }
}
