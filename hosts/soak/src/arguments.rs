//! The command line.

use crate::choice::Asked;
use crate::failure::Failure;
use crate::frames::Frames;
use crate::guard;
use crate::input::Source;
use crate::join::Pair;
use crate::log;
use crate::model::Files;
use crate::plan;
use crate::report;
use crate::rotate;
use crate::series;
use crate::sink::{is_device, is_standard_output};
use crate::stages;
use crate::steps::Tightening;
use hazhendu::sizes::MAX_DEGREE;
use hazhendu::{AutoOptions, KrylovOptions, Solver, TaylorOptions};
use std::ffi::OsString;
use std::path::PathBuf;
use std::str::FromStr;

pub const HELP: &str = include_str!("help.txt");

#[derive(Debug)]
pub enum Command {
    Help,
    Version,
    Check(Files),
    Plan(plan::Request),
    Join(Pair),
    Stages(Box<stages::Request>),
    Log(Box<log::Request>),
    Rotate(rotate::Request),
    Soak(Box<Request>),
}

#[derive(Debug)]
pub struct Request {
    pub files: Files,
    pub vectors: Vec<Source>,
    pub tau: f64,
    pub solver: Asked,
    pub output: PathBuf,
    pub plot: Option<PathBuf>,
    pub reports: Vec<PathBuf>,
    pub drawing: Drawing,
    pub tightenings: Vec<Tightening>,
    pub frames: Option<Frames>,
    pub series: series::Asked,
}

/// How pictures are drawn and called.
#[derive(Debug, Default, PartialEq)]
pub struct Drawing {
    pub points: Option<Source>,
    pub outline: Option<Source>,
    pub unit: Option<String>,
    pub title: Option<String>,
}

impl Drawing {
    /// What is said of a picture must have a picture to be said of.
    fn drawn(&self, pictures: bool, options: &str) -> Result<(), Failure> {
        if self.outline.is_some() && self.points.is_none() {
            return Err(Failure::Usage("--outline is for --points".into()));
        }
        if !pictures && *self != Drawing::default() {
            return Err(Failure::Usage(format!("--points, --outline, --unit and --title are for {options}")));
        }
        Ok(())
    }
}

impl Request {
    /// Where the state goes that a refused run leaves, never under the field's name; Taylor leaves none. A device or a pipe gets it itself.
    pub fn state(&self) -> Option<PathBuf> {
        let mut name = self.output.clone().into_os_string();
        if !is_standard_output(&self.output) && !is_device(&self.output) {
            name.push(".state");
        }
        self.solver.may_leave_state().then_some(name.into())
    }

    fn drawn(&self) -> Result<(), Failure> {
        let drawn = self.plot.is_some() || !self.reports.is_empty() || !self.series.files.is_empty();
        self.drawing.drawn(drawn, "--plot, --report and --series")?;
        report::check(&self.reports)
    }

    fn guarded(&self) -> guard::Files<'_> {
        let state = self.state().filter(|path| !is_standard_output(path));
        let drawn = self.drawing.points.iter().chain(&self.drawing.outline);
        let files = guard::Files::default().reads(self.files.sources()).reads(&self.vectors).reads(drawn);
        files
            .writes("--output", [&self.output])
            .writes("the state of --output", state)
            .writes("--plot", &self.plot)
            .writes("--report", &self.reports)
            .writes("--series", &self.series.files)
            .writes("--frames", self.frames.iter().map(|frames| &frames.folder))
    }
}

/// What has been given so far.
#[derive(Default, PartialEq)]
struct Given {
    matrices: Vec<Source>,
    vectors: Vec<Source>,
    mass: Option<Source>,
    transposed: bool,
    tau: Option<f64>,
    solver: Option<String>,
    degree: Option<u32>,
    tol: Option<f64>,
    m: Option<usize>,
    limit: Option<usize>,
    output: Option<PathBuf>,
    plot: Option<PathBuf>,
    reports: Vec<PathBuf>,
    drawing: Drawing,
    tightenings: Vec<Tightening>,
    every: Option<usize>,
    frames: Option<PathBuf>,
    series: Vec<PathBuf>,
    start: Option<Source>,
    schedule: Option<Source>,
    every_stage: Option<PathBuf>,
    field: Option<Source>,
    load: Option<Source>,
    records: Option<Source>,
    node: Option<usize>,
    window: Option<usize>,
    results: Option<PathBuf>,
}

pub fn parse(words: impl Iterator<Item = OsString>) -> Result<Command, Failure> {
    let mut words = words.skip(1).peekable();
    if words.next_if(|word| word == "help").is_some() {
        return Ok(Command::Help);
    }
    let check = words.next_if(|word| word == "check").is_some();
    let plan = !check && words.next_if(|word| word == "plan").is_some();
    let join = !check && !plan && words.next_if(|word| word == "join").is_some();
    let stages = !check && !plan && !join && words.next_if(|word| word == "stages").is_some();
    let log = !check && !plan && !join && !stages && words.next_if(|word| word == "log").is_some();
    let rotate = !check && !plan && !join && !stages && !log && words.next_if(|word| word == "rotate").is_some();
    let mut given = Given::default();
    while let Some(word) = words.next() {
        let text = word.to_str().unwrap_or_default();
        if !text.starts_with('-') || text == "-" {
            given.matrices.push(Source(word.into()));
            continue;
        }
        match text {
            "--help" | "-h" => return Ok(Command::Help),
            "--version" => return Ok(Command::Version),
            "--transpose" => {
                given.transposed = true;
                continue;
            }
            _ => {}
        }
        let (name, value) = match text.split_once('=') {
            Some((name, value)) => (name, Some(OsString::from(value))),
            None => (text, None),
        };
        given.option(name, || value.or_else(|| words.next()).ok_or_else(|| Failure::Usage(format!("{name} wants a value"))))?;
    }
    if check {
        return given.files_alone().map(Command::Check);
    }
    if plan {
        return given.plan().map(Command::Plan);
    }
    if join {
        return given.pair().map(Command::Join);
    }
    if stages {
        return given.stages().map(Box::new).map(Command::Stages);
    }
    if log {
        return given.log().map(Box::new).map(Command::Log);
    }
    if rotate {
        return given.rotate().map(Command::Rotate);
    }
    given.request().map(Box::new).map(Command::Soak)
}

impl Given {
    fn option(&mut self, name: &str, value: impl FnOnce() -> Result<OsString, Failure>) -> Result<(), Failure> {
        match name {
            "--vector" => self.vectors.push(Source(value()?.into())),
            "--mass" => once(name, &mut self.mass, Source(value()?.into()))?,
            "--output" => once(name, &mut self.output, value()?.into())?,
            "--plot" => once(name, &mut self.plot, value()?.into())?,
            "--report" => self.reports.push(value()?.into()),
            "--points" => once(name, &mut self.drawing.points, Source(value()?.into()))?,
            "--outline" => once(name, &mut self.drawing.outline, Source(value()?.into()))?,
            "--unit" => once(name, &mut self.drawing.unit, read(name, value()?, "a unit")?)?,
            "--title" => once(name, &mut self.drawing.title, read(name, value()?, "a title")?)?,
            "--tau" => once(name, &mut self.tau, read(name, value()?, "a number")?)?,
            "--degree" => once(name, &mut self.degree, read(name, value()?, "a whole number that fits")?)?,
            "--tol" => once(name, &mut self.tol, read(name, value()?, "a number")?)?,
            "--m" => once(name, &mut self.m, read(name, value()?, "a whole number that fits")?)?,
            "--limit" => once(name, &mut self.limit, read(name, value()?, "a whole number that fits")?)?,
            "--tighten" => self.tightenings.push(tightening(name, value()?)?),
            "--every" => once(name, &mut self.every, read(name, value()?, "a whole number that fits")?)?,
            "--frames" => once(name, &mut self.frames, value()?.into())?,
            "--series" => self.series.push(value()?.into()),
            "--start" => once(name, &mut self.start, Source(value()?.into()))?,
            "--schedule" => once(name, &mut self.schedule, Source(value()?.into()))?,
            "--every-stage" => once(name, &mut self.every_stage, value()?.into())?,
            "--field" => once(name, &mut self.field, Source(value()?.into()))?,
            "--load" => once(name, &mut self.load, Source(value()?.into()))?,
            "--records" => once(name, &mut self.records, Source(value()?.into()))?,
            "--node" => once(name, &mut self.node, read(name, value()?, "a whole number that fits")?)?,
            "--window" => once(name, &mut self.window, read(name, value()?, "a whole number that fits")?)?,
            "--results" => once(name, &mut self.results, value()?.into())?,
            "--solver" => once(name, &mut self.solver, read(name, value()?, "a solver")?)?,
            _ => return Err(Failure::Usage(format!("there is no option {name}"))),
        }
        Ok(())
    }

    fn solver(&self) -> Result<Asked, Failure> {
        let usual = KrylovOptions::default();
        let krylov = KrylovOptions {
            tol: self.tol.unwrap_or(usual.tol),
            m: self.m.unwrap_or(usual.m),
            max_substeps: self.limit.unwrap_or(usual.max_substeps),
        };
        let taylor = self.taylor();
        let by_substeps = !self.tightenings.is_empty() || self.every.is_some() || self.frames.is_some() || !self.series.is_empty();
        match self.solver.as_deref() {
            Some("krylov") if self.degree.is_some() => Err(Failure::Usage("--degree is for --solver taylor and auto".into())),
            Some("krylov") => Ok(Asked::Named(Solver::Krylov(krylov))),
            Some("taylor") if self.tol.is_some() || self.m.is_some() || self.limit.is_some() => {
                Err(Failure::Usage("--tol, --m and --limit are for --solver krylov and auto".into()))
            }
            Some("taylor" | "auto") | None if by_substeps => {
                Err(Failure::Usage("--tighten, --every, --frames and --series are for --solver krylov, which goes by substeps".into()))
            }
            Some("taylor") => Ok(Asked::Named(Solver::Taylor(taylor))),
            Some("auto") | None => Ok(Asked::Auto(AutoOptions { taylor, krylov })),
            Some(other) => Err(Failure::Usage(format!("--solver {other:?}: auto, taylor or krylov"))),
        }
    }

    fn taylor(&self) -> TaylorOptions {
        TaylorOptions { degree: self.degree.unwrap_or(MAX_DEGREE) }
    }

    /// --node is the row that a series shows too.
    fn series(&mut self) -> Result<series::Asked, Failure> {
        let series = series::Asked { files: std::mem::take(&mut self.series), node: self.node.take() };
        if let Some(path) = series.files.iter().find(|path| series::Kind::of(path).is_none()) {
            return Err(Failure::Usage(format!("--series {}: a name that ends in .svg or .csv", path.display())));
        }
        match series.node {
            Some(0) => Err(Failure::Usage("--node 0: rows are counted from 1".into())),
            Some(_) if series.files.is_empty() => Err(Failure::Usage("--node is for --series and soak log".into())),
            _ => Ok(series),
        }
    }

    fn plan(mut self) -> Result<plan::Request, Failure> {
        let (files, taylor) = (self.files()?, self.taylor());
        self.degree = None;
        let tau = self.tau.take().ok_or_else(|| Failure::Usage("--tau is missing".into()))?;
        guard::Files::default().reads(files.sources()).check()?;
        match self == Given::default() {
            true => Ok(plan::Request { files, tau, taylor }),
            false => Err(Failure::Usage("plan takes a matrix, --tau, --mass, --transpose and --degree alone".into())),
        }
    }

    fn frames(&mut self) -> Result<Option<Frames>, Failure> {
        match (self.every.take(), self.frames.take()) {
            (Some(0), _) => Err(Failure::Usage("--every 0: from 1 on".into())),
            (Some(every), Some(folder)) => Ok(Some(Frames { every, folder })),
            (None, None) => Ok(None),
            _ => Err(Failure::Usage("--every and --frames go together".into())),
        }
    }

    fn files(&mut self) -> Result<Files, Failure> {
        let matrix = match self.matrices.len() {
            0 | 1 => self.matrices.pop().ok_or_else(|| Failure::Usage("MATRIX is missing".into()))?,
            _ => return Err(Failure::Usage(format!("MATRIX is given twice: {} and {}", self.matrices[0], self.matrices[1]))),
        };
        Ok(Files { matrix, mass: self.mass.take(), transposed: std::mem::take(&mut self.transposed) })
    }

    fn pair(mut self) -> Result<Pair, Failure> {
        let output = self.output.take();
        let matrices = <[Source; 2]>::try_from(std::mem::take(&mut self.matrices));
        match matrices {
            Ok([barrel, mount]) if self == Given::default() => {
                guard::Files::default().reads([&barrel, &mount]).writes("--output", &output).check()?;
                Ok(Pair { barrel: Files::bare(barrel), mount: Files::bare(mount), output })
            }
            Ok(_) => Err(Failure::Usage("join takes two matrices and --output alone".into())),
            Err(_) => Err(Failure::Usage("join wants two matrices, BARREL and MOUNT".into())),
        }
    }

    fn files_alone(mut self) -> Result<Files, Failure> {
        let files = self.files()?;
        guard::Files::default().reads(files.sources()).check()?;
        match self == Given::default() {
            true => Ok(files),
            false => Err(Failure::Usage("check takes a matrix, --mass and --transpose alone".into())),
        }
    }

    fn stages(mut self) -> Result<stages::Request, Failure> {
        let transposed = self.transposed;
        let files = self.files()?;
        let missing = |name: &str| Failure::Usage(format!("{name} is missing"));
        let request = stages::Request {
            files,
            start: self.start.take().ok_or_else(|| missing("--start"))?,
            schedule: self.schedule.take().ok_or_else(|| missing("--schedule"))?,
            output: self.output.take().unwrap_or_else(|| "-".into()),
            plot: self.plot.take(),
            drawing: std::mem::take(&mut self.drawing),
            every_stage: self.every_stage.take(),
            series: self.series()?,
            reports: std::mem::take(&mut self.reports),
        };
        if transposed || self != Given::default() {
            return Err(Failure::Usage(
                "stages takes a matrix, --mass, --start, --schedule, --output, --every-stage, --series, --node, --plot, --report, --points, \
                 --outline, --unit and --title"
                    .into(),
            ));
        }
        let drawn = request.plot.is_some() || !request.series.files.is_empty() || !request.reports.is_empty();
        request.drawing.drawn(drawn, "--plot, --report and --series")?;
        report::check(&request.reports)?;
        request.guarded().check()?;
        Ok(request)
    }

    fn log(mut self) -> Result<log::Request, Failure> {
        let transposed = self.transposed;
        let files = self.files()?;
        let missing = |name: &str| Failure::Usage(format!("{name} is missing"));
        let request = log::Request {
            files,
            field: self.field.take().ok_or_else(|| missing("--field"))?,
            load: self.load.take().ok_or_else(|| missing("--load"))?,
            records: self.records.take().ok_or_else(|| missing("--records"))?,
            node: self.node.take().ok_or_else(|| missing("--node"))?,
            window: self.window.take().ok_or_else(|| missing("--window"))?,
            results: self.results.take().unwrap_or_else(|| "-".into()),
            output: self.output.take(),
            plot: self.plot.take(),
            reports: std::mem::take(&mut self.reports),
            drawing: std::mem::take(&mut self.drawing),
        };
        if transposed || self != Given::default() {
            return Err(Failure::Usage(
                "log takes a matrix, --mass, --field, --load, --records, --node, --window, --results, --output, --plot, --report, --points, \
                 --outline, --unit and --title"
                    .into(),
            ));
        }
        if request.node == 0 {
            return Err(Failure::Usage("--node 0: rows are counted from 1".into()));
        }
        request.drawn()?;
        report::check(&request.reports)?;
        request.guarded().check()?;
        Ok(request)
    }

    fn rotate(mut self) -> Result<rotate::Request, Failure> {
        let output = self.output.take();
        match (self.matrices.pop(), output) {
            (Some(barrels), Some(output)) if self == Given::default() && !is_standard_output(&output) => {
                Ok(rotate::Request { barrels, output })
            }
            (Some(_), Some(_)) => Err(Failure::Usage("rotate takes one table of barrels and --output alone, a folder".into())),
            (None, _) => Err(Failure::Usage("rotate wants a table of barrels, BARRELS.csv".into())),
            (_, None) => Err(Failure::Usage("--output is missing, the folder of the fields".into())),
        }
    }

    fn request(mut self) -> Result<Request, Failure> {
        let of_a_log = [&self.field, &self.load, &self.records].iter().any(|source| source.is_some());
        if of_a_log || self.window.is_some() || self.results.is_some() {
            return Err(Failure::Usage("--field, --load, --records, --window and --results are for soak log".into()));
        }
        if self.start.is_some() || self.schedule.is_some() || self.every_stage.is_some() {
            return Err(Failure::Usage("--start, --schedule and --every-stage are for soak stages".into()));
        }
        let request = Request {
            solver: self.solver()?,
            files: self.files()?,
            frames: self.frames()?,
            series: self.series()?,
            tightenings: self.tightenings,
            tau: self.tau.ok_or_else(|| Failure::Usage("--tau is missing".into()))?,
            vectors: self.vectors,
            output: self.output.unwrap_or_else(|| "-".into()),
            plot: self.plot,
            reports: self.reports,
            drawing: self.drawing,
        };
        request.drawn()?;
        request.guarded().check()?;
        Ok(request)
    }
}

fn once<T>(name: &str, place: &mut Option<T>, value: T) -> Result<(), Failure> {
    match place.replace(value) {
        None => Ok(()),
        Some(_) => Err(Failure::Usage(format!("{name} is given twice"))),
    }
}

fn read<T: FromStr>(name: &str, word: OsString, kind: &str) -> Result<T, Failure> {
    let read = word.to_str().and_then(|text| text.trim().parse().ok());
    read.ok_or_else(|| Failure::Usage(format!("{name} {word:?}: not {kind}")))
}

/// SHARE:TOL. A tol that the library would refuse in the middle of the run is told before it.
fn tightening(name: &str, word: OsString) -> Result<Tightening, Failure> {
    let within = |text: &str| text.trim().parse().ok().filter(|x: &f64| (0.0..1.0).contains(x));
    let pair = word.to_str().and_then(|text| text.split_once(':'));
    let read = pair.and_then(|(share, tol)| Some(Tightening { share: within(share)?, tol: within(tol).filter(|tol| *tol > 0.0)? }));
    read.ok_or_else(|| {
        Failure::Usage(format!("{name} {word:?}: not SHARE:TOL, a share of tau from 0 to below 1 and a tol strictly between 0 and 1"))
    })
}
