//! Measures both solvers beside the rule by which one is taken where none is named, for docs/CHOOSING.md.
//!
//!     cargo run --release --offline --example choosing -- ../samples/out
//!
//! in hosts/, after samples/run. Each job is called by Taylor and by Krylov in turn, and of each the least processor time of the thread
//! counts, of calls that fill half a second or of at least seven: so other work on the machine matters little. Memory is part of a call, files are not.

use hazhendu::{choose, combine, matrix_market, taylor_plan, vectors, AutoOptions, Csr, Matrix, Solver, TaylorOptions};
use std::fs::File;
use std::io::BufReader;
use std::path::Path;

const BARRELS: [&str; 3] = ["relay-35mm", "collimator-90mm", "zoom-two-groups"];
const TAUS: [f64; 4] = [10.0, 100.0, 600.0, 1800.0];
const SIDES: [usize; 9] = [4, 6, 8, 9, 10, 12, 16, 32, 64];
/// Of tau times the norm.
const ARGUMENTS: [f64; 9] = [20.0, 30.0, 40.0, 50.0, 60.0, 100.0, 200.0, 1000.0, 10_000.0];
/// A job that would make more by Taylor takes too long for a table.
const MOST_WORK: f64 = 2e9;

struct Job {
    name: String,
    csr: Csr,
    mass: Option<Vec<f64>>,
    tau: f64,
    w: Vec<Vec<f64>>,
}

impl Job {
    fn matrix(&self) -> Matrix<'_> {
        let bare = self.csr.matrix();
        self.mass.as_ref().map_or(bare, |mass| bare.with_mass(mass))
    }
}

fn main() -> Result<(), Box<dyn std::error::Error>> {
    let folder = std::env::args().nth(1).ok_or("the folder that samples/run fills is missing")?;
    println!("| job | entries and rows | tau × norm | plan's applications | taken | taylor, ms | krylov, ms | taylor / krylov |\n|---|---|---|---|---|---|---|---|");
    for barrel in BARRELS {
        for tau in TAUS {
            measured(&read(&Path::new(&folder).join(barrel), barrel, tau)?)?;
        }
    }
    for heavy in [1.0, 1000.0] {
        for side in SIDES {
            for argument in ARGUMENTS {
                measured(&plate(side, heavy, argument))?;
            }
        }
    }
    Ok(())
}

fn read(folder: &Path, name: &str, tau: f64) -> Result<Job, Box<dyn std::error::Error>> {
    let open = |file: &str| File::open(folder.join(file)).map(BufReader::new);
    let vector = |file: &str| Ok::<_, Box<dyn std::error::Error>>(vectors::read(open(file)?)?.numbers);
    let files = ["start.txt", "heating.txt", "ramp.txt"].into_iter().filter(|file| folder.join(file).exists());
    let w = files.map(vector).collect::<Result<_, _>>()?;
    let (csr, mass) = (matrix_market::read(open("conductance.mtx")?)?, Some(vector("capacity.txt")?));
    Ok(Job { name: name.into(), csr, mass, tau, w })
}

/// A square plate of five entries a row; every second cell may be heavier, so that it is still warming up when the light ones
/// have long come to rest.
fn plate(side: usize, heavy: f64, argument: f64) -> Job {
    let n = side * side;
    let mut csr = Csr { n, starts: vec![0], columns: vec![], entries: vec![] };
    for row in 0..n {
        let (i, j) = (row / side, row % side);
        let beside = [
            (i > 0, row.wrapping_sub(side)),
            (j > 0, row.wrapping_sub(1)),
            (true, row),
            (j + 1 < side, row + 1),
            (i + 1 < side, row + side),
        ];
        for (_, column) in beside.into_iter().filter(|(inside, _)| *inside) {
            csr.columns.push(column as u32);
            csr.entries.push(if column == row { 4.0 } else { -1.0 });
        }
        csr.starts.push(csr.columns.len() as u32);
    }
    let mass = (heavy > 1.0).then(|| (0..n).map(|row| if row % 2 == 0 { 1.0 } else { heavy }).collect());
    let w = vec![(0..n).map(|row| (row as f64).cos()).collect(), vec![1.0; n]];
    let kind = if heavy > 1.0 { "light and heavy plate" } else { "plate" };
    Job { name: format!("{kind} of {n}"), csr, mass, tau: argument / 8.0, w }
}

/// A line of the table.
fn measured(job: &Job) -> Result<(), hazhendu::Error> {
    let a = job.matrix();
    let plan = taylor_plan(&a, job.tau, TaylorOptions::default())?;
    let size = a.entries.len() + a.n;
    if plan.applications as f64 * size as f64 > MOST_WORK {
        return Ok(());
    }
    let choice = choose(&a, job.tau, job.w.len(), AutoOptions::default())?;
    let taken = if matches!(choice.solver, Solver::Taylor(_)) { "taylor" } else { "krylov" };
    let solvers = [Solver::Taylor(TaylorOptions::default()), Solver::Krylov(AutoOptions::default().krylov)];
    let [taylor, krylov] = best(job, solvers);
    let argument = job.tau * hazhendu::check(&a)?.norm;
    let ratio = taylor / krylov;
    println!(
        "| {} | {size} | {argument:.3} | {} | {taken} | {:.3} | {:.3} | {ratio:.2} |",
        job.name,
        plan.applications,
        taylor * 1e3,
        krylov * 1e3
    );
    Ok(())
}

/// The least time of each, called in turn; a refusal is as long as the others wish.
fn best(job: &Job, solvers: [Solver; 2]) -> [f64; 2] {
    let w = job.w.concat();
    let mut best = [f64::INFINITY; 2];
    let begun = seconds();
    for call in 0..20_000 {
        for (solver, best) in solvers.iter().zip(&mut best) {
            let at = seconds();
            let soaked = combine(*solver, &job.matrix(), job.tau, job.w.len(), &w);
            let took = seconds() - at;
            *best = if soaked.is_ok() { best.min(took) } else { f64::INFINITY };
        }
        if call >= 6 && seconds() - begun > 0.5 {
            break;
        }
    }
    best
}

#[repr(C)]
struct Timespec {
    seconds: i64,
    nanoseconds: i64,
}

extern "C" {
    fn clock_gettime(clock: i32, time: *mut Timespec) -> i32;
}

/// Linux's number of the thread's own processor time.
const CLOCK_THREAD_CPUTIME_ID: i32 = 3;

fn seconds() -> f64 {
    let mut time = Timespec { seconds: 0, nanoseconds: 0 };
    // SAFETY: it writes to the place it is given, which is laid out as on 64-bit Linux.
    unsafe { clock_gettime(CLOCK_THREAD_CPUTIME_ID, &mut time) };
    time.seconds as f64 + time.nanoseconds as f64 * 1e-9
}
