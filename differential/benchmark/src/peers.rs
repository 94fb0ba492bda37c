//! The same problems put to SciPy's `expm_multiply` and to SLEPc's MFN (peers.py), in a process of its own that times itself.

use std::fmt::Write as _;
use std::process::Command;

use jobs::{Call, Job};

use crate::{barrels, best_seconds, plate, KRYLOV, SIZES};

/// Plates with a mass, and the barrels: both solvers, SciPy and SLEPc. Differences are from Taylor's field, relative to its largest value.
pub fn table() {
    println!("| job | rows | Taylor, ms | Krylov, ms | difference | expm_multiply, ms | difference | MFN, ms | its tol | difference |");
    println!("|---|---|---|---|---|---|---|---|---|---|");
    for size in SIZES {
        line("plate", "plate", |call| plate::job(size, true, call, 2), KRYLOV);
    }
    for name in barrels::NAMES {
        line(name, "barrel", |call| barrels::job(name, call), barrels::KRYLOV);
    }
}

fn line(name: &str, kind: &str, job: impl Fn(Call) -> Job, krylov: Call) {
    let (taylor, krylov) = (job(Call::Combination), job(krylov));
    let (exact, field) = (field(&taylor), field(&krylov));
    let largest = exact.iter().fold(0.0, |most: f64, x| most.max(x.abs()));
    let difference = exact.iter().zip(&field).fold(0.0, |most: f64, (x, y)| most.max((x - y).abs())) / largest;
    let ms = |seconds: f64| format!("{:.3}", seconds * 1e3);
    print!("| {name} | {} | {} | {} | {difference:.1e} |", taylor.n, ms(best_seconds(&taylor)), ms(best_seconds(&krylov)));
    for words in put_to("peers.py", &files(&taylor, kind, &exact, difference)) {
        let number = |i: usize| words.get(i).and_then(|word: &String| word.parse::<f64>().ok());
        print!(" {} |", ms(number(1).unwrap_or(f64::NAN)));
        if let Some(tol) = number(3) {
            print!(" {tol:.0e} |");
        }
        print!(" {:.1e} |", number(2).unwrap_or(f64::NAN));
    }
    println!();
}

/// The library's result.
fn field(job: &Job) -> Vec<f64> {
    let (mut out, mut work) = (vec![0.0; job.out], vec![0.0; job.work]);
    assert_eq!(library::call(job, &mut out, &mut work).number, 0);
    out
}

/// Writes the files of a problem, and gives what a script beside this crate prints about them, line by line and word by word; what it
/// complains of goes to the standard error.
pub fn put_to(script: &str, files: &[(String, String)]) -> Vec<Vec<String>> {
    let folder = std::env::temp_dir().join(format!("hazhendu-benchmark-{}", std::process::id()));
    std::fs::create_dir_all(&folder).expect("a folder for the problem");
    for (name, text) in files {
        std::fs::write(folder.join(name), text).expect(name);
    }
    let path = format!("{}/{script}", env!("CARGO_MANIFEST_DIR"));
    let output = Command::new("/usr/bin/python3").arg(path).arg(&folder).output().expect("python3");
    std::fs::remove_dir_all(&folder).expect("the folder removed");
    eprint!("{}", String::from_utf8_lossy(&output.stderr));
    let text = String::from_utf8_lossy(&output.stdout);
    text.lines().map(|line| line.split_whitespace().map(str::to_string).collect()).collect()
}

/// The job, its field and the difference that is wanted, one number a line.
fn files(job: &Job, kind: &str, field: &[f64], wanted: f64) -> Vec<(String, String)> {
    let files = [
        ("starts", lines(&job.starts)),
        ("columns", lines(&job.cols)),
        ("entries", lines(&job.vals)),
        ("mass", lines(job.mass.as_deref().unwrap_or(&[]))),
        ("vectors", lines(&job.w)),
        ("tau", lines(&[job.tau])),
        ("result", lines(field)),
        ("wanted", lines(&[wanted])),
        ("kind", kind.to_string()),
    ];
    files.map(|(name, text)| (name.to_string(), text)).into()
}

pub fn lines<T: std::fmt::Debug>(list: &[T]) -> String {
    list.iter().fold(String::new(), |mut text, x| {
        writeln!(text, "{x:?}").expect("text");
        text
    })
}
