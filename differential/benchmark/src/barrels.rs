//! The sample barrels as jobs: `run` has samples/make.py write their files.

use std::fs::read_to_string;

use jobs::{Call, Job, DEGREE};

pub const NAMES: [&str; 3] = ["relay-35mm", "collimator-90mm", "zoom-two-groups"];
/// What docs/CHOOSING.md takes for them.
pub const KRYLOV: Call = Call::Krylov { tol: 1e-10, m: 40, limit: 100_000 };

/// The soak of a barrel from its start, with its heating: what the words of its file `arguments` name.
pub fn job(name: &str, call: Call) -> Job {
    let folder = format!("{}/../target/barrels/{name}", env!("CARGO_MANIFEST_DIR"));
    let read = |file: &str| read_to_string(format!("{folder}/{file}")).unwrap_or_else(|e| panic!("{folder}/{file}: {e}"));
    let text = read("arguments");
    let words: Vec<&str> = text.split_whitespace().collect();
    let all = |key| words.iter().zip(&words[1..]).filter(move |(word, _)| **word == key).map(|(_, value)| *value);
    let (starts, cols, vals) = matrix(&read(words[0]));
    let n = starts.len() - 1;
    let w: Vec<f64> = all("--vector").flat_map(|file| numbers(&read(file))).collect();
    let mass = all("--mass").next().map(|file| numbers(&read(file)));
    let tau = all("--tau").next().and_then(|word| word.parse().ok()).expect("tau");
    let mut job = Job { call, n, starts, cols, vals, mass, tau, degree: DEGREE, count: w.len() / n, w, out: 0, work: 0, lent: None };
    job.out = job.output();
    job.work = job.need();
    job
}

/// The numbers of the lines that are no comment.
fn numbers(text: &str) -> Vec<f64> {
    let lines = text.lines().filter(|line| !line.starts_with(['%', '#']));
    lines.flat_map(str::split_whitespace).map(|word| word.parse().expect("a number")).collect()
}

/// Row starts, columns and entries of a Matrix Market text in coordinates, as make.py writes it: row by row.
fn matrix(text: &str) -> (Vec<u32>, Vec<u32>, Vec<f64>) {
    let lines: Vec<Vec<f64>> = text.lines().filter(|line| !line.starts_with('%')).map(numbers).collect();
    let entries = &lines[1..];
    assert!(entries.windows(2).all(|two| two[0][0] <= two[1][0]), "entries row by row");
    let rows = lines[0][0] as usize;
    let starts = (0..=rows).map(|i| entries.partition_point(|entry| entry[0] as usize <= i) as u32).collect();
    (starts, entries.iter().map(|entry| entry[1] as u32 - 1).collect(), entries.iter().map(|entry| entry[2]).collect())
}
