//! Times the four calls of the proved library and of the Rust original on the same jobs: heat conduction on a plate of
//! rectangles, with and without a mass, with a source, and the sample barrels. Both sides run in turn, round by round, and the best round of each
//! counts. See README.md.

mod ambient;
mod barrels;
mod clock;
mod growth;
mod join;
mod memory;
mod peers;
mod plate;
mod rust;
mod stages;
mod steps;
mod transpose;

use jobs::{Call, Job};

const ROUNDS: usize = 7;
/// Each timing repeats its call until this many seconds have passed.
const LEAST: f64 = 0.002;

const KRYLOV: Call = Call::Krylov { tol: 1e-10, m: 30, limit: 100_000 };
const CALLS: [(&str, Call, usize); 4] = [
    ("phi_combination", Call::Combination, 2),
    ("phi_action", Call::Action, 1),
    ("phi_action_batched", Call::Batched, 2),
    ("phi_combination_krylov", KRYLOV, 2),
];
const SIZES: [(usize, usize); 4] = [(8, 8), (25, 40), (100, 100), (250, 400)];

fn main() {
    let words: Vec<String> = std::env::args().skip(1).collect();
    match words.first().map(String::as_str) {
        None => {
            rust::plates(&[]);
            println!();
            rust::barrels(&[]);
            println!();
            peers::table();
            println!();
            join::table();
        }
        Some("rust") => rust::plates(&words[1..]),
        Some("barrels") => rust::barrels(&words[1..]),
        Some("memory") => rust::working_memory(),
        Some("growth") => growth::table(),
        Some("peers") => peers::table(),
        Some("join") => join::table(),
        Some("steps") => steps::table(),
        Some("stages") => stages::table(),
        Some("ambient") => ambient::table(),
        Some("transpose") => transpose::table(),
        _ => eprintln!("usage: benchmark [rust [CALL [ROWS]]|barrels [SOLVER]|memory|growth|peers|join|steps|stages|ambient|transpose]"),
    }
}

/// Seconds of one call, the mean of as many as fill [`LEAST`].
fn seconds(mut call: impl FnMut()) -> f64 {
    let begin = clock::now();
    let mut calls = 0;
    while calls == 0 || clock::now() - begin < LEAST {
        call();
        calls += 1;
    }
    (clock::now() - begin) / f64::from(calls)
}

/// The best of [`ROUNDS`] rounds.
fn best_of_rounds(mut call: impl FnMut()) -> f64 {
    std::iter::repeat_with(|| seconds(&mut call)).take(ROUNDS).fold(f64::INFINITY, f64::min)
}

/// The library's best.
fn best_seconds(job: &Job) -> f64 {
    let (mut out, mut work) = (vec![0.0; job.out], vec![0.0; job.work]);
    best_of_rounds(|| assert_eq!(library::call(job, &mut out, &mut work).number, 0))
}
