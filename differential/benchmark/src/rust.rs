//! The four calls beside the Rust original, both from the same slices: on plates, and on the sample barrels.

use jobs::{Call, Job};

use crate::{barrels, clock, memory, plate, seconds, CALLS, KRYLOV, ROUNDS, SIZES};

struct Times {
    rattle: f64,
    rust: f64,
    rust_at_hand: f64,
}

/// Seconds for each line of a table.
const SPENT: f64 = 4.0;

/// The best of the rounds in which the sides take turns: as many as fill [`SPENT`], and at least [`ROUNDS`].
fn times(job: &Job) -> Times {
    let op = oracle::prepared(job).expect("a valid matrix");
    let (mut out, mut rust_out, mut work) = (vec![0.0; job.out], vec![0.0; job.out], vec![0.0; job.work]);
    let mut best = Times { rattle: f64::INFINITY, rust: f64::INFINITY, rust_at_hand: f64::INFINITY };
    let (begin, mut rounds) = (clock::now(), 0);
    while rounds < ROUNDS || clock::now() - begin < SPENT {
        rounds += 1;
        best.rattle = best.rattle.min(seconds(|| assert_eq!(library::call(job, &mut out, &mut work).number, 0)));
        best.rust_at_hand = best.rust_at_hand.min(seconds(|| assert!(oracle::plain(&op, job, &mut rust_out))));
        best.rust = best.rust.min(seconds(|| {
            let op = oracle::prepared(job).expect("a valid matrix");
            assert!(oracle::plain(&op, job, &mut rust_out));
        }));
    }
    best
}

/// A line: the applications, the times, and the library's divided by the Rust's.
fn line(name: &str, job: &Job) {
    let (mut out, mut work) = (vec![0.0; job.out], vec![0.0; job.work]);
    let told = library::call(job, &mut out, &mut work);
    assert_eq!(told.number, 0);
    let applications = if matches!(job.call, Call::Krylov { .. }) { told.counts[0] } else { told.counts[2] };
    let t = times(job);
    println!(
        "| {name} | {} | {} | {applications} | {:.1} | {:.1} | {:.2} | {:.2} |",
        job.n,
        yes(job.mass.is_some()),
        t.rattle * 1e6,
        t.rust * 1e6,
        t.rattle / t.rust,
        t.rattle / t.rust_at_hand,
    );
}

fn yes(with_mass: bool) -> &'static str {
    if with_mass {
        "yes"
    } else {
        "no"
    }
}

fn head(first: &str) {
    println!("| {first} | rows | mass | applications | us | Rust, us | ratio | ratio, the Rust's matrix at hand |");
    println!("|---|---|---|---|---|---|---|---|");
}

/// Plates: of every call and size, or of those that `only` names: a call, and then a number of rows.
pub fn plates(only: &[String]) {
    head("call");
    for (name, call, count) in CALLS {
        for size in SIZES {
            for with_mass in [false, true] {
                let job = plate::job(size, with_mass, call, count);
                if only.iter().zip([name.to_string(), job.n.to_string()]).all(|(word, own)| *word == own) {
                    line(name, &job);
                }
            }
        }
    }
}

/// The sample barrels, by both solvers or the one that is named.
pub fn barrels(only: &[String]) {
    head("barrel");
    for name in barrels::NAMES {
        for (solver, call) in [("Taylor", Call::Combination), ("Krylov", barrels::KRYLOV)] {
            if only.iter().all(|word| word == solver) {
                line(&format!("{name}, {solver}"), &barrels::job(name, call));
            }
        }
    }
}

/// What the caller lends the library, and the most that the Rust's call allocates at once.
pub fn working_memory() {
    println!("| call | rows | mass | lent, kB | the Rust allocates, kB |");
    println!("|---|---|---|---|---|");
    for (name, call) in [("phi_combination", Call::Combination), ("phi_combination_krylov", KRYLOV)] {
        for size in SIZES {
            for with_mass in [false, true] {
                let job = plate::job(size, with_mass, call, 2);
                let op = oracle::prepared(&job).expect("a valid matrix");
                let mut out = vec![0.0; job.out];
                let rust = memory::peak(|| assert!(oracle::plain(&op, &job, &mut out)));
                println!("| {name} | {} | {} | {} | {} |", job.n, yes(with_mass), 8 * job.work / 1000, rust / 1000);
            }
        }
    }
}
