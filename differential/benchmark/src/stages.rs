//! A schedule beside as many single calls, the field of each copied to the front of the next one's vectors. The two take turns, and the best
//! call of each counts.

use std::time::Instant;

use jobs::stages::Schedule;
use jobs::{Call, Job, DEGREE};

use crate::clock::timed;
use crate::{plate, KRYLOV, SIZES};

/// Seconds for each row of the table, and the least number of turns.
const SPENT: f64 = 3.0;
const TURNS: usize = 10;
const STAGES: usize = 3;

/// The job as every stage.
fn schedule(job: &Job) -> Schedule {
    let (solver, tol, m, limit) = match job.call {
        Call::Krylov { tol, m, limit } => (1, tol, m, limit),
        _ => (0, 0.0, 0, 0),
    };
    let (w_0, further) = job.w.split_at(job.n);
    Schedule {
        taus: vec![job.tau; STAGES],
        counts: vec![job.count; STAGES],
        solvers: vec![solver; STAGES],
        degrees: vec![DEGREE; STAGES],
        tols: vec![tol; STAGES],
        ms: vec![m; STAGES],
        limits: vec![limit; STAGES],
        start: w_0.to_vec(),
        further: further.repeat(STAGES),
    }
}

/// The single calls in a row.
fn in_a_row(job: &mut Job, start: &[f64], out: &mut [f64], work: &mut [f64]) {
    job.w[..start.len()].copy_from_slice(start);
    for _ in 0..STAGES {
        assert_eq!(library::call(job, out, work).number, 0);
        job.w[..start.len()].copy_from_slice(out);
    }
}

pub fn table() {
    println!("| solver | rows | mass | applications | {STAGES} single calls, us | {STAGES} stages, us | stages / calls |");
    println!("|---|---|---|---|---|---|---|");
    for (name, call) in [("Taylor", Call::Combination), ("Krylov", KRYLOV)] {
        for size in SIZES {
            for with_mass in [false, true] {
                let mut job = plate::job(size, with_mass, call, 2);
                let schedule = schedule(&job);
                let (mut out, mut work) = (vec![0.0; job.out], vec![0.0; job.work]);
                in_a_row(&mut job, &schedule.start, &mut out, &mut work);
                let field = out.clone();
                let told = library::stages::call(&job, &schedule, &mut out, &mut work);
                assert_eq!((told.number, &out), (0, &field));
                let (mut single, mut staged) = (f64::INFINITY, f64::INFINITY);
                let (begin, mut turns) = (Instant::now(), 0);
                while turns < TURNS || begin.elapsed().as_secs_f64() < SPENT {
                    single = single.min(timed(|| in_a_row(&mut job, &schedule.start, &mut out, &mut work)));
                    staged = staged.min(timed(|| assert_eq!(library::stages::call(&job, &schedule, &mut out, &mut work).number, 0)));
                    turns += 1;
                }
                println!(
                    "| {name} | {} | {} | {} | {:.1} | {:.1} | {:.3} |",
                    job.n,
                    if with_mass { "yes" } else { "no" },
                    told.counts[0],
                    single * 1e6,
                    staged * 1e6,
                    staged / single
                );
            }
        }
    }
}
