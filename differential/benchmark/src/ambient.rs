//! A log of 100,000 records beside as many single calls, for which the driver copies the field and multiplies the load by the level: with a window
//! of one record, and with the longest. The three take turns, and the best of each counts, in processor time: a turn takes
//! seconds, in which other work would show.

use jobs::ambient::Log;
use jobs::{Call, Job};

use crate::clock::timed;
use crate::plate;

const RECORDS: usize = 100_000;
const SIZE: (usize, usize) = (6, 10);
const TURNS: usize = 3;
/// tau times the norm of a record, about: a logger's minute of a slow part, of a quick one, and a record as long as the other tables' jobs.
const STIFFNESS: [f64; 4] = [0.01, 1.0, 8.0, 60.0];
const WINDOWS: [usize; 2] = [1, 1024];

fn log(job: &Job, window: usize, stiffness: f64) -> Log {
    let (field, load) = job.w.split_at(job.n);
    let levels = (0..RECORDS).map(|i| 1.0 + (i as f64 / 700.0).sin()).collect();
    // the plate's norm is about 8 without a mass
    let durations = vec![stiffness / 8.0; RECORDS];
    Log { durations, levels, field: field.to_vec(), load: load.to_vec(), window, node: job.n / 2, places: [RECORDS; 3] }
}

/// The single calls in a row, with the temperature after each.
fn in_a_row(job: &mut Job, log: &Log, out: &mut [f64], work: &mut [f64], temperatures: &mut [f64]) {
    let n = job.n;
    job.w[..n].copy_from_slice(&log.field);
    for (i, temperature) in temperatures.iter_mut().enumerate() {
        for (w, load) in job.w[n..].iter_mut().zip(&log.load) {
            *w = load * log.levels[i];
        }
        job.tau = log.durations[i];
        assert_eq!(library::call(job, out, work).number, 0);
        *temperature = out[log.node];
        job.w[..n].copy_from_slice(out);
    }
}

pub fn table() {
    println!(
        "| tau norm, about | mass | single calls, s | W = 1, s | W = 1,024, s | W = 1 / calls | W = 1,024 / calls | W = 1,024 / W = 1 |"
    );
    println!("|---|---|---|---|---|---|---|---|");
    for stiffness in STIFFNESS {
        for with_mass in [false, true] {
            let mut job = plate::job(SIZE, with_mass, Call::Combination, 2);
            let logs = WINDOWS.map(|window| log(&job, window, stiffness));
            let (mut out, mut work) = (vec![0.0; job.n], vec![0.0; job.work + job.n]);
            let mut results = [0; 3].map(|_| vec![0.0; RECORDS]);
            let mut temperatures = vec![0.0; RECORDS];
            let mut best = [f64::INFINITY; 3];
            for _ in 0..TURNS {
                let calls = timed(|| in_a_row(&mut job, &logs[0], &mut out, &mut work, &mut temperatures));
                best[0] = best[0].min(calls);
                let field = out.clone();
                for (log, best) in logs.iter().zip(&mut best[1..]) {
                    let lists = results.each_mut().map(|list| &mut list[..]);
                    let made = timed(|| {
                        let told = library::ambient::call(&job, log, &mut out, &mut work, lists);
                        assert_eq!((told.number, told.record), (0, 0));
                    });
                    *best = best.min(made);
                    assert_eq!((&out, &results[0]), (&field, &temperatures));
                }
            }
            let [calls, narrow, wide] = best;
            println!(
                "| {stiffness} | {} | {calls:.3} | {narrow:.3} | {wide:.3} | {:.3} | {:.3} | {:.3} |",
                if with_mass { "yes" } else { "no" },
                narrow / calls,
                wide / calls,
                wide / narrow
            );
        }
    }
}
