//! A Krylov run by steps beside the whole call: what the checks at each step, the quotients and the copies of the field cost. The two
//! take turns, and the best call of each counts, so that other work on the same cores shows little.

use std::time::Instant;

use jobs::paused::{COUNTS, ENDED, NUMBERS};
use jobs::Job;
use library::paused::{call_start, call_step, Lent};

use crate::clock::timed;
use crate::{plate, KRYLOV, SIZES};

/// Seconds for each row of the table, and the least number of turns.
const SPENT: f64 = 3.0;
const TURNS: usize = 10;

/// What a run by steps lends.
struct Memory {
    numbers: [f64; NUMBERS],
    counts: [usize; COUNTS],
    field: Vec<f64>,
    out: Vec<f64>,
    work: Vec<f64>,
}

impl Memory {
    fn lent(&mut self) -> Lent<'_> {
        Lent { numbers: &mut self.numbers, counts: &mut self.counts, field: &mut self.field, out: &mut self.out, work: &mut self.work }
    }
}

/// Start and steps; how many there were.
fn by_steps(job: &Job, memory: &mut Memory) -> usize {
    assert_eq!(call_start(job, memory.lent()).0, 0);
    let mut steps = 0;
    while memory.counts[ENDED] == 0 {
        assert_eq!(call_step(job, None, memory.lent()).0, 0);
        steps += 1;
    }
    steps
}

pub fn table() {
    println!("| rows | mass | steps | applications | whole call, us | start and steps, us | steps / whole |");
    println!("|---|---|---|---|---|---|---|");
    for size in SIZES {
        for with_mass in [false, true] {
            let job = plate::job(size, with_mass, KRYLOV, 2);
            let (mut out, mut work) = (vec![0.0; job.out], vec![0.0; job.work]);
            let field = vec![0.0; job.n + job.degree()];
            let mut memory = Memory { numbers: [0.0; NUMBERS], counts: [0; COUNTS], field, out: out.clone(), work: work.clone() };
            let steps = by_steps(&job, &mut memory);
            let applications = library::call(&job, &mut out, &mut work).counts[0];
            assert_eq!(out, memory.out);
            let (mut whole, mut divided) = (f64::INFINITY, f64::INFINITY);
            let (begin, mut turns) = (Instant::now(), 0);
            while turns < TURNS || begin.elapsed().as_secs_f64() < SPENT {
                whole = whole.min(timed(|| assert_eq!(library::call(&job, &mut out, &mut work).number, 0)));
                divided = divided.min(timed(|| assert_eq!(by_steps(&job, &mut memory), steps)));
                turns += 1;
            }
            println!(
                "| {} | {} | {steps} | {applications} | {:.1} | {:.1} | {:.3} |",
                job.n,
                if with_mass { "yes" } else { "no" },
                whole * 1e6,
                divided * 1e6,
                divided / whole
            );
        }
    }
}
