//! Soaks in stages (document 02, N11), put to the proved library and to the Rust as single calls in a row. See ../README.md.
//!
//! usage: stages [SEED [SCHEDULES]], by default 1 and 20,000. Status 1 if an answer differs.

#[allow(dead_code)]
#[path = "../../src/generate.rs"]
mod generate;
#[allow(dead_code)]
#[path = "../../src/random.rs"]
mod random;
mod reference;
mod schedule;

use std::collections::BTreeMap;
use std::process::ExitCode;

use jobs::stages::{Left, Schedule};
use jobs::Job;
use random::Random;

/// Operations of a stage above which a schedule is left out.
const COST: u64 = 400_000;
/// How many differences are printed.
const SHOWN: u64 = 5;

#[derive(Default)]
struct Tally {
    compared: u64,
    costly: u64,
    stages: u64,
    different: u64,
    /// What was met, and how often.
    met: BTreeMap<String, u64>,
}

impl Tally {
    fn hit(&mut self, what: impl Into<String>) {
        *self.met.entry(what.into()).or_default() += 1;
    }

    fn add(&mut self, other: Tally) {
        self.compared += other.compared;
        self.costly += other.costly;
        self.stages += other.stages;
        self.different += other.different;
        other.met.into_iter().for_each(|(what, hits)| *self.met.entry(what).or_default() += hits);
    }
}

fn count(t: &mut Tally, base: &Job, s: &Schedule, left: &Left) {
    t.compared += 1;
    let stages = s.taus.len();
    let where_ = match left.stage {
        0 => "before any stage",
        1 => "at stage 1",
        stage if stage as usize == stages => "at the last stage",
        _ => "in between",
    };
    t.hit(match left.number {
        0 => "accepted".to_string(),
        number => format!("refused by {number:2} {where_}"),
    });
    if left.number != 0 {
        return;
    }
    t.stages += stages as u64;
    let krylov = s.solvers.iter().filter(|solver| **solver != 0).count();
    let solvers = match krylov {
        0 => "Taylor alone",
        all if all == stages => "Krylov alone",
        _ => "both solvers",
    };
    t.hit(format!("accepted by {solvers}"));
    t.hit(if base.mass.is_some() { "accepted with a mass" } else { "accepted without a mass" });
    t.hit(match stages {
        1 => "accepted stages: 1",
        2..=6 => "accepted stages: 2 to 6",
        64 => "accepted stages: 64",
        _ => "accepted stages: 7 to 63",
    });
    if base.work > 0 && left.work.last() != Some(&0.0) {
        t.hit("accepted with marks behind what is cleared");
    }
    if left.counts[2] > 0 {
        t.hit("accepted with rejections");
    }
}

fn one(t: &mut Tally, seed: u64, i: usize) {
    let (base, s) = schedule::schedule(&mut Random::of(seed, i));
    let Some(expected) = reference::expected(&base, &s, COST) else {
        t.costly += 1;
        return;
    };
    count(t, &base, &s, &expected);
    let got = library::stages::answer(&base, &s);
    let parts = got.differs(&expected);
    if !parts.is_empty() {
        t.different += 1;
        if t.different <= SHOWN {
            println!(
                "schedule {i} differs in {}:\n  {}\n  rattle {}\n  rust   {}",
                parts.join(", "),
                s.print(&base),
                got.print(),
                expected.print()
            );
        }
    }
}

fn main() -> ExitCode {
    let mut numbers = std::env::args().skip(1).map(|word| word.parse::<u64>().expect("a number"));
    let (seed, schedules) = (numbers.next().unwrap_or(1), numbers.next().unwrap_or(20_000) as usize);
    let threads = std::thread::available_parallelism().map_or(1, usize::from);
    let share = |first: usize| {
        let mut t = Tally::default();
        (first..schedules).step_by(threads).for_each(|i| one(&mut t, seed, i));
        t
    };
    let mut t = Tally::default();
    std::thread::scope(|scope| {
        let shares: Vec<_> = (0..threads).map(|first| scope.spawn(move || share(first))).collect();
        shares.into_iter().for_each(|s| t.add(s.join().expect("a thread that ends")));
    });
    let Tally { compared, costly, stages, .. } = t;
    println!("schedules {schedules}, compared {compared}, above the cost {costly}; {stages} stages of accepted ones");
    t.met.iter().for_each(|(what, hits)| println!("  {what:46} {hits}"));
    println!("different schedules: {}", t.different);
    if t.different == 0 {
        ExitCode::SUCCESS
    } else {
        ExitCode::FAILURE
    }
}
