//! Soaks under a changing ambient level (document 02, N12), put to the proved library and to the Rust as single Taylor calls in a row. See
//! ../README.md.
//!
//! usage: ambient [SEED [LOGS]], by default 1 and 10,000; from 10,000 logs on the first has 100,000 records. Status 1 if an answer differs.

#[allow(dead_code)]
#[path = "../../src/generate.rs"]
mod generate;
mod log;
#[allow(dead_code)]
#[path = "../../src/random.rs"]
mod random;
mod reference;

use std::collections::BTreeMap;
use std::process::ExitCode;

use jobs::ambient::{Left, Log};
use jobs::Job;
use random::Random;

/// Operations of a record above which a log is left out.
const COST: u64 = 100_000;
/// Logs from which on one of them is as long as can be.
const MANY: usize = 10_000;
/// How many differences are printed.
const SHOWN: u64 = 5;

#[derive(Default)]
struct Tally {
    compared: u64,
    costly: u64,
    records: u64,
    different: u64,
    /// What was met, and how often.
    met: BTreeMap<String, u64>,
}

impl Tally {
    fn hit(&mut self, what: impl Into<String>) {
        *self.met.entry(what.into()).or_default() += 1;
    }

    fn add(&mut self, other: Tally) {
        self.compared += other.compared;
        self.costly += other.costly;
        self.records += other.records;
        self.different += other.different;
        other.met.into_iter().for_each(|(what, hits)| *self.met.entry(what).or_default() += hits);
    }
}

fn count(t: &mut Tally, base: &Job, log: &Log, left: &Left) {
    t.compared += 1;
    let place = match left.record {
        0 => "before any record",
        1 => "at record 1",
        _ => "at a later record",
    };
    let results = match (left.number, left.record) {
        (0, 0) => log.durations.len(),
        (_, record) => (record as usize).saturating_sub(1),
    };
    t.records += results as u64;
    t.hit(match (left.number, left.record) {
        (0, 0) => "done".to_string(),
        (0, _) => format!("NaN {place}"),
        (number, _) => format!("refused by {number:2} {place}"),
    });
    let [temperatures, largest, smallest] = left.results.each_ref().map(|list| &list[..results]);
    if temperatures.iter().any(|x| x.is_infinite()) {
        t.hit("infinite temperatures among the results");
    }
    if temperatures.iter().any(|x| *x == 0.0 && x.is_sign_negative()) {
        t.hit("temperatures of -0 among the results");
    }
    if largest.iter().zip(smallest).any(|(l, s)| l != s) {
        t.hit("extremes that differ");
    }
    if results > log.window {
        t.hit("more results than the window has");
    }
    if results > 0 && log.places.iter().any(|places| *places > results) {
        t.hit("results with marks behind them");
    }
    if left.number != 0 || left.record != 0 {
        return;
    }
    t.hit(if base.mass.is_some() { "done with a mass" } else { "done without a mass" });
    t.hit(match log.durations.len() {
        1 => "done records: 1",
        2..=8 => "done records: 2 to 8",
        9..=99 => "done records: 9 to 51",
        _ => "done records: 100,000",
    });
    if left.work.last().is_some_and(|x| x.to_bits() != 0) {
        t.hit("done with marks behind what is cleared");
    }
}

fn one(t: &mut Tally, seed: u64, i: usize, logs: usize) {
    let r = &mut Random::of(seed, i);
    let (base, log) = if i == 0 && logs >= MANY { log::longest(100_000, r) } else { log::log(r) };
    let Some(expected) = reference::expected(&base, &log, COST) else {
        t.costly += 1;
        return;
    };
    count(t, &base, &log, &expected);
    let got = library::ambient::answer(&base, &log);
    let parts = got.differs(&expected);
    if !parts.is_empty() {
        t.different += 1;
        if t.different <= SHOWN && log.durations.len() <= 50 {
            println!(
                "log {i} differs in {}:\n  {}\n  rattle {}\n  rust   {}",
                parts.join(", "),
                log.print(&base),
                got.print(),
                expected.print()
            );
        }
    }
}

fn main() -> ExitCode {
    let mut numbers = std::env::args().skip(1).map(|word| word.parse::<u64>().expect("a number"));
    let (seed, logs) = (numbers.next().unwrap_or(1), numbers.next().unwrap_or(10_000) as usize);
    let threads = std::thread::available_parallelism().map_or(1, usize::from);
    let share = |first: usize| {
        let mut t = Tally::default();
        (first..logs).step_by(threads).for_each(|i| one(&mut t, seed, i, logs));
        t
    };
    let mut t = Tally::default();
    std::thread::scope(|scope| {
        let shares: Vec<_> = (0..threads).map(|first| scope.spawn(move || share(first))).collect();
        shares.into_iter().for_each(|s| t.add(s.join().expect("a thread that ends")));
    });
    let Tally { compared, costly, records, .. } = t;
    println!("logs {logs}, compared {compared}, above the cost {costly}; {records} records with results");
    t.met.iter().for_each(|(what, hits)| println!("  {what:46} {hits}"));
    println!("different logs: {}", t.different);
    if t.different == 0 {
        ExitCode::SUCCESS
    } else {
        ExitCode::FAILURE
    }
}
