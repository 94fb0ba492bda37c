//! Puts jobs to the Rust original and to the proved library, and compares the answers bit for bit. See README.md.

mod change;
mod generate;
mod paused;
mod random;

use std::collections::BTreeMap;
use std::process::ExitCode;

use compare::paused::{undivided, Seen};
use compare::{reference, Difference, Expected};
use generate::{Kind, KINDS};
use jobs::{Answer, Call, Job};
use random::Random;

const USAGE: &str = "usage:
  differential run [--seed N] [--jobs N] [--calls combination,krylov,action,batched] [--cost N] [--show N] [--libm] [--find NUMBER|PATH] [--threads N]
  differential jobs [--seed N] [--jobs N] [--calls ...]
  differential replay FILE --side rust|transcribed|rattle|bytes|steps";

fn main() -> ExitCode {
    let words: Vec<String> = std::env::args().skip(1).collect();
    let done = match words.first().map(String::as_str) {
        Some("run") => Options::read(&words[1..]).map(|o| run(&o)),
        Some("jobs") => Options::read(&words[1..]).map(|o| {
            (0..o.jobs).for_each(|i| println!("{}", job(&o, i).print()));
            true
        }),
        Some("replay") if words.len() == 4 && words[2] == "--side" => replay(&words[1], &words[3]),
        _ => Err(USAGE.into()),
    };
    match done {
        Ok(true) => ExitCode::SUCCESS,
        Ok(false) => ExitCode::FAILURE,
        Err(e) => {
            eprintln!("{e}");
            ExitCode::from(2)
        }
    }
}

struct Options {
    seed: u64,
    jobs: usize,
    kinds: Vec<Kind>,
    /// Jobs whose run takes more operations than this are skipped and counted.
    cost: u64,
    /// How many differences are printed with their job.
    show: usize,
    /// Jobs with this number or path are printed.
    find: Option<String>,
    /// Also lists where the Rust with its own libm differs from the transcribed.
    libm: bool,
    threads: usize,
}

impl Options {
    fn read(words: &[String]) -> Result<Options, String> {
        let threads = std::thread::available_parallelism().map_or(1, usize::from);
        let mut o = Options { seed: 1, jobs: 100_000, kinds: KINDS.to_vec(), cost: 20_000_000, show: 5, find: None, libm: false, threads };
        let mut words = words.iter();
        while let Some(word) = words.next() {
            if word == "--libm" {
                o.libm = true;
                continue;
            }
            let value = words.next().ok_or(format!("{word} needs a value\n{USAGE}"))?;
            let number = || value.parse::<u64>().map_err(|e| format!("{word} {value}: {e}"));
            match word.as_str() {
                "--seed" => o.seed = number()?,
                "--jobs" => o.jobs = number()? as usize,
                "--cost" => o.cost = number()?,
                "--find" => o.find = Some(value.clone()),
                "--show" => o.show = number()? as usize,
                "--threads" => o.threads = number()?.max(1) as usize,
                "--calls" => o.kinds = value.split(',').map(kind).collect::<Result<_, _>>()?,
                _ => return Err(format!("no option {word}\n{USAGE}")),
            }
        }
        Ok(o)
    }
}

fn kind(name: &str) -> Result<Kind, String> {
    KINDS.into_iter().find(|k| name_of(*k) == name).ok_or(format!("no call {name}"))
}

fn name_of(kind: Kind) -> &'static str {
    match kind {
        Kind::Combination => "combination",
        Kind::Krylov => "krylov",
        Kind::Action => "action",
        Kind::Batched => "batched",
    }
}

/// Job i of a run: the calls in turn, of each four of a call one a short one, as long as there are any.
fn job(o: &Options, i: usize) -> Job {
    let kind = o.kinds[i % o.kinds.len()];
    let index = i / o.kinds.len();
    let short = index / 4;
    if index.is_multiple_of(4) && short < generate::SHORT {
        generate::short(kind, short)
    } else {
        generate::random(kind, &mut Random::of(o.seed, i))
    }
}

/// What a run counts.
#[derive(Default)]
struct Tally {
    compared: u64,
    on_bytes: u64,
    large_on_bytes: u64,
    above_64_rows: u64,
    costly: u64,
    different: u64,
    libm_compared: u64,
    libm_different: u64,
    /// How many of the latter differ in which parts.
    libm_parts: BTreeMap<String, u64>,
    /// The largest difference of two outputs, relative to the largest value.
    libm_largest: f64,
    /// Accepted Taylor jobs by the highest degree of the plan.
    degrees: BTreeMap<u32, u64>,
    /// Rows named as the first of the largest sum: of the transposed matrix or not, with a mass or not, tied with a later one or not.
    rows: BTreeMap<(bool, bool, bool), u64>,
    /// Transposed jobs by their call and by what their answers show of the transpose.
    transposed: BTreeMap<String, u64>,
    /// Paused runs: what was met.
    paused: BTreeMap<String, u64>,
    plans: BTreeMap<String, u64>,
    numbers: BTreeMap<(u32, &'static str), u64>,
    paths: BTreeMap<&'static str, u64>,
}

impl Tally {
    fn add(&mut self, other: Tally) {
        self.compared += other.compared;
        self.on_bytes += other.on_bytes;
        self.large_on_bytes += other.large_on_bytes;
        self.above_64_rows += other.above_64_rows;
        self.costly += other.costly;
        self.different += other.different;
        self.libm_compared += other.libm_compared;
        self.libm_different += other.libm_different;
        self.libm_largest = self.libm_largest.max(other.libm_largest);
        for (key, hits) in other.libm_parts {
            *self.libm_parts.entry(key).or_default() += hits;
        }
        for (key, hits) in other.degrees {
            *self.degrees.entry(key).or_default() += hits;
        }
        for (key, hits) in other.rows {
            *self.rows.entry(key).or_default() += hits;
        }
        for (key, hits) in other.transposed {
            *self.transposed.entry(key).or_default() += hits;
        }
        for (key, hits) in other.paused {
            *self.paused.entry(key).or_default() += hits;
        }
        for (key, hits) in other.plans {
            *self.plans.entry(key).or_default() += hits;
        }
        for (key, hits) in other.numbers {
            *self.numbers.entry(key).or_default() += hits;
        }
        for (key, hits) in other.paths {
            *self.paths.entry(key).or_default() += hits;
        }
    }
}

/// Jobs whose paused runs come before those of the random ones: boundaries, and paths that random jobs seldom take.
const FIXED: [&str; 2] = [include_str!("../documents.jobs"), include_str!("../paths.jobs")];

/// How many runs with changes are made from each of them.
const FIXED_RUNS: usize = 20;

/// The paused runs of the fixed jobs.
fn fixed(o: &Options, t: &mut Tally) {
    let lines = FIXED.iter().flat_map(|file| file.lines()).filter(|line| !line.trim().is_empty() && !line.starts_with('#'));
    for job in lines.map(|line| Job::parse(line).expect("a job in the text form")).filter(paused::has_steps) {
        let Some(Expected { answer, .. }) = compare::expected(&job, o.cost) else { continue };
        paused(o, usize::MAX, t, |r, seen| undivided(&job, &answer, o.cost, |n| r.below(n), seen));
        (1..=FIXED_RUNS).for_each(|i| paused(o, usize::MAX - i, t, |r, seen| paused::changes(&job, &answer, o.cost, r, seen)));
    }
}

/// Every thread takes its share of the jobs.
fn run(o: &Options) -> bool {
    let share = |first: usize| {
        let mut t = Tally::default();
        (first..o.jobs).step_by(o.threads).for_each(|i| one(o, &job(o, i), i, &mut t));
        t
    };
    let mut t = Tally::default();
    if o.kinds.contains(&Kind::Krylov) {
        fixed(o, &mut t);
    }
    std::thread::scope(|scope| {
        let shares: Vec<_> = (0..o.threads).map(|first| scope.spawn(move || share(first))).collect();
        shares.into_iter().for_each(|s| t.add(s.join().expect("a thread that ends")));
    });
    println!("jobs {}, compared {} ({} of more than 64 rows), above the cost {}", o.jobs, t.compared, t.above_64_rows, t.costly);
    println!("on bytes: compared {}, and {} large ones answered by 255", t.on_bytes, t.large_on_bytes);
    let degrees: Vec<String> = t.degrees.iter().map(|(degree, hits)| format!("{degree}: {hits}")).collect();
    println!("accepted Taylor jobs by highest degree: {}", degrees.join(", "));
    println!("rows of largest sum:");
    for ((transposed, mass, tied), hits) in &t.rows {
        let (direction, mass) = (if *transposed { "transposed" } else { "forward" }, if *mass { "with a" } else { "without" });
        println!("  {direction:10}, {mass} mass, {:8} {hits}", if *tied { "tied" } else { "alone" });
    }
    println!("transposed jobs:");
    for (what, hits) in &t.transposed {
        println!("  {what:28} {hits}");
    }
    println!("paused runs:");
    for (what, hits) in &t.paused {
        println!("  {what:48} {hits}");
    }
    println!("plans alone:");
    for (what, hits) in &t.plans {
        println!("  {what:48} {hits}");
    }
    println!("answers of the Rust, by number and call:");
    for ((number, call), hits) in &t.numbers {
        println!("  {number:3} {call:12} {hits}");
    }
    println!("jobs by path:");
    for (path, hits) in &t.paths {
        println!("  {path:28} {hits}");
    }
    if o.libm {
        println!(
            "own libm against transcribed: compared {}, different {}, outputs at most {:e} apart",
            t.libm_compared, t.libm_different, t.libm_largest
        );
        for (parts, hits) in &t.libm_parts {
            println!("  differ in {parts:24} {hits}");
        }
    }
    println!("different: {}", t.different);
    t.different == 0
}

fn one(o: &Options, job: &Job, index: usize, t: &mut Tally) {
    let Some(expected) = compare::expected(job, o.cost) else {
        t.costly += 1;
        return;
    };
    count(o, job, &expected, t);
    if o.libm && expected.transcribed {
        own_libm(o, job, &expected.answer, t);
    }
    let differences =
        compare::library(job, &expected.answer, index).into_iter().chain(matrix(job, t)).chain(plan(o, job, &expected.answer, index, t));
    for difference in differences.collect::<Vec<_>>() {
        t.different += 1;
        show(o, t.different, &difference, job);
    }
    if paused::has_steps(job) {
        paused(o, index, t, |r, seen| {
            undivided(job, &expected.answer, o.cost, |n| r.below(n), seen);
            paused::changes(job, &expected.answer, o.cost.min(paused::COST), r, seen);
        });
    }
}

/// Paused runs of job `index`, counted, and their differences shown.
fn paused(o: &Options, index: usize, t: &mut Tally, runs: impl FnOnce(&mut Random, &mut Seen)) {
    let mut seen = Seen::default();
    runs(&mut Random::of(!o.seed, index), &mut seen);
    for (what, hits) in seen.hits {
        *t.paused.entry(what.into_owned()).or_default() += hits;
    }
    for difference in seen.differences {
        t.different += 1;
        if t.different <= o.show as u64 {
            println!("job {index}: {difference}");
        }
    }
}

/// Where the plan alone of a forward Taylor job differs from what the Rust tells, or the job's own answer from what its plan told.
fn plan(o: &Options, job: &Job, ran: &Answer, index: usize, t: &mut Tally) -> Option<Difference> {
    if job.lent.is_some() || matches!(job.call, Call::Krylov { .. }) {
        return None;
    }
    let need = job.mass.as_ref().map_or(0, |_| job.vals.len());
    // As long as needed, longer, short by one, or nothing.
    let lent = [need, need + 3, need.saturating_sub(1), need, 0][index % 5];
    let (told, difference) = compare::plan(job, lent, o.cost)?;
    let number = if told.number == 0 { "plans told".into() } else { format!("plans refused by {}", told.number) };
    *t.plans.entry(number).or_default() += 1;
    let functions = if job.call == Call::Batched { job.count as u64 + 1 } else { 1 };
    let same = match (told.number, ran.number) {
        (0, 0) => {
            *t.plans.entry("jobs whose report was told before".into()).or_default() += 1;
            let [s, m, applications] = told.counts;
            ran.counts == [s, m, functions * applications] && ran.value.to_bits() == told.value.to_bits()
        }
        // What a run is refused by for its vectors, its output and its memory, its plan is not; and the memory of a plan may be short alone.
        (_, 12 | 13 | 15 | 16 | 17 | 21 | 22 | 26) | (26, 0) => true,
        (26, _) | (_, 0) => false,
        (a, b) => a == b && jobs::bits(told.value) == jobs::bits(ran.value),
    };
    let apart = || Difference { side: "rattle's plan", parts: vec!["the run's report"], got: told.clone(), expected: ran.clone() };
    difference.or_else(|| (!same).then(apart))
}

/// Where the answer to the matrix alone differs; counts the rows named and the ties among them.
fn matrix(job: &Job, t: &mut Tally) -> Option<Difference> {
    let expected = reference::matrix(job);
    if expected.number == 0 {
        let tied = oracle::row_sums(&reference::forward(job)).iter().filter(|s| **s == expected.value).count() > 1;
        *t.rows.entry((job.lent.is_some(), job.mass.is_some(), tied)).or_default() += 1;
    }
    if job.lent.is_some() {
        let outcome = if expected.number == 0 { "matrix answers: norm and row" } else { "matrix answers: refusals" };
        *t.transposed.entry(outcome.into()).or_default() += 1;
    }
    compare::matrix(job, &expected)
}

/// Sums up where the Rust with its own libm differs from the transcribed.
fn own_libm(o: &Options, job: &Job, transcribed: &Answer, t: &mut Tally) {
    t.libm_compared += 1;
    let Some(difference) = compare::own_libm(job, transcribed) else { return };
    t.libm_different += 1;
    *t.libm_parts.entry(difference.parts.join(", ")).or_default() += 1;
    if difference.got.number == 0 && transcribed.number == 0 {
        t.libm_largest = t.libm_largest.max(distance(&difference.got.out, &transcribed.out));
    }
    show(o, t.libm_different, &difference, job);
}

/// The largest difference of two fields, relative to the largest value of the second.
fn distance(a: &[f64], b: &[f64]) -> f64 {
    let largest = b.iter().fold(0.0, |m: f64, x| m.max(x.abs()));
    let apart = a.iter().zip(b).fold(0.0, |m: f64, (x, y)| m.max((x - y).abs()));
    if apart == 0.0 {
        0.0
    } else {
        apart / largest
    }
}

/// Counts a job that is compared, and prints one that is looked for.
fn count(o: &Options, job: &Job, expected: &Expected, t: &mut Tally) {
    let number = expected.answer.number;
    if o.find.as_ref().is_some_and(|f| *f == number.to_string() || expected.paths.contains(&f.as_str())) {
        println!("{}", job.print());
    }
    *t.numbers.entry((number, call_name(job))).or_default() += 1;
    for path in &expected.paths {
        *t.paths.entry(path).or_default() += 1;
    }
    if number == 0 && !matches!(job.call, Call::Krylov { .. }) {
        *t.degrees.entry(job.degree).or_default() += 1;
    }
    t.compared += 1;
    t.above_64_rows += u64::from(job.n > jobs::ROWS);
    *(if job.is_large() { &mut t.large_on_bytes } else { &mut t.on_bytes }) += 1;
    if job.lent.is_some() {
        count_transposed(job, &expected.answer, t);
    }
}

fn count_transposed(job: &Job, answer: &Answer, t: &mut Tally) {
    let written = !answer.differs(&job.refused(answer.number, answer.value)).is_empty();
    let mut count = |what: &str| *t.transposed.entry(what.into()).or_default() += 1;
    count("compared");
    count(&format!("compared: {}", call_name(job)));
    count(if job.mass.is_some() { "compared: with a mass" } else { "compared: without a mass" });
    match answer.number {
        0 => count("accepted"),
        9 if job.mass.is_none() => count("9 without a mass"),
        11 if written => count("11 for a column sum"),
        11 => count("11 for a row sum"),
        30 => count("30"),
        _ if written => count("other refusals behind 30"),
        _ => count("other refusals before 30"),
    }
}

fn call_name(job: &Job) -> &'static str {
    match job.call {
        Call::Combination => "combination",
        Call::Krylov { .. } => "krylov",
        Call::Action => "action",
        Call::Batched => "batched",
    }
}

fn show(o: &Options, count: u64, difference: &Difference, job: &Job) {
    if count <= o.show as u64 {
        println!("{}", difference.print(job));
    }
}

fn replay(file: &str, side: &str) -> Result<bool, String> {
    let text = std::fs::read_to_string(file).map_err(|e| format!("{file}: {e}"))?;
    for (i, line) in text.lines().enumerate() {
        if line.trim().is_empty() || line.starts_with('#') {
            continue;
        }
        let job = Job::parse(line).map_err(|e| format!("{file}:{}: {e}", i + 1))?;
        let answer = match side {
            "rust" => Some(compare::unaltered(&job)),
            "transcribed" => reference::answer(&job, |j| transcribed::answer(j, u64::MAX)),
            "rattle" => Some(library::answer(&job)),
            "steps" if job.lent.is_some() || !matches!(job.call, Call::Krylov { .. }) => None,
            "steps" => Some(library::paused::answer(&job)),
            "bytes" => library::answer_on_bytes(&job, 0),
            _ => return Err(USAGE.into()),
        };
        let paths: Vec<_> = transcribed::probe::take_hits().into_keys().collect();
        let paths = if paths.is_empty() { String::new() } else { format!("  # {}", paths.join("; ")) };
        println!("{}{paths}", answer.map_or("none".into(), |a| a.print()));
    }
    Ok(true)
}
