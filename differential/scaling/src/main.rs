//! Pairs of Taylor combinations, the second with the first's vectors times 2^j (document 02, N9). See ../README.md.
//!
//! usage: scaling [SEED [PAIRS [LEFT_OUT]]], by default 1 and 20,000. LEFT_OUT is a part of the condition that is left out on trial:
//! a `watch::Part`, `LaterSweeps`, `HalfAsLarge` or `LaterValues`. Status 1 if a pair that meets the condition is not doubled, or
//! an answer differs from the Rust's or from the watched run's.

mod pair;
#[allow(dead_code)]
#[path = "../../src/random.rs"]
mod random;
mod run;
mod watch;

use std::process::ExitCode;

use jobs::{bits, Answer, Call, Job, DEGREE};
use pair::Pair;
use random::Random;
use run::{Matrix, Plan};
use watch::{LeftOut, Part, Watch};

/// Operations above which a run is not made.
const COST: u64 = 1_000_000;

#[derive(Default)]
struct Counts {
    refused: u64,
    costly: u64,
    /// vectors that 2^j makes infinite or tiny
    multiplied: u64,
    /// accepted pairs in which an operation is infinite or tiny, and those of them that are doubled all the same
    other: u64,
    other_doubled: u64,
    /// accepted pairs that meet the condition, by kind, and their operations
    clean: u64,
    loaded: u64,
    zero_loads: u64,
    shifted: u64,
    transposed: u64,
    with_mass: u64,
    clamped: u64,
    operations: u64,
    /// pairs that meet document 02's words alone, and those of them that are not doubled
    words: u64,
    words_off: u64,
    not_doubled: u64,
    different: u64,
}

/// The Rust's answer is the library's; `None` above the cost.
fn answer(counts: &mut Counts, job: &Job) -> Option<Answer> {
    let expected = compare::expected(job, COST)?;
    let got = library::answer(job);
    if !got.differs(&expected.answer).is_empty() {
        counts.different += 1;
        println!("the Rust differs: {}", job.print());
    }
    Some(got)
}

/// Q: the quotients, or the transposed quotients that the library left in the lent buffers.
fn matrix(job: &Job, answer: &Answer) -> Matrix {
    if let Some(b) = &answer.buffers {
        return Matrix { n: job.n, starts: b.starts.to_vec(), cols: b.columns.to_vec(), vals: b.values.to_vec() };
    }
    let mut vals = job.vals.clone();
    if let Some(mass) = &job.mass {
        for (i, m) in mass.iter().enumerate() {
            for k in job.starts[i]..job.starts[i + 1] {
                vals[k as usize] /= m;
            }
        }
    }
    Matrix { n: job.n, starts: job.starts.clone(), cols: job.cols.clone(), vals }
}

fn same(a: &[f64], b: &[f64]) -> bool {
    a.iter().zip(b).all(|(x, y)| bits(*x) == bits(*y))
}

/// The run of an accepted job, watched; its field is the library's.
fn watched(counts: &mut Counts, job: &Job, answer: &Answer, left_out: LeftOut) -> Watch {
    let mut watch = Watch::new(left_out);
    let [s, m, _] = answer.counts;
    let field = run::combination(&mut watch, &matrix(job, answer), job.tau, &Plan { s, m, mu: answer.value }, &job.w);
    if !same(&field, &answer.out) {
        counts.different += 1;
        println!("the watched run differs: {}", job.print());
    }
    watch
}

/// Each value is exactly 2^j times the other, and has its sign.
fn is_doubled(once: &[f64], twice: &[f64], j: i64) -> bool {
    once.iter().zip(twice).all(|(x, y)| watch::exact_times(*x, j).is_some_and(|z| bits(z) == bits(*y)))
}

fn count_kind(counts: &mut Counts, job: &Job, other: &Job, answer: &Answer) {
    let further = &job.w[job.n..];
    let zero = further.iter().all(|x| *x == 0.0);
    let exponents = [job, other].map(|j| run::exponent(j.n, j.tau, &j.w).abs());
    counts.loaded += u64::from(!zero);
    counts.zero_loads += u64::from(zero && !further.is_empty());
    counts.shifted += u64::from(answer.value != 0.0);
    counts.transposed += u64::from(job.lent.is_some());
    counts.with_mass += u64::from(job.mass.is_some());
    counts.clamped += u64::from(exponents.contains(&1000));
}

fn count(counts: &mut Counts, Pair { job, j }: &Pair, left_out: LeftOut) {
    let Some(once) = answer(counts, job) else {
        counts.costly += 1;
        return;
    };
    if once.number != 0 {
        counts.refused += 1;
        return;
    }
    let Some(w) = watch::doubled(&job.w, *j, left_out) else {
        counts.multiplied += 1;
        return;
    };
    let other = Job { w, ..job.clone() };
    let twice = answer(counts, &other).expect("the same plan and cost");
    if twice.number != 0 {
        counts.refused += 1;
        return;
    }
    let (a, b) = (watched(counts, job, &once, left_out), watched(counts, &other, &twice, left_out));
    let doubled = is_doubled(&once.out, &twice.out, *j);
    let report = once.counts == twice.counts && bits(once.value) == bits(twice.value);
    if !report {
        counts.different += 1;
        println!("another plan, j = {j}: {}", job.print());
    }
    if a.clean && b.clean {
        counts.clean += 1;
        counts.operations += a.operations + b.operations;
        count_kind(counts, job, &other, &once);
        counts.not_doubled += u64::from(!doubled);
        if !doubled && counts.not_doubled <= 3 {
            println!("not doubled, j = {j}: {}", job.print());
        }
        return;
    }
    counts.other += 1;
    counts.other_doubled += u64::from(doubled);
    if a.words && b.words {
        counts.words += 1;
        counts.words_off += u64::from(!doubled);
    }
}

/// The products of doubles/proofs/Examples, of which it is proved which meet the condition: the watch says the same.
fn proved_products() {
    let clean = |x: u64, y: u64| {
        let mut watch = Watch::new(LeftOut::Nothing);
        watch.times(Part::Row, f64::from_bits(x), f64::from_bits(y));
        watch.clean
    };
    assert!(clean(0x2000_0000_0000_0000, 0x2000_0000_0000_0000));
    assert!(!clean(0x3e8f_ffff_ffff_ffff, 0x0170_0000_0000_0000));
    assert!(!clean(0x3ff0_0000_0000_0001, 0x0008_0000_0000_0000));
    assert!(!clean(0x7fe0_0000_0000_0000, 0x4000_0000_0000_0000));
    let times = |x: u64, j: i64| watch::doubled(&[f64::from_bits(x)], j, LeftOut::Nothing).map(|w| w[0].to_bits());
    assert!(times(0x3ff0_0000_0000_0000, -1022) == Some(0x0010_0000_0000_0000));
    assert!(times(0x3ff0_0000_0000_0001, -1023).is_none());
    assert!(times(1, 2000) == Some(0x79d0_0000_0000_0000));
}

/// The job of docs/DIFFERENCES.md, which meets document 02's words and is not doubled; `scaling_examples/proofs/Boundary` has it as theorems.
fn boundary() {
    let doubles = |bits: &[u64]| bits.iter().map(|b| f64::from_bits(*b)).collect::<Vec<_>>();
    let two = |e: i64| ((e + 1023) as u64) << 52;
    let job = Job {
        call: Call::Combination,
        n: 3,
        starts: vec![0, 1, 1, 1],
        cols: vec![1],
        vals: doubles(&[0x3e8f_ffff_ffff_ffff]),
        mass: None,
        tau: 4.0,
        degree: DEGREE,
        count: 2,
        w: doubles(&[0, two(-1000), 0, 0, 0, two(0)]),
        out: 3,
        work: 11,
        lent: None,
    };
    let other = Job { w: watch::doubled(&job.w, 1, LeftOut::Nothing).expect("exact"), ..job.clone() };
    let mut counts = Counts::default();
    let [(once, a), (twice, b)] = [&job, &other].map(|job| {
        let answer = answer(&mut counts, job).expect("a short run");
        let watch = watched(&mut counts, job, &answer, LeftOut::Nothing);
        (answer, watch)
    });
    assert!(counts.different == 0 && once.number == 0 && twice.number == 0);
    assert!([&job, &other].map(|j| run::exponent(3, 4.0, &j.w)) == [2, 3]);
    assert!(a.operations == 851 && b.operations == 851);
    assert!(a.words && b.words && !a.clean && b.clean);
    assert!(same(&once.out, &doubles(&[0x8030_0000_0000_0000, 0x0170_0000_0000_0000, 0x4010_0000_0000_0000])));
    assert!(same(&twice.out, &doubles(&[0x803f_ffff_ffff_ffff, 0x0180_0000_0000_0000, 0x4020_0000_0000_0000])));
    assert!(!is_doubled(&once.out, &twice.out, 1));
}

fn main() -> ExitCode {
    let mut words = std::env::args().skip(1);
    let mut number = |default| words.next().map_or(default, |word| word.parse().expect("usage: scaling [SEED [PAIRS [LEFT_OUT]]]"));
    let (seed, pairs) = (number(1), number(20_000));
    let left_out = words.next().map_or(LeftOut::Nothing, |word| LeftOut::of(&word));
    proved_products();
    boundary();
    let mut counts = Counts::default();
    for i in 0..pairs {
        count(&mut counts, &pair::random(&mut Random::of(seed, i as usize)), left_out);
    }
    let c = &counts;
    println!("pairs {pairs}: refused {}, above the cost {}, vectors infinite or tiny times 2^j {}", c.refused, c.costly, c.multiplied);
    println!(
        "meet N9's condition {}: with a load {}, all further vectors zero {}, shifted {}, with a mass {}, transposed {}, an exponent at its clamp {}",
        c.clean, c.loaded, c.zero_loads, c.shifted, c.with_mass, c.transposed, c.clamped
    );
    println!("  operations looked at {}; not doubled: {}", c.operations, c.not_doubled);
    println!(
        "do not meet it {}, doubled all the same {}; document 02's words alone {}, not doubled {}",
        c.other, c.other_doubled, c.words, c.words_off
    );
    println!("different: {}", c.different);
    if c.not_doubled == 0 && c.different == 0 && c.clean > 0 {
        ExitCode::SUCCESS
    } else {
        ExitCode::FAILURE
    }
}
