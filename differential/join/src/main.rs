//! Joins of random pairs by the proved library, against a join of its own (document 02, N8). See ../README.md.
//!
//! usage: join [SEED [PAIRS]], by default 1 and 100,000. Status 1 if an answer differs or the Rust does not take a result.

mod pair;
#[allow(dead_code)]
#[path = "../../src/random.rs"]
mod random;
mod reference;

use std::collections::BTreeMap;
use std::process::ExitCode;

use jobs::{bits, mark, Job};
use oracle::general_operator::GeneralOperator;
use pair::Pair;
use random::Random;

/// What a join tells, and its three slices in the end.
#[derive(Debug)]
pub struct Answer {
    pub number: u32,
    pub value: f64,
    pub entries: usize,
    pub starts: Vec<u32>,
    pub cols: Vec<u32>,
    pub vals: Vec<f64>,
}

impl Answer {
    /// The slices as they are before the call: marks that no column or row start is.
    pub fn marked([starts, cols, vals]: [usize; 3]) -> Answer {
        let marks = |length: usize| (0..length).map(|i| u32::MAX - i as u32).collect();
        Answer { number: 0, value: 0.0, entries: 0, starts: marks(starts), cols: marks(cols), vals: (0..vals).map(mark).collect() }
    }

    fn same(&self, other: &Answer) -> bool {
        let told = |a: &Answer| (a.number, bits(a.value), a.entries);
        let same_vals = self.vals.len() == other.vals.len() && self.vals.iter().zip(&other.vals).all(|(x, y)| bits(*x) == bits(*y));
        told(self) == told(other) && self.starts == other.starts && self.cols == other.cols && same_vals
    }
}

fn library_answer(pair: &Pair) -> Answer {
    let Answer { starts, cols, vals, .. } = Answer::marked(pair.lengths);
    // heap blocks of just their lengths, so that a memory checker sees an access beyond them
    let (mut starts, mut cols, mut vals) = (starts.into_boxed_slice(), cols.into_boxed_slice(), vals.into_boxed_slice());
    let (number, value, entries) = library::join(&pair.a, &pair.b, &mut starts, &mut cols, &mut vals);
    Answer { number, value, entries, starts: starts.into_vec(), cols: cols.into_vec(), vals: vals.into_vec() }
}

/// Whether the Rust makes an operator of an accepted result.
fn taken_by_the_rust(n: usize, got: &Answer) -> bool {
    let starts: Vec<usize> = got.starts[..=n].iter().map(|s| *s as usize).collect();
    GeneralOperator::from_csr(n, &starts, &got.cols[..got.entries], &got.vals[..got.entries]).is_ok()
}

#[derive(Default)]
struct Counts {
    numbers: BTreeMap<(u32, &'static str), u64>,
    /// of accepted pairs: entries in both, sums of 0 among them, -0 in the result, pairs with entries before a first row start
    sums: u64,
    zeros: u64,
    minus_zeros: u64,
    late: u64,
    different: u64,
}

fn count(counts: &mut Counts, pair: &Pair) {
    let (expected, of) = reference::answer(pair);
    *counts.numbers.entry((expected.number, of)).or_default() += 1;
    let got = library_answer(pair);
    let taken = got.number != 0 || taken_by_the_rust(pair.a.n, &got);
    if !got.same(&expected) || !taken {
        counts.different += 1;
        if counts.different <= 5 {
            println!("{pair:?}\n  library {got:?}\n  expected {expected:?}\n  taken by the Rust: {taken}");
        }
    }
    if expected.number == 0 {
        accepted(counts, pair, &expected);
    }
}

fn accepted(counts: &mut Counts, pair: &Pair, expected: &Answer) {
    let first = |q: &Job| q.starts[0] as usize;
    let carried = |q: &Job| q.vals.len() - first(q);
    let vals = &expected.vals[..expected.entries];
    counts.sums += (carried(&pair.a) + carried(&pair.b) - expected.entries) as u64;
    counts.zeros += vals.iter().filter(|x| **x == 0.0).count() as u64;
    counts.minus_zeros += vals.iter().filter(|x| **x == 0.0 && x.is_sign_negative()).count() as u64;
    counts.late += u64::from(first(&pair.a) + first(&pair.b) > 0);
}

fn main() -> ExitCode {
    let mut words = std::env::args().skip(1).map(|word| word.parse::<usize>().expect("usage: join [SEED [PAIRS]]"));
    let (seed, pairs) = (words.next().unwrap_or(1), words.next().unwrap_or(100_000));
    let mut counts = Counts::default();
    pair::limits().iter().for_each(|pair| count(&mut counts, pair));
    for i in 0..pairs {
        count(&mut counts, &pair::random(&mut Random::of(seed as u64, i)));
    }
    let Counts { numbers, sums, zeros, minus_zeros, late, different } = counts;
    println!("joins {}, by refusal:", numbers.values().sum::<u64>());
    for ((number, of), hits) in &numbers {
        println!("  {number:3} {of:8} {hits}");
    }
    println!(
        "accepted: entries of both {sums}, values of 0 {zeros}, -0 among them {minus_zeros}, pairs with entries before a first row {late}"
    );
    println!("different: {different}");
    if different == 0 {
        ExitCode::SUCCESS
    } else {
        ExitCode::FAILURE
    }
}
