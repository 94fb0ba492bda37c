//! How far the flow of random rows is off, in whole numbers, against the bound of document 02, N13. See ../README.md.
//!
//! usage: row_error [SEED [ROWS]], by default 1 and 1,000,000. Status 1 if a row is beyond the bound.

#[allow(dead_code)]
#[path = "../../src/random.rs"]
mod random;
mod row;
mod whole;

use std::process::ExitCode;

use random::Random;
use row::{row, Row};
use whole::Whole;

/// As the proved `csr_matvec::row_product` has it, which no exported function gives alone: from +0 in stored order, then negated.
fn flow(row: &Row) -> f64 {
    let mut sum = 0.0;
    for (entry, column) in row.entries.iter().zip(&row.columns) {
        sum += entry * row.field[*column];
    }
    -sum
}

/// The size of a finite double as m * 2^shift units of 2^-1074.
fn units(x: f64) -> (u64, usize) {
    let field = (x.to_bits() >> 52 & 0x7ff) as usize;
    let digits = x.to_bits() & ((1 << 52) - 1);
    match field {
        0 => (digits, 0),
        _ => (digits | 1 << 52, field - 1),
    }
}

/// A size in units of 2^-2148, m * 2^shift, is below 2^-1022 and not 0.
fn tiny(m: u128, shift: usize) -> bool {
    m != 0 && 128 - m.leading_zeros() as usize + shift <= 1126
}

/// In units of 2^-2148.
struct Exact {
    /// how far the flow is from minus the sum of the products
    error: Whole,
    /// the sum of the products' sizes
    sizes: Whole,
}

/// `None` if a product is tiny. The flow and the products are finite.
fn exact(row: &Row, flow: f64) -> Option<Exact> {
    let (mut above, mut below, mut sizes) = (Whole::ZERO, Whole::ZERO, Whole::ZERO);
    for (entry, column) in row.entries.iter().zip(&row.columns) {
        let value = row.field[*column];
        let ((a, i), (b, j)) = (units(*entry), units(value));
        let m = u128::from(a) * u128::from(b);
        if tiny(m, i + j) {
            return None;
        }
        let side = if entry.is_sign_negative() == value.is_sign_negative() { &mut above } else { &mut below };
        side.add(m, i + j);
        sizes.add(m, i + j);
    }
    let (m, shift) = units(flow);
    let side = if flow.is_sign_negative() { &mut below } else { &mut above };
    side.add(u128::from(m), shift + 1074);
    Some(Exact { error: above.distance(&below), sizes })
}

#[derive(Default)]
struct Counts {
    held: u64,
    longest: usize,
    inexact: u64,
    infinite: u64,
    tiny: u64,
    beyond: u64,
    /// the largest error, in parts of k * 2^-53 times the sizes, and the k of its row
    largest: (f64, usize),
}

fn count(counts: &mut Counts, row: &Row) {
    let flow = flow(row);
    if !flow.is_finite() {
        counts.infinite += 1;
        return;
    }
    let Some(Exact { error, sizes }) = exact(row, flow) else {
        counts.tiny += 1;
        return;
    };
    let k = row.entries.len();
    let allowed = sizes.times(k as u64);
    let empty_is_not_minus_0 = k == 0 && flow.to_bits() != 1 << 63;
    if !error.times(1 << 52).at_most(&allowed) || empty_is_not_minus_0 {
        counts.beyond += 1;
        println!("beyond the bound: entries {:?}, columns {:?}, field {:?}", row.entries, row.columns, row.field);
    }
    counts.held += 1;
    counts.longest = counts.longest.max(k);
    counts.inexact += u64::from(error != Whole::ZERO);
    let part = error.times(1 << 53).part_of(&allowed);
    if part > counts.largest.0 {
        counts.largest = (part, k);
    }
}

/// The rows of general_operator/proofs/Examples, whose errors are proved: the whole numbers here give the same.
fn proved_rows() {
    let off = |entries: &[u64], columns: &[usize], field: &[u64]| {
        let doubles = |bits: &[u64]| bits.iter().map(|b| f64::from_bits(*b)).collect();
        let row = Row { entries: doubles(entries), columns: columns.to_vec(), field: doubles(field) };
        exact(&row, flow(&row)).map(|e| e.error)
    };
    let power = |shift| {
        let mut power = Whole::ZERO;
        power.add(1, shift);
        Some(power)
    };
    let (a, b, one) = (0x3ff0_0000_0200_0000, 0x3ff0_0000_0400_0000, 0x3ff0_0000_0000_0000);
    assert!(off(&[a], &[0], &[b]) == power(2095));
    assert!(off(&[a, 0x3ca0_0000_0000_0000], &[0, 1], &[b, one]) == power(2096));
    assert!(off(&[a, 0xbff0_0000_0600_0000], &[1, 0], &[one, b]) == power(2095));
    assert!(off(&[0x1ff0_0000_0000_0002], &[0], &[0x1ff0_0000_0000_0000]).is_none());
    assert!(off(&[0x2000_0000_0000_0000], &[0], &[0x2000_0000_0000_0000]) == Some(Whole::ZERO));
}

fn main() -> ExitCode {
    proved_rows();
    let mut words = std::env::args().skip(1).map(|word| word.parse::<usize>().expect("usage: row_error [SEED [ROWS]]"));
    let (seed, rows) = (words.next().unwrap_or(1), words.next().unwrap_or(1_000_000));
    let mut counts = Counts::default();
    for i in 0..rows {
        count(&mut counts, &row(&mut Random::of(seed as u64, i)));
    }
    println!(
        "rows {rows}: held against N13 {} of up to {} entries, {} of them off; left out {} with a tiny product, {} not finite",
        counts.held, counts.longest, counts.inexact, counts.tiny, counts.infinite
    );
    println!("largest error: {:.9} of k * 2^-53, at k = {}; beyond k * 2^-52: {}", counts.largest.0, counts.largest.1, counts.beyond);
    if counts.beyond == 0 && counts.held > 0 {
        ExitCode::SUCCESS
    } else {
        ExitCode::FAILURE
    }
}
