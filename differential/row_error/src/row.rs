//! Random rows: lengths up to 4,000, exponents over the whole range, and sums that cancel.

use crate::random::Random;

/// The entries of one row, the column of each, and the field.
pub struct Row {
    pub entries: Vec<f64>,
    pub columns: Vec<usize>,
    pub field: Vec<f64>,
}

fn length(r: &mut Random) -> usize {
    if r.once_in(200) {
        r.below(4001)
    } else if r.once_in(10) {
        r.below(101)
    } else {
        r.below(7)
    }
}

/// A double of size 2^exponent or more and below twice that, or rounded to the subnormal numbers; of either sign. One in two has few
/// binary digits, so that products and sums fall half way between two doubles.
fn double(r: &mut Random, exponent: i64) -> f64 {
    let any = r.next() >> 12;
    let few = (1 << r.below(52)) | (1 << r.below(52));
    let digits = if r.once_in(2) { any } else { few };
    let size = if exponent < -1022 {
        f64::from_bits(((1 << 52) | digits) >> (-1022 - exponent).min(53))
    } else {
        f64::from_bits(((exponent + 1023) as u64) << 52 | digits)
    };
    if r.once_in(2) {
        size
    } else {
        -size
    }
}

/// An entry and a value whose exponents add up to `sum`.
fn pair(r: &mut Random, sum: i64) -> (f64, f64) {
    let entry = r.from_to((sum - 1023).max(-1074), (sum + 1074).min(1023));
    (double(r, entry), double(r, sum - entry))
}

pub fn row(r: &mut Random) -> Row {
    // The exponents of the products: about 2^0, any, large, or next to 2^-1022.
    let (low, high) = r.pick(&[(-10, 10), (-1021, 1010), (1000, 1023), (-1022, -960)]);
    let cancels = r.once_in(3);
    let mut row = Row { entries: vec![], columns: vec![], field: vec![] };
    for k in 0..length(r) {
        if cancels && k % 2 == 1 {
            // what came last once more, with the other sign and perhaps another last digit
            let last = row.entries[k - 1];
            row.entries.push(-f64::from_bits(last.to_bits() ^ (r.next() & 1)));
            row.columns.push(row.columns[k - 1]);
            continue;
        }
        let sum = r.from_to(low, high);
        let (entry, value) = pair(r, sum);
        row.entries.push(if r.once_in(20) { r.pick(&[0.0, -0.0]) } else { entry });
        row.columns.push(row.field.len());
        row.field.push(value);
    }
    row
}
