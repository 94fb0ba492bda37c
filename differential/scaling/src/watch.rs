//! Each operation of a run on its vectors, held against the condition of document 02, N9, in two readings: of the exact result, as
//! the theorem has it (`scaling/specs/Doubled: CleanJob`), and of the rounded one, as document 02 says it.

/// Where an operation stands in a run (`scaling/specs/Operations`).
#[derive(Clone, Copy, Debug, PartialEq, Eq)]
pub enum Part {
    Gain,
    LaterGain,
    Row,
    RowSum,
    Share,
    Column,
    LaterColumn,
    ColumnSum,
    Chain,
    TermSum,
    Rescale,
}

const PARTS: [Part; 11] = [
    Part::Gain,
    Part::LaterGain,
    Part::Row,
    Part::RowSum,
    Part::Share,
    Part::Column,
    Part::LaterColumn,
    Part::ColumnSum,
    Part::Chain,
    Part::TermSum,
    Part::Rescale,
];

/// What of the condition is left out on trial, to see that pairs are then found that are not doubled.
#[derive(Clone, Copy, Debug, PartialEq, Eq)]
pub enum LeftOut {
    Nothing,
    Part(Part),
    LaterSweeps,
    /// products of half the size pass
    HalfAsLarge,
    /// only the first value times 2^j is looked at
    LaterValues,
}

impl LeftOut {
    pub fn of(word: &str) -> LeftOut {
        let part = PARTS.iter().find(|part| format!("{part:?}") == word);
        match word {
            "LaterSweeps" => LeftOut::LaterSweeps,
            "HalfAsLarge" => LeftOut::HalfAsLarge,
            "LaterValues" => LeftOut::LaterValues,
            _ => LeftOut::Part(*part.expect("a part of the condition")),
        }
    }
}

pub struct Watch {
    left_out: LeftOut,
    /// of which sweep the operations are, from 0
    pub sweep: u64,
    pub operations: u64,
    /// every operation so far met the theorem's condition, and document 02's words
    pub clean: bool,
    pub words: bool,
}

/// The size of a finite double as m * 2^shift units of 2^-1074.
fn units(x: f64) -> (u64, i64) {
    let field = (x.to_bits() >> 52 & 0x7ff) as i64;
    let digits = x.to_bits() & ((1 << 52) - 1);
    match field {
        0 => (digits, 0),
        _ => (digits | 1 << 52, field - 1),
    }
}

fn normal(x: f64) -> bool {
    x.is_finite() && x.abs() >= f64::MIN_POSITIVE
}

impl Watch {
    pub fn new(left_out: LeftOut) -> Watch {
        Watch { left_out, sweep: 0, operations: 0, clean: true, words: true }
    }

    fn asked(&self, part: Part) -> bool {
        self.left_out != LeftOut::Part(part) && !(self.left_out == LeftOut::LaterSweeps && self.sweep > 0)
    }

    pub fn times(&mut self, part: Part, x: f64, y: f64) -> f64 {
        let least = if self.left_out == LeftOut::HalfAsLarge { 1125 } else { 1126 };
        let ((a, i), (b, j)) = (units(x), units(y));
        let exact = u128::from(a) * u128::from(b);
        let tiny = exact != 0 && i64::from(128 - exact.leading_zeros()) + i + j <= least;
        let result = self.factor(x, y);
        self.clean &= !self.asked(part) || result.is_finite() && !tiny;
        result
    }

    /// A product of which the theorem asks nothing.
    pub fn factor(&mut self, x: f64, y: f64) -> f64 {
        let result = x * y;
        self.operations += 1;
        self.words &= x == 0.0 || y == 0.0 || normal(result);
        result
    }

    pub fn plus(&mut self, part: Part, x: f64, y: f64) -> f64 {
        let result = x + y;
        self.operations += 1;
        self.clean &= !self.asked(part) || result.is_finite();
        // a sum of two doubles is rounded to 0 only where it is 0
        self.words &= result == 0.0 || normal(result);
        result
    }
}

/// x times 2^j, where that is a double; `None` where a digit would be lost or the result is infinite.
pub fn exact_times(x: f64, j: i64) -> Option<f64> {
    if x == 0.0 {
        return Some(x);
    }
    if !x.is_finite() {
        return None;
    }
    let (m, shift) = units(x);
    let zeros = i64::from(m.trailing_zeros());
    // m * 2^exponent units, m odd
    let (m, exponent) = (m >> zeros, shift + zeros + j);
    let length = i64::from(64 - m.leading_zeros());
    if exponent < 0 || length + exponent > 2098 {
        return None;
    }
    // the highest digit is worth 2^(length + exponent - 1) units
    let bits = if length + exponent <= 52 {
        m << exponent
    } else {
        ((length + exponent - 52) as u64) << 52 | (m << (53 - length)) & ((1 << 52) - 1)
    };
    Some(f64::from_bits(bits | x.to_bits() & 1 << 63))
}

/// The vectors times 2^j, where each product is exactly 0 or at least 2^-1022 in size, and finite.
pub fn doubled(w: &[f64], j: i64, left_out: LeftOut) -> Option<Vec<f64>> {
    let clean = |x: &f64| exact_times(*x, j).filter(|y| *y == 0.0 || normal(*y));
    if left_out != LeftOut::LaterValues {
        return w.iter().map(clean).collect();
    }
    clean(&w[0])?;
    // rounded once: the first factor is exact
    let (half, rest) = (j / 2, j - j / 2);
    let rounded = |x: &f64| exact_times(*x, j).or_else(|| exact_times(*x, half).map(|y| y * 2_f64.powi(rest as i32)));
    w.iter().map(rounded).collect::<Option<Vec<f64>>>().filter(|w| w.iter().all(|x| x.is_finite()))
}
