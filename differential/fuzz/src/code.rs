//! Jobs as byte strings. Every byte string is a job, and a byte that is not there reads as 0.
//!
//! In order: the call, and whether there is a mass; the bytes behind the last whole elements; alterations; rows, count,
//! tau, the options of a Krylov call or the highest degree of a Taylor call; how many entries stand before the first row and in each row; column and value
//! of each entry; the mass; the vectors. Lengths come out right, and alterations make them wrong.

use jobs::{Call, Job, DEGREE, ENTRIES, SPECIAL, WORK};

/// Vectors and output of a count beyond all are cut.
const LONGEST: usize = 1024;
const MOST_ENTRIES: usize = ENTRIES + 16;
const MOST_WORK: usize = 4 * WORK;

/// Doubles besides [`SPECIAL`]: tolerances, and sizes in between.
const MORE: [f64; 12] = [0.25, 1.5, 0.1, 1e-3, 1e-6, 1e-10, 1e-14, 1e-30, 1e3, 1e10, 1e308, 1.0 - f64::EPSILON / 2.0];

const NUMBERS: [u64; 16] =
    [0, 1, 2, 10, 100, 127, 128, 129, 1000, 10_000, 100_000, 999_999, 1_000_000, 1_000_001, u32::MAX as u64, u64::MAX];

struct Reader<'a>(&'a [u8]);

impl Reader<'_> {
    fn byte(&mut self) -> u8 {
        let Some((first, rest)) = self.0.split_first() else { return 0 };
        self.0 = rest;
        *first
    }

    fn bytes<const N: usize>(&mut self) -> [u8; N] {
        std::array::from_fn(|_| self.byte())
    }

    /// A small whole number, one of the palette, one with few digits near 1 or far from it, or any bits.
    fn double(&mut self) -> f64 {
        let tag = self.byte();
        let place = usize::from(tag % 32);
        match tag {
            // six bits of a signed number
            0..=63 => f64::from(((tag << 2) as i8) >> 2),
            64..=127 => SPECIAL.into_iter().chain(MORE).nth(place).unwrap_or(0.0),
            128..=191 => f64::from(self.byte() as i8) * 2.0_f64.powi(i32::from(tag) - 160),
            192..=223 => f64::from(i16::from_le_bytes(self.bytes())) * 2.0_f64.powi(60 * (place as i32 - 16)),
            224..=255 => f64::from_le_bytes(self.bytes()),
        }
    }

    fn doubles(&mut self, length: usize) -> Vec<f64> {
        (0..length.min(LONGEST)).map(|_| self.double()).collect()
    }

    fn number(&mut self) -> usize {
        let tag = self.byte();
        let number = match tag {
            0..=191 => tag.into(),
            192..=223 => NUMBERS[usize::from(tag % 16)],
            224..=239 => u16::from_le_bytes(self.bytes()).into(),
            240..=255 => u64::from_le_bytes(self.bytes()),
        };
        number as usize
    }
}

/// From 1 to 8, less often up to 64.
fn rows(byte: u8) -> usize {
    1 + usize::from(if byte < 192 { byte % 8 } else { byte - 192 })
}

/// An index or, with one more, a number of vectors that is accepted; less often any up to 15, or one of the largest.
fn count(byte: u8, vectors: bool) -> usize {
    match byte {
        0..=223 => usize::from(byte % 4) + usize::from(vectors),
        224..=239 => usize::from(byte - 224),
        240..=255 => usize::MAX - usize::from(255 - byte),
    }
}

/// Mostly the highest that there is, less often another from 0 to 31 or one of the largest numbers.
fn degree(byte: u8) -> usize {
    match byte {
        0..=159 => DEGREE as usize,
        160..=191 => usize::from(byte - 160),
        192..=247 => usize::from(byte % 8) + 20,
        248..=255 => u32::MAX as usize - usize::from(255 - byte),
    }
}

/// Up to 3 entries in a row, less often up to 31.
fn entries(byte: u8) -> usize {
    usize::from(if byte < 224 { byte % 4 } else { byte - 224 })
}

/// Entries before the first row, which are seldom there.
fn before_rows(byte: u8) -> usize {
    usize::from(byte.saturating_sub(239))
}

/// A column of a matrix with n columns, seldom one beyond.
fn column(byte: u8, n: usize) -> u32 {
    match byte {
        0..=239 => u32::from(byte) % n as u32,
        240..=247 => n as u32 + u32::from(byte - 240),
        248..=255 => u32::MAX - u32::from(255 - byte),
    }
}

/// Mostly none, and up to 4.
fn alterations(byte: u8) -> usize {
    usize::from(if byte < 208 { 0 } else { 1 + byte % 4 })
}

fn matrix(r: &mut Reader, n: usize) -> (Vec<u32>, Vec<u32>, Vec<f64>) {
    let mut length = before_rows(r.byte());
    let mut starts = vec![length as u32];
    for _ in 0..n {
        length = (length + entries(r.byte())).min(MOST_ENTRIES);
        starts.push(length as u32);
    }
    let (cols, vals) = (0..length).map(|_| (column(r.byte(), n), r.double())).unzip();
    (starts, cols, vals)
}

/// Kind 0 to 3.
fn call(r: &mut Reader, kind: u8) -> Call {
    match kind {
        0 => Call::Combination,
        1 => Call::Krylov { tol: r.double(), m: r.number(), limit: r.number() },
        2 => Call::Action,
        _ => Call::Batched,
    }
}

/// The job, and the number from which the bytes behind the last whole elements follow.
pub fn decode(bytes: &[u8]) -> (Job, usize) {
    let mut r = Reader(bytes);
    let (kind, tail) = (r.byte(), r.byte());
    let altered: Vec<[u8; 3]> = (0..alterations(r.byte())).map(|_| r.bytes()).collect();
    let n = rows(r.byte());
    let count = count(r.byte(), kind % 4 < 2);
    let tau = r.double();
    let call = call(&mut r, kind % 4);
    let degree = if matches!(call, Call::Krylov { .. }) { DEGREE } else { degree(r.byte()) as u32 };
    let (starts, cols, vals) = matrix(&mut r, n);
    let mass = (kind & 4 != 0).then(|| r.doubles(n));
    let mut job = Job { call, n, starts, cols, vals, mass, tau, degree, count, w: vec![], out: 0, work: 0, lent: None };
    job.w = r.doubles(job.vectors());
    job.out = job.output().min(LONGEST);
    job.work = job.need().min(MOST_WORK);
    altered.into_iter().for_each(|a| alter(&mut job, a));
    (job, tail.into())
}

/// Changes a length or a row start.
fn alter(job: &mut Job, [which, amount, place]: [u8; 3]) {
    let amount = amount as i8;
    let by = isize::from(amount) * (1 + isize::from(place));
    match which % 9 {
        0 => job.n = job.n.saturating_add_signed(amount.into()),
        1 => resize(&mut job.starts, by),
        2 => resize(&mut job.cols, by),
        3 => resize(&mut job.vals, by),
        4 => resize(&mut job.w, by),
        5 => job.out = job.out.saturating_add_signed(by),
        6 => job.work = job.work.saturating_add_signed(by),
        7 => {
            let length = job.starts.len().max(1);
            if let Some(start) = job.starts.get_mut(usize::from(place) % length) {
                *start = start.wrapping_add_signed(amount.into());
            }
        }
        _ => resize(job.mass.get_or_insert_default(), by),
    }
}

fn resize<T: Copy + Default>(list: &mut Vec<T>, by: isize) {
    let last = list.last().copied().unwrap_or_default();
    list.resize(list.len().saturating_add_signed(by), last);
}

/// A byte string of the job, where there is one.
pub fn encode(job: &Job) -> Option<Vec<u8>> {
    let mut bytes = head(job)?;
    let (start, ends) = job.starts.split_first()?;
    bytes.push(inverse(before_rows, *start as usize)?);
    for (from, to) in job.starts.iter().zip(ends) {
        bytes.push(inverse(entries, to.checked_sub(*from)? as usize)?);
    }
    for (col, val) in job.cols.iter().zip(&job.vals) {
        bytes.push(inverse(|b| column(b, job.n) as usize, *col as usize)?);
        put_double(&mut bytes, *val);
    }
    job.mass.iter().flatten().chain(&job.w).for_each(|x| put_double(&mut bytes, *x));
    (decode(&bytes).0.print() == job.print()).then_some(bytes)
}

/// What stands before the matrix.
fn head(job: &Job) -> Option<Vec<u8>> {
    let kind = match job.call {
        Call::Combination => 0,
        Call::Krylov { .. } => 1,
        Call::Action => 2,
        Call::Batched => 3,
    };
    let (vectors, output, need) = (job.vectors().min(LONGEST), job.output().min(LONGEST), job.need().min(MOST_WORK));
    let lengths = [(4, job.w.len(), vectors), (5, job.out, output), (6, job.work, need)];
    let altered = lengths.into_iter().filter(|(_, length, usual)| length != usual);
    let altered: Vec<[u8; 3]> = altered.map(alteration).collect::<Option<_>>()?;
    let mut bytes = vec![kind + if job.mass.is_some() { 4 } else { 0 }, 0, inverse(alterations, altered.len())?];
    bytes.extend(altered.concat());
    bytes.push(inverse(rows, job.n)?);
    bytes.push(inverse(|b| count(b, kind < 2), job.count)?);
    put_double(&mut bytes, job.tau);
    if let Call::Krylov { tol, m, limit } = job.call {
        put_double(&mut bytes, tol);
        put_number(&mut bytes, m);
        put_number(&mut bytes, limit);
    } else {
        bytes.push(inverse(degree, job.degree as usize)?);
    }
    Some(bytes)
}

/// The alteration that gives a slice this length in place of the one it would have.
fn alteration((which, length, usual): (u8, usize, usize)) -> Option<[u8; 3]> {
    let by = i64::try_from(length).ok()? - usual as i64;
    (0..=255).find_map(|place| {
        let times = 1 + i64::from(place);
        let amount = i8::try_from(by / times).ok()?;
        (by % times == 0).then_some([which, amount as u8, place])
    })
}

/// The first byte that stands for the number.
fn inverse(of: impl Fn(u8) -> usize, number: usize) -> Option<u8> {
    (0..=255).find(|byte| of(*byte) == number)
}

fn put_double(bytes: &mut Vec<u8>, x: f64) {
    match (0..128).find(|tag| Reader(&[*tag]).double().to_bits() == x.to_bits()) {
        Some(tag) => bytes.push(tag),
        None => {
            bytes.push(224);
            bytes.extend(x.to_le_bytes());
        }
    }
}

fn put_number(bytes: &mut Vec<u8>, number: usize) {
    match inverse(|tag| if tag < 224 { Reader(&[tag]).number() } else { 0 }, number) {
        Some(tag) => bytes.push(tag),
        None => {
            bytes.push(240);
            bytes.extend((number as u64).to_le_bytes());
        }
    }
}
