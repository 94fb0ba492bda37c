//! A job for one of the four calls, its answer, and the text form of both.
//!
//! One job is one line of `key=value` words in any order; a list is its elements with commas between, an empty list
//! is nothing; a double is the 16 hexadecimal digits of its bits. Lines that are empty or start with `#` are skipped.
//!
//! | key | value |
//! |---|---|
//! | call | `combination`, `krylov`, `action` or `batched` |
//! | n | rows |
//! | starts, cols | lists of u32 |
//! | vals | list of doubles |
//! | mass | list of doubles, or `none` |
//! | tau | double |
//! | degree | of the Taylor calls: the highest degree of the plan; 30 if it is not given |
//! | count | vectors of `combination` and `krylov`; the index k of `action`, the last index p of `batched` |
//! | w | list of doubles: the vectors in one, or v |
//! | tol, m, limit | of `krylov` alone: double, number, number |
//! | out, work | the lengths of output and working memory |
//! | lent | of a transposed job alone: the lengths of the buffers lent for the transposed matrix (row starts, columns, values) |
//!
//! Before a call, element i of the output holds [`mark`] i, element i of the working memory `mark` (2^32 + i), and element i of
//! the buffers [`START_MARK`] + i, [`COLUMN_MARK`] + i and `mark` (2^33 + i). In an answer `.` stands for an element that still
//! holds its mark, and `*k` after one for k equal ones. The buffers stand at the end of a transposed job's answer.

pub mod ambient;
pub mod paused;
pub mod rotation;
pub mod stages;

use std::num::ParseIntError;
use std::str::FromStr;

/// The largest job that the functions on bytes take: rows, entries, doubles of working memory.
pub const ROWS: usize = 64;
pub const ENTRIES: usize = 512;
pub const WORK: usize = 4096;

/// What elements 0 of the lent row starts and columns hold that no call has written: more than any start or column.
pub const START_MARK: u32 = 0x5a00_0000;
pub const COLUMN_MARK: u32 = 0xa500_0000;

const WORK_MARK: usize = 1 << 32;
const VALUE_MARK: usize = 1 << 33;

/// The highest degree that there is, for a caller that names none.
pub const DEGREE: u32 = 30;

/// Doubles at the ends of their ranges, and those that are no finite number last.
pub const SPECIAL: [f64; 20] = [
    0.0,
    -0.0,
    1.0,
    -1.0,
    0.5,
    5e-324,
    -5e-324,
    f64::MIN_POSITIVE,
    2.225_073_858_507_201e-308,
    f64::EPSILON,
    1e-300,
    1e-160,
    1e154,
    1e160,
    1e300,
    f64::MAX,
    f64::MIN,
    f64::INFINITY,
    f64::NEG_INFINITY,
    f64::NAN,
];

#[derive(Clone, Copy, Debug, PartialEq)]
pub enum Call {
    Combination,
    Krylov { tol: f64, m: usize, limit: usize },
    Action,
    Batched,
}

#[derive(Clone, Debug, PartialEq)]
pub struct Job {
    pub call: Call,
    pub n: usize,
    pub starts: Vec<u32>,
    pub cols: Vec<u32>,
    pub vals: Vec<f64>,
    pub mass: Option<Vec<f64>>,
    pub tau: f64,
    /// The highest degree of a Taylor plan; [`DEGREE`] of Krylov, which takes none.
    pub degree: u32,
    /// The number of vectors, or the index of an action.
    pub count: usize,
    pub w: Vec<f64>,
    pub out: usize,
    pub work: usize,
    /// Of a transposed job: the lengths of the lent row starts, columns and values.
    pub lent: Option<[usize; 3]>,
}

/// The buffers that a transposed job lends for the transposed quotients, each a heap block of just its length.
#[derive(Clone, Debug)]
pub struct Buffers {
    pub starts: Box<[u32]>,
    pub columns: Box<[u32]>,
    pub values: Box<[f64]>,
}

/// `number` is 0 or a refusal's; `value` mu, the estimated error or the refusal's double; `counts` are s, m and
/// applications of Taylor, applications, substeps and rejections of Krylov, and zeros of a refusal; `steps` are the
/// shortest and the last accepted step of Krylov, zeros of all else; `buffers` are those of a transposed job.
#[derive(Clone, Debug)]
pub struct Answer {
    pub number: u32,
    pub value: f64,
    pub counts: [u64; 3],
    pub steps: [f64; 2],
    pub out: Vec<f64>,
    pub work: Vec<f64>,
    pub buffers: Option<Buffers>,
}

/// What an element holds that no call has written: a finite double no job computes.
pub fn mark(i: usize) -> f64 {
    f64::from_bits(0x5a5a_0000_0000_0000 + i as u64)
}

/// All NaNs count as one value.
pub fn bits(x: f64) -> u64 {
    if x.is_nan() {
        0x7ff8_0000_0000_0000
    } else {
        x.to_bits()
    }
}

fn same(a: &[f64], b: &[f64]) -> bool {
    a.len() == b.len() && a.iter().zip(b).all(|(x, y)| bits(*x) == bits(*y))
}

impl Buffers {
    /// As they are lent.
    pub fn marked([starts, columns, values]: [usize; 3]) -> Buffers {
        Buffers {
            starts: (0..starts).map(|i| START_MARK + i as u32).collect(),
            columns: (0..columns).map(|i| COLUMN_MARK + i as u32).collect(),
            values: (0..values).map(|i| mark(VALUE_MARK + i)).collect(),
        }
    }

    /// The matrix in front, places beyond it unchanged.
    pub fn filled(mut self, starts: &[u32], columns: &[u32], values: &[f64]) -> Buffers {
        self.starts[..starts.len()].copy_from_slice(starts);
        self.columns[..columns.len()].copy_from_slice(columns);
        self.values[..values.len()].copy_from_slice(values);
        self
    }

    fn print(&self) -> String {
        let starts = runs(&self.starts, |i, x| *x == START_MARK + i as u32, u32::to_string);
        let columns = runs(&self.columns, |i, x| *x == COLUMN_MARK + i as u32, u32::to_string);
        format!(" lent_starts={starts} lent_cols={columns} lent_vals={}", marked_runs(&self.values, VALUE_MARK))
    }

    /// Which of them differ.
    fn differs(&self, other: &Buffers) -> Vec<&'static str> {
        let mut parts = vec![];
        if self.starts != other.starts {
            parts.push("lent starts");
        }
        if self.columns != other.columns {
            parts.push("lent columns");
        }
        if !same(&self.values, &other.values) {
            parts.push("lent values");
        }
        parts
    }
}

impl Job {
    /// d: vectors less one, 3 for the two action calls.
    pub fn degree(&self) -> usize {
        match self.call {
            Call::Combination | Call::Krylov { .. } => self.count.saturating_sub(1),
            Call::Action | Call::Batched => 3,
        }
    }

    /// M: m clamped to 2..max(2, n + d).
    pub fn dimension(&self) -> usize {
        match self.call {
            Call::Krylov { m, .. } => m.clamp(2, self.n.saturating_add(self.degree()).max(2)),
            _ => 0,
        }
    }

    /// The working memory that the job needs (document 01, 'What must change shape').
    pub fn need(&self) -> usize {
        let (n, d, m) = (self.n, self.degree(), self.dimension());
        // A length beyond all memory saturates: no slice has it.
        let (n, d, m) = (n as u128, d as u128, m as u128);
        let columns = match self.call {
            Call::Krylov { .. } => (m + 3).saturating_mul(n + d).saturating_add((m + 2).saturating_mul(m + 2)).saturating_add(n),
            _ => 3 * n + 2 * d,
        };
        let entries = if self.mass.is_some() { self.vals.len() as u128 } else { 0 };
        columns.saturating_add(entries).try_into().unwrap_or(usize::MAX)
    }

    /// How long the output has to be.
    pub fn output(&self) -> usize {
        match self.call {
            Call::Batched => self.count.saturating_add(1).saturating_mul(self.n),
            _ => self.n,
        }
    }

    /// How long the vectors have to be.
    pub fn vectors(&self) -> usize {
        match self.call {
            Call::Combination | Call::Krylov { .. } => self.count.saturating_mul(self.n),
            _ => self.n,
        }
    }

    pub fn marked_out(&self) -> Vec<f64> {
        (0..self.out).map(mark).collect()
    }

    pub fn marked_work(&self) -> Vec<f64> {
        (0..self.work).map(|i| mark(WORK_MARK + i)).collect()
    }

    pub fn marked_buffers(&self) -> Option<Buffers> {
        self.lent.map(Buffers::marked)
    }

    /// The working memory after a run: the needed length holds +0, the rest is unchanged.
    pub fn cleared_work(&self) -> Vec<f64> {
        let mut work = self.marked_work();
        let need = self.need().min(work.len());
        work[..need].fill(0.0);
        work
    }

    /// The lengths of the buffers that the transposed quotients need: n + 1 starts, a column and a value for each entry.
    pub fn lent_need(&self) -> [usize; 3] {
        [self.n.saturating_add(1), self.vals.len(), self.vals.len()]
    }

    /// The answer of a refusal that changes no lent memory.
    pub fn refused(&self, number: u32, value: f64) -> Answer {
        let (out, work, buffers) = (self.marked_out(), self.marked_work(), self.marked_buffers());
        Answer { number, value, counts: [0; 3], steps: [0.0; 2], out, work, buffers }
    }

    /// Whether the functions on bytes refuse it by 255.
    pub fn is_large(&self) -> bool {
        self.n > ROWS || self.vals.len() > ENTRIES || self.work > WORK
    }

    /// What a function on bytes answers to a job that is too large for it: nothing is changed, the numbers included.
    pub fn large(&self) -> Answer {
        let (s, max) = (u64::from(u32::MAX), u64::MAX);
        let krylov = matches!(self.call, Call::Krylov { .. });
        let (counts, steps) = if krylov { ([max; 3], [mark(0); 2]) } else { ([s, s, max], [0.0; 2]) };
        Answer { counts, steps, ..self.refused(255, mark(0)) }
    }

    pub fn print(&self) -> String {
        let (call, options) = match self.call {
            Call::Combination => ("combination", String::new()),
            Call::Krylov { tol, m, limit } => ("krylov", format!(" tol={} m={m} limit={limit}", double(&tol))),
            Call::Action => ("action", String::new()),
            Call::Batched => ("batched", String::new()),
        };
        let mass = self.mass.as_ref().map_or("none".into(), |m| doubles(m));
        let degree = if self.degree == DEGREE { String::new() } else { format!(" degree={}", self.degree) };
        let lent = self.lent.map_or(String::new(), |l| format!(" lent={}", list(&l, usize::to_string)));
        format!(
            "call={call} n={} starts={} cols={} vals={} mass={mass} tau={}{degree} count={} w={}{options} out={} work={}{lent}",
            self.n,
            list(&self.starts, u32::to_string),
            list(&self.cols, u32::to_string),
            doubles(&self.vals),
            double(&self.tau),
            self.count,
            doubles(&self.w),
            self.out,
            self.work
        )
    }

    pub fn parse(line: &str) -> Result<Job, String> {
        let words: Vec<(&str, &str)> =
            line.split_whitespace().map(|w| w.split_once('=').ok_or(format!("no '=' in {w}"))).collect::<Result<_, _>>()?;
        let get = |key: &str| words.iter().find(|w| w.0 == key).map(|w| w.1).ok_or(format!("no {key}="));
        let number = |key: &str| read_number::<usize>(get(key)?);
        let call = match get("call")? {
            "combination" => Call::Combination,
            "action" => Call::Action,
            "batched" => Call::Batched,
            "krylov" => Call::Krylov { tol: read_double(get("tol")?)?, m: number("m")?, limit: number("limit")? },
            other => return Err(format!("no call {other}")),
        };
        Ok(Job {
            call,
            n: number("n")?,
            starts: read_list(get("starts")?, read_number)?,
            cols: read_list(get("cols")?, read_number)?,
            vals: read_list(get("vals")?, read_double)?,
            mass: match get("mass")? {
                "none" => None,
                m => Some(read_list(m, read_double)?),
            },
            tau: read_double(get("tau")?)?,
            degree: words.iter().find(|w| w.0 == "degree").map_or(Ok(DEGREE), |w| read_number(w.1))?,
            count: number("count")?,
            w: read_list(get("w")?, read_double)?,
            out: number("out")?,
            work: number("work")?,
            lent: words.iter().find(|w| w.0 == "lent").map(|w| read_lengths(w.1)).transpose()?,
        })
    }
}

impl Answer {
    /// To a matrix alone: the row is the first count.
    pub fn of_matrix(number: u32, value: f64, row: usize) -> Answer {
        Answer { number, value, counts: [row as u64, 0, 0], steps: [0.0; 2], out: vec![], work: vec![], buffers: None }
    }

    pub fn print(&self) -> String {
        let ([a, b, c], [shortest, last]) = (self.counts, self.steps.map(|t| double(&t)));
        let (out, work) = (marked_runs(&self.out, 0), marked_runs(&self.work, WORK_MARK));
        let buffers = self.buffers.as_ref().map_or(String::new(), Buffers::print);
        let counts = format!("counts={a},{b},{c} steps={shortest},{last}");
        format!("number={} value={} {counts} out={out} work={work}{buffers}", self.number, double(&self.value))
    }

    /// Which parts differ, bit for bit; none if the answers are the same.
    pub fn differs(&self, other: &Answer) -> Vec<&'static str> {
        let mut parts = vec![];
        if self.number != other.number {
            parts.push("number");
        }
        if bits(self.value) != bits(other.value) {
            parts.push("value");
        }
        if self.counts != other.counts {
            parts.push("counts");
        }
        if !same(&self.steps, &other.steps) {
            parts.push("steps");
        }
        if !same(&self.out, &other.out) {
            parts.push("out");
        }
        if !same(&self.work, &other.work) {
            parts.push("work");
        }
        match (&self.buffers, &other.buffers) {
            (Some(own), Some(others)) => parts.extend(own.differs(others)),
            (None, None) => {}
            _ => parts.push("buffers"),
        }
        parts
    }
}

fn double(x: &f64) -> String {
    format!("{:016x}", bits(*x))
}

fn doubles(xs: &[f64]) -> String {
    list(xs, double)
}

/// Doubles that were lent with marks from `first` on.
fn marked_runs(xs: &[f64], first: usize) -> String {
    runs(xs, |i, x| bits(*x) == bits(mark(first + i)), double)
}

/// A list in which elements that still hold their marks are dots, and equal ones are counted.
fn runs<T>(xs: &[T], is_mark: impl Fn(usize, &T) -> bool, one: impl Fn(&T) -> String) -> String {
    let mut words: Vec<(String, usize)> = vec![];
    for (i, x) in xs.iter().enumerate() {
        let word = if is_mark(i, x) { ".".into() } else { one(x) };
        match words.last_mut() {
            Some((last, k)) if *last == word => *k += 1,
            _ => words.push((word, 1)),
        }
    }
    list(&words, |(word, k)| if *k == 1 { word.clone() } else { format!("{word}*{k}") })
}

fn list<T>(xs: &[T], one: impl Fn(&T) -> String) -> String {
    xs.iter().map(one).collect::<Vec<_>>().join(",")
}

fn read_list<T>(text: &str, one: impl Fn(&str) -> Result<T, String>) -> Result<Vec<T>, String> {
    if text.is_empty() {
        return Ok(vec![]);
    }
    text.split(',').map(one).collect()
}

fn read_number<T: FromStr<Err = ParseIntError>>(text: &str) -> Result<T, String> {
    text.parse().map_err(|e| format!("{text}: {e}"))
}

fn read_lengths(text: &str) -> Result<[usize; 3], String> {
    let lengths = read_list(text, read_number)?;
    lengths.try_into().map_err(|_| format!("lent={text}: not three lengths"))
}

fn read_double(text: &str) -> Result<f64, String> {
    if text.len() != 16 {
        return Err(format!("{text}: not 16 hexadecimal digits"));
    }
    u64::from_str_radix(text, 16).map(f64::from_bits).map_err(|e| format!("{text}: {e}"))
}
