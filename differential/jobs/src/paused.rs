//! A paused Krylov run (document 02, N5): its state as the exports lay it out, and what a call on it leaves.

use crate::{bits, double, mark, marked_runs, same, Answer, Job, WORK_MARK};

/// Where the state's doubles stand.
pub const TIME: usize = 0;
pub const NEXT: usize = 1;
pub const ESTIMATE: usize = 2;
pub const SHORTEST: usize = 3;
pub const LAST: usize = 4;
pub const ETA: usize = 5;
pub const DOWN: usize = 6;
pub const UP: usize = 7;
pub const NORM: usize = 8;
pub const TOL: usize = 9;
pub const NUMBERS: usize = 10;

/// Where its counts stand.
pub const MATVECS: usize = 0;
pub const SUBSTEPS: usize = 1;
pub const REJECTED: usize = 2;
pub const M: usize = 3;
pub const LIMIT: usize = 4;
pub const N: usize = 5;
pub const COUNT: usize = 6;
pub const ENDED: usize = 7;
pub const COUNTS: usize = 8;

const FIELD_MARK: usize = 1 << 34;
const NUMBER_MARK: usize = 1 << 35;
const COUNT_MARK: usize = 0x5a5a_0000_0000;

/// The state between two calls, and the lent field. The two slices of the state have another length only where that is tried.
#[derive(Clone, Debug)]
pub struct Run {
    pub numbers: Vec<f64>,
    pub counts: Vec<usize>,
    pub field: Vec<f64>,
}

impl Run {
    /// As it is lent to a start.
    pub fn marked(numbers: usize, counts: usize, field: usize) -> Run {
        Run {
            numbers: (0..numbers).map(|i| mark(NUMBER_MARK + i)).collect(),
            counts: (0..counts).map(|i| COUNT_MARK + i).collect(),
            field: (0..field).map(|i| mark(FIELD_MARK + i)).collect(),
        }
    }

    /// As it is lent to the start of a job that may be accepted, and not too long for one that is not.
    pub fn lent(job: &Job) -> Run {
        Run::marked(NUMBERS, COUNTS, job.n.min(1_000_001) + job.degree().min(3))
    }

    pub fn ended(&self) -> bool {
        self.counts[ENDED] != 0
    }

    pub fn print(&self) -> String {
        let counts: Vec<String> = self.counts.iter().map(usize::to_string).collect();
        let (numbers, field) = (marked_runs(&self.numbers, NUMBER_MARK), marked_runs(&self.field, FIELD_MARK));
        format!("numbers={numbers} counts={} field={field}", counts.join(","))
    }
}

/// What a start or step leaves: 0 or the refusal's number, the double, the run, output and working memory.
#[derive(Clone, Debug)]
pub struct Left {
    pub number: u32,
    pub value: f64,
    pub run: Run,
    pub out: Vec<f64>,
    pub work: Vec<f64>,
}

impl Left {
    /// Of a refusal that changes nothing.
    pub fn refused(job: &Job, run: &Run, number: u32, value: f64) -> Left {
        Left { number, value, run: run.clone(), out: job.marked_out(), work: job.marked_work() }
    }

    /// The answer of the whole call, if this call has ended the run or is a start that was refused.
    pub fn answer(&self) -> Answer {
        let (number, out, work) = (self.number, self.out.clone(), self.work.clone());
        if number != 0 {
            return Answer { number, value: self.value, counts: [0; 3], steps: [0.0; 2], out, work, buffers: None };
        }
        let Run { numbers, counts, .. } = &self.run;
        let counts = [counts[MATVECS], counts[SUBSTEPS], counts[REJECTED]].map(|c| c as u64);
        let steps = [numbers[SHORTEST], numbers[LAST]];
        Answer { number, value: numbers[ESTIMATE], counts, steps, out, work, buffers: None }
    }

    pub fn print(&self) -> String {
        let (out, work) = (marked_runs(&self.out, 0), marked_runs(&self.work, WORK_MARK));
        format!("number={} value={} {} out={out} work={work}", self.number, double(&self.value), self.run.print())
    }

    /// Which parts differ, bit for bit.
    pub fn differs(&self, other: &Left) -> Vec<&'static str> {
        let parts = [
            ("number", self.number == other.number),
            ("value", bits(self.value) == bits(other.value)),
            ("numbers", same(&self.run.numbers, &other.run.numbers)),
            ("counts", self.run.counts == other.run.counts),
            ("field", same(&self.run.field, &other.run.field)),
            ("out", same(&self.out, &other.out)),
            ("work", same(&self.work, &other.work)),
        ];
        parts.into_iter().filter(|(_, same)| !same).map(|(part, _)| part).collect()
    }
}
