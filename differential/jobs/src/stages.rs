//! A soak in stages (document 02, N11): the lists of a schedule as they are handed in, and what the call leaves.

use crate::{bits, double, doubles, list, marked_runs, same, Job, WORK_MARK};

/// The seven lists, which are of one length only where that is not tried, the start field and the slice of further vectors.
#[derive(Clone, Debug, Default)]
pub struct Schedule {
    pub taus: Vec<f64>,
    pub counts: Vec<usize>,
    /// 0 is Taylor, any other number Krylov.
    pub solvers: Vec<u32>,
    pub degrees: Vec<u32>,
    pub tols: Vec<f64>,
    pub ms: Vec<usize>,
    pub limits: Vec<usize>,
    pub start: Vec<f64>,
    pub further: Vec<f64>,
}

impl Schedule {
    pub fn lengths(&self) -> [usize; 7] {
        let Schedule { taus, counts, solvers, degrees, tols, ms, limits, .. } = self;
        [taus.len(), counts.len(), solvers.len(), degrees.len(), tols.len(), ms.len(), limits.len()]
    }

    /// Every list becomes a heap block of just its length.
    pub fn shrink(&mut self) {
        self.taus.shrink_to_fit();
        self.counts.shrink_to_fit();
        self.solvers.shrink_to_fit();
        self.degrees.shrink_to_fit();
        self.tols.shrink_to_fit();
        self.ms.shrink_to_fit();
        self.limits.shrink_to_fit();
        self.start.shrink_to_fit();
        self.further.shrink_to_fit();
    }

    /// Over the matrix, mass, output and working memory of a job.
    pub fn print(&self, job: &Job) -> String {
        format!(
            "{}\n  taus={} counts={} solvers={} degrees={} tols={} ms={} limits={} start={} further={}",
            job.print(),
            doubles(&self.taus),
            list(&self.counts, usize::to_string),
            list(&self.solvers, u32::to_string),
            list(&self.degrees, u32::to_string),
            doubles(&self.tols),
            list(&self.ms, usize::to_string),
            list(&self.limits, usize::to_string),
            doubles(&self.start),
            doubles(&self.further)
        )
    }
}

/// What the call tells and leaves: 0 or the refusal's number, the double, the stage, applications, substeps and rejections, output and
/// working memory.
#[derive(Clone, Debug)]
pub struct Left {
    pub number: u32,
    pub value: f64,
    pub stage: u32,
    pub counts: [u64; 3],
    pub out: Vec<f64>,
    pub work: Vec<f64>,
}

impl Left {
    pub fn print(&self) -> String {
        let Left { number, value, stage, counts, out, work } = self;
        let (value, out, work) = (double(value), marked_runs(out, 0), marked_runs(work, WORK_MARK));
        format!("number={number} value={value} stage={stage} counts={counts:?} out={out} work={work}")
    }

    /// Which parts differ, bit for bit.
    pub fn differs(&self, other: &Left) -> Vec<&'static str> {
        let parts = [
            ("number", self.number == other.number),
            ("value", bits(self.value) == bits(other.value)),
            ("stage", self.stage == other.stage),
            ("counts", self.counts == other.counts),
            ("out", same(&self.out, &other.out)),
            ("work", same(&self.work, &other.work)),
        ];
        parts.into_iter().filter(|(_, same)| !same).map(|(part, _)| part).collect()
    }
}
