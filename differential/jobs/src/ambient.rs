//! A soak under a changing ambient level (document 02, N12): a log as it is handed in, and what the call leaves.

use crate::{bits, double, doubles, mark, marked_runs, same, Job, WORK_MARK};

/// Behind all other marks; one range for each slice of the results.
const RESULT_MARK: usize = 1 << 34;

/// Durations and levels, which are of one length only where that is not tried, field and load, window, node, and how many places there are
/// for temperatures, largest and smallest.
#[derive(Clone, Debug, Default)]
pub struct Log {
    pub durations: Vec<f64>,
    pub levels: Vec<f64>,
    pub field: Vec<f64>,
    pub load: Vec<f64>,
    pub window: usize,
    pub node: usize,
    pub places: [usize; 3],
}

impl Log {
    /// Every list becomes a heap block of just its length.
    pub fn shrink(&mut self) {
        self.durations.shrink_to_fit();
        self.levels.shrink_to_fit();
        self.field.shrink_to_fit();
        self.load.shrink_to_fit();
    }

    /// The slices for the results as they are lent.
    pub fn marked_results(&self) -> [Vec<f64>; 3] {
        [0, 1, 2].map(|k| (0..self.places[k]).map(|i| mark(result_mark(k) + i)).collect())
    }

    /// Over the matrix, mass, output and working memory of a job.
    pub fn print(&self, job: &Job) -> String {
        let Log { durations, levels, field, load, window, node, places } = self;
        let (durations, levels, field, load) = (doubles(durations), doubles(levels), doubles(field), doubles(load));
        format!(
            "{}\n  durations={durations} levels={levels} field={field} load={load} window={window} node={node} places={places:?}",
            job.print()
        )
    }
}

fn result_mark(k: usize) -> usize {
    RESULT_MARK * (k + 1)
}

/// What the call tells and leaves: 0 or the refusal's number, the double, the record, output, working memory, and temperatures, largest and
/// smallest.
#[derive(Clone, Debug)]
pub struct Left {
    pub number: u32,
    pub value: f64,
    pub record: u32,
    pub out: Vec<f64>,
    pub work: Vec<f64>,
    pub results: [Vec<f64>; 3],
}

impl Left {
    pub fn print(&self) -> String {
        let Left { number, value, record, out, work, results } = self;
        let (value, out, work) = (double(value), marked_runs(out, 0), marked_runs(work, WORK_MARK));
        let [temperatures, largest, smallest] = [0, 1, 2].map(|k| marked_runs(&results[k], result_mark(k)));
        format!(
            "number={number} value={value} record={record} out={out} work={work} temperatures={temperatures} largest={largest} smallest={smallest}"
        )
    }

    /// Which parts differ, bit for bit.
    pub fn differs(&self, other: &Left) -> Vec<&'static str> {
        let parts = [
            ("number", self.number == other.number),
            ("value", bits(self.value) == bits(other.value)),
            ("record", self.record == other.record),
            ("out", same(&self.out, &other.out)),
            ("work", same(&self.work, &other.work)),
            ("temperatures", same(&self.results[0], &other.results[0])),
            ("largest", same(&self.results[1], &other.results[1])),
            ("smallest", same(&self.results[2], &other.results[2])),
        ];
        parts.into_iter().filter(|(_, same)| !same).map(|(part, _)| part).collect()
    }
}
