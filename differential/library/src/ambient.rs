//! A soak under a changing ambient level (document 02, N12), on slices.

use std::ops::Deref;

use jobs::ambient::{Left, Log};
use jobs::Job;

use crate::slices::lent;
use crate::Slices;

extern "C" {
    fn hazhendu_ambient(
        n: usize,
        starts: *const u32,
        starts_len: usize,
        cols: *const u32,
        cols_len: usize,
        vals: *const f64,
        vals_len: usize,
        with_mass: bool,
        mass: *const f64,
        mass_len: usize,
        durations: *const f64,
        durations_len: usize,
        levels: *const f64,
        levels_len: usize,
        field: *const f64,
        field_len: usize,
        load: *const f64,
        load_len: usize,
        window: usize,
        node: usize,
        out: *mut f64,
        out_len: usize,
        work: *mut f64,
        work_len: usize,
        temperatures: *mut f64,
        temperatures_len: usize,
        largest: *mut f64,
        largest_len: usize,
        smallest: *mut f64,
        smallest_len: usize,
        value: *mut f64,
        record: *mut u32,
    ) -> u32;
}

/// What the call tells: 0 or the refusal's number, the double, and the record.
pub struct Told {
    pub number: u32,
    pub value: f64,
    pub record: u32,
}

/// The call alone, over the matrix and mass of a job.
pub fn call(job: &Job, log: &Log, out: &mut [f64], work: &mut [f64], results: [&mut [f64]; 3]) -> Told {
    put(job, &lent::<&[u32], &[f64]>(job), log, out, work, results)
}

fn put<N, D>(job: &Job, s: &Slices<N, D>, log: &Log, out: &mut [f64], work: &mut [f64], results: [&mut [f64]; 3]) -> Told
where
    N: Deref<Target = [u32]>,
    D: Deref<Target = [f64]>,
{
    let Log { durations, levels, field, load, window, node, .. } = log;
    let [temperatures, largest, smallest] = results;
    let (mut value, mut record) = (jobs::mark(0), !0);
    // SAFETY: as of `called!`.
    let number = unsafe {
        hazhendu_ambient(
            job.n,
            s.starts.as_ptr(),
            s.starts.len(),
            s.cols.as_ptr(),
            s.cols.len(),
            s.vals.as_ptr(),
            s.vals.len(),
            job.mass.is_some(),
            s.mass.as_ptr(),
            s.mass.len(),
            durations.as_ptr(),
            durations.len(),
            levels.as_ptr(),
            levels.len(),
            field.as_ptr(),
            field.len(),
            load.as_ptr(),
            load.len(),
            *window,
            *node,
            out.as_mut_ptr(),
            out.len(),
            work.as_mut_ptr(),
            work.len(),
            temperatures.as_mut_ptr(),
            temperatures.len(),
            largest.as_mut_ptr(),
            largest.len(),
            smallest.as_mut_ptr(),
            smallest.len(),
            &mut value,
            &mut record,
        )
    };
    Told { number, value, record }
}

/// What the call leaves, with the job's lengths of output and working memory and the log's of the results, all marked beforehand. Every slice
/// is a heap block of just its length.
pub fn answer(job: &Job, log: &Log) -> Left {
    let mut out = job.marked_out().into_boxed_slice();
    let mut work = job.marked_work().into_boxed_slice();
    let mut results = log.marked_results().map(Vec::into_boxed_slice);
    let mut cut = log.clone();
    cut.shrink();
    let lists = results.each_mut().map(|list| &mut list[..]);
    let Told { number, value, record } = put(job, &lent::<Box<[u32]>, Box<[f64]>>(job), &cut, &mut out, &mut work, lists);
    Left { number, value, record, out: out.into_vec(), work: work.into_vec(), results: results.map(|list| list.into_vec()) }
}
