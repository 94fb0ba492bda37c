//! On byte slices: numbers as four bytes and doubles as eight, lowest first.

use std::iter::repeat_n;

use jobs::{Answer, Buffers, Job};

use crate::{called, exported, told, Slices, Told};

exported!(hazhendu_phi_combination_bytes, u8, u8, [], [degree: u32], [], u32, u32, u64);
exported!(hazhendu_phi_action_bytes, u8, u8, [], [degree: u32], [], u32, u32, u64);
exported!(hazhendu_phi_action_batched_bytes, u8, u8, [], [degree: u32], [], u32, u32, u64);
exported!(hazhendu_phi_combination_krylov_bytes, u8, u8, [], [], [tol: f64, m: usize, max_substeps: usize], usize, usize, usize, shortest: f64, last: f64);

exported!(hazhendu_phi_combination_transposed_bytes, u8, u8, [u8, u8, u8], [degree: u32], [], u32, u32, u64);
exported!(hazhendu_phi_action_transposed_bytes, u8, u8, [u8, u8, u8], [degree: u32], [], u32, u32, u64);
exported!(hazhendu_phi_action_batched_transposed_bytes, u8, u8, [u8, u8, u8], [degree: u32], [], u32, u32, u64);
exported!(hazhendu_phi_combination_krylov_transposed_bytes, u8, u8, [u8, u8, u8], [], [tol: f64, m: usize, max_substeps: usize], usize, usize, usize, shortest: f64, last: f64);

extern "C" {
    pub fn hazhendu_check_transposed_bytes(
        n: usize,
        starts: *const u8,
        starts_len: usize,
        cols: *const u8,
        cols_len: usize,
        vals: *const u8,
        vals_len: usize,
        with_mass: bool,
        mass: *const u8,
        mass_len: usize,
        t_starts: *mut u8,
        t_starts_len: usize,
        t_cols: *mut u8,
        t_cols_len: usize,
        t_vals: *mut u8,
        t_vals_len: usize,
        value: *mut f64,
        row: *mut usize,
    ) -> u32;
}

/// The doubles' bytes, and `tail` more that make no whole element.
pub(crate) fn doubles(list: &[f64], tail: usize) -> Box<[u8]> {
    list.iter().flat_map(|x| x.to_le_bytes()).chain(repeat_n(0xa5, tail % 8)).collect()
}

pub(crate) fn numbers(list: &[u32], tail: usize) -> Box<[u8]> {
    list.iter().flat_map(|x| x.to_le_bytes()).chain(repeat_n(0xa5, tail % 4)).collect()
}

pub(crate) fn whole_doubles(bytes: &[u8]) -> Vec<f64> {
    bytes.chunks_exact(8).map(|b| f64::from_le_bytes(b.try_into().unwrap())).collect()
}

fn whole_numbers(bytes: &[u8]) -> Box<[u32]> {
    bytes.chunks_exact(4).map(|b| u32::from_le_bytes(b.try_into().unwrap())).collect()
}

fn buffers(starts: &[u8], columns: &[u8], values: &[u8]) -> Buffers {
    Buffers { starts: whole_numbers(starts), columns: whole_numbers(columns), values: whole_doubles(values).into() }
}

/// Whether the bytes behind the last whole element of `size` bytes hold what they held.
pub(crate) fn kept(bytes: &[u8], size: usize) -> bool {
    bytes.chunks_exact(size).remainder().iter().all(|b| *b == 0xa5)
}

pub(crate) fn lent(job: &Job, tail: usize) -> Slices<Box<[u8]>, Box<[u8]>> {
    Slices {
        starts: numbers(&job.starts, tail),
        cols: numbers(&job.cols, tail / 2),
        vals: doubles(&job.vals, tail),
        mass: doubles(job.mass.as_deref().unwrap_or(&[]), tail / 3),
        w: doubles(&job.w, tail / 2),
    }
}

/// The answer, output, working memory and buffers marked beforehand; `None` if a byte behind the last whole element was written. `tail`
/// tells how many such bytes each slice has. Every slice is a heap block of just its length.
pub fn answer(job: &Job, tail: usize) -> Option<Answer> {
    let s = lent(job, tail);
    let mut out = doubles(&job.marked_out(), tail / 5);
    let mut work = doubles(&job.marked_work(), tail / 7);
    let Some(b) = job.marked_buffers() else {
        let told = told!(
            job,
            s,
            [],
            &mut out,
            &mut work,
            hazhendu_phi_combination_bytes,
            hazhendu_phi_action_bytes,
            hazhendu_phi_action_batched_bytes,
            hazhendu_phi_combination_krylov_bytes
        );
        return left(told, &out, &work, None);
    };
    let mut starts = numbers(&b.starts, tail / 3);
    let mut columns = numbers(&b.columns, tail);
    let mut values = doubles(&b.values, tail / 2);
    let told = told!(
        job,
        s,
        [starts, columns, values],
        &mut out,
        &mut work,
        hazhendu_phi_combination_transposed_bytes,
        hazhendu_phi_action_transposed_bytes,
        hazhendu_phi_action_batched_transposed_bytes,
        hazhendu_phi_combination_krylov_transposed_bytes
    );
    left(told, &out, &work, Some(buffers(&starts, &columns, &values))).filter(|_| kept(&starts, 4) && kept(&columns, 4) && kept(&values, 8))
}

fn left(told: Told, out: &[u8], work: &[u8], buffers: Option<Buffers>) -> Option<Answer> {
    let Told { number, value, counts, steps } = told;
    let answer = Answer { number, value, counts, steps, out: whole_doubles(out), work: whole_doubles(work), buffers };
    (kept(out, 8) && kept(work, 8)).then_some(answer)
}

/// The answer to the transposed matrix alone, the row as its first count; `None` if a byte behind the last whole element was written. A matrix is too large by
/// its rows and entries.
pub fn matrix(job: &Job, tail: usize) -> Option<Answer> {
    let s = lent(job, tail);
    let b = job.marked_buffers()?;
    let (mut starts, mut columns, mut values) = (numbers(&b.starts, tail / 3), numbers(&b.columns, tail), doubles(&b.values, tail / 2));
    let (mut value, mut row) = (jobs::mark(0), !0);
    // SAFETY: as of `called!`.
    let number = unsafe {
        hazhendu_check_transposed_bytes(
            job.n,
            s.starts.as_ptr(),
            s.starts.len(),
            s.cols.as_ptr(),
            s.cols.len(),
            s.vals.as_ptr(),
            s.vals.len(),
            job.mass.is_some(),
            s.mass.as_ptr(),
            s.mass.len(),
            starts.as_mut_ptr(),
            starts.len(),
            columns.as_mut_ptr(),
            columns.len(),
            values.as_mut_ptr(),
            values.len(),
            &mut value,
            &mut row,
        )
    };
    let answer = Answer { buffers: Some(buffers(&starts, &columns, &values)), ..Answer::of_matrix(number, value, row) };
    (kept(&starts, 4) && kept(&columns, 4) && kept(&values, 8)).then_some(answer)
}
