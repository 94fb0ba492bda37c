//! What a soak in stages has to answer (document 02, N11): single calls of the Rust in a row.

use jobs::stages::{Left, Schedule};
use jobs::{Call, Job};

/// What the schedule has to leave, and what was met on the way; `None` where a stage takes more than `cost` operations.
pub fn expected(base: &Job, s: &Schedule, cost: u64) -> Option<Left> {
    let (mut out, mut work) = (base.marked_out(), base.marked_work());
    // "It refuses with 37, directly after the matrix checks, any other number of stages"
    let matrix = compare::reference::matrix(base);
    if matrix.number != 0 {
        return Some(Left { number: matrix.number, value: matrix.value, stage: 0, counts: [0; 3], out, work });
    }
    let [stages, others @ ..] = s.lengths();
    if !(1..=64).contains(&stages) || others.iter().any(|length| *length != stages) {
        return Some(Left { number: 37, value: f64::NAN, stage: 0, counts: [0; 3], out, work });
    }
    let (mut field, mut used, mut sums) = (s.start.clone(), 0, [0; 3]);
    for i in 0..stages {
        let last = i + 1 == stages;
        let need = s.counts[i].saturating_sub(1).saturating_mul(base.n);
        let (start_wrong, rest) = (i == 0 && s.start.len() != base.n, s.further.len() - used);
        let slice_wrong = rest < need || (last && rest > need);
        // "the field of one stage is w_0 of the next, and a stage brings only its further vectors"; where a length is wrong there are
        // no vectors, and the single call says whether a check before 16 refuses
        let w = if start_wrong || slice_wrong { vec![] } else { [&field[..], &s.further[used..used + need]].concat() };
        let job = single(base, s, i, w);
        let told = compare::expected(&job, cost)?.answer;
        // "16 comes at stage 1 for a start field not n long, then at the first stage the slice is too short for, or at the last if it is
        // too long"
        let value = match told.number {
            16 if start_wrong => s.start.len() as f64,
            16 => s.further.len() as f64,
            _ => told.value,
        };
        if matches!(told.number, 0 | 27..=29) {
            out = told.out;
            let need = job.need();
            work[..need].fill(0.0);
        }
        if told.number != 0 {
            return Some(Left { number: told.number, value, stage: i as u32 + 1, counts: [0; 3], out, work });
        }
        // "its counts (applications, substeps, rejections; it reports nothing else) are the sums of theirs"
        match job.call {
            Call::Krylov { .. } => (0..3).for_each(|k| sums[k] += told.counts[k]),
            _ => sums[0] += told.counts[2],
        }
        field.clone_from(&out);
        used += need;
    }
    Some(Left { number: 0, value: 0.0, stage: 0, counts: sums, out, work })
}

/// The single call of stage i + 1.
fn single(base: &Job, s: &Schedule, i: usize, w: Vec<f64>) -> Job {
    let krylov = Call::Krylov { tol: s.tols[i], m: s.ms[i], limit: s.limits[i] };
    let (call, degree) = if s.solvers[i] == 0 { (Call::Combination, s.degrees[i]) } else { (krylov, jobs::DEGREE) };
    Job { call, degree, tau: s.taus[i], count: s.counts[i], w, lent: None, ..base.clone() }
}
