//! Soaks in stages, beside single calls in a row.

use hazhendu::lent::stages as lent;
use hazhendu::{combine, sizes, stages, sys, Cost, KrylovOptions, Matrix, Solver, Stage, StageError, StagedReport, TaylorOptions};

/// Eight bodies in a row; the last one loses heat.
const ROD: Matrix = Matrix {
    n: 8,
    starts: &[0, 2, 5, 8, 11, 14, 17, 20, 22],
    columns: &[0, 1, 0, 1, 2, 1, 2, 3, 2, 3, 4, 3, 4, 5, 4, 5, 6, 5, 6, 7, 6, 7],
    entries: &[1.0, -1.0, -1.0, 2.0, -1.0, -1.0, 2.0, -1.0, -1.0, 2.0, -1.0, -1.0, 2.0, -1.0, -1.0, 2.0, -1.0, -1.0, 2.0, -1.0, -1.0, 1.5],
    mass: None,
};
const MASS: [f64; 8] = [4.0, 3.0, 5.0, 4.0, 4.0, 6.0, 4.0, 2.0];
const START: [f64; 8] = [20.0, 19.0, 18.0, 17.0, 16.0, 15.0, 14.0, 13.0];
const HEATING: [f64; 8] = [0.25, 0.0, 0.0, 0.5, 0.0, 0.0, 0.0, 0.125];
const GROWTH: [f64; 8] = [0.0, 0.0, 0.01, 0.0, 0.0, 0.0, 0.02, 0.0];
const KRYLOV: Solver = Solver::Krylov(KrylovOptions { tol: 1e-8, m: 4, max_substeps: 10_000 });
const TAYLOR: Solver = Solver::Taylor(TaylorOptions { degree: 30 });
const MARK: f64 = 0.125;

/// Warm-up with a growing power, hold, cool-down.
const SCHEDULE: [Stage; 3] = [
    Stage { tau: 5.0, further: &[&HEATING, &GROWTH], solver: TAYLOR },
    Stage { tau: 20.0, further: &[&HEATING], solver: KRYLOV },
    Stage { tau: 2.0, further: &[], solver: Solver::Taylor(TaylorOptions { degree: 7 }) },
];

fn bits(list: &[f64]) -> Vec<u64> {
    list.iter().map(|x| x.to_bits()).collect()
}

/// The single calls in a row: the field after each, and the sums so far.
fn in_a_row(a: &Matrix, schedule: &[Stage]) -> Vec<(Vec<f64>, StagedReport)> {
    let (mut field, mut sum) = (START.to_vec(), StagedReport::default());
    let mut after = Vec::new();
    for stage in schedule {
        let w = [&field[..], &stage.further.concat()].concat();
        let soaked = combine(stage.solver, a, stage.tau, 1 + stage.further.len(), &w).unwrap();
        match soaked.cost {
            Cost::Taylor(plan) => sum.applications += plan.applications,
            Cost::Krylov(report) => {
                sum.applications += report.matvecs as u64;
                sum.substeps += report.substeps as u64;
                sum.rejected += report.rejected as u64;
            }
        }
        field = soaked.field;
        after.push((field.clone(), sum));
    }
    after
}

#[track_caller]
fn refused(answer: Result<hazhendu::Staged, StageError>) -> (u32, f64, u32, Option<Vec<f64>>) {
    match answer.unwrap_err() {
        StageError::Refused { refusal, stage, field } => (refusal.number, refusal.value, stage, field),
        StageError::OutOfMemory { .. } => panic!("no memory"),
    }
}

#[test]
fn stages_are_single_calls_in_a_row() {
    for a in [ROD, ROD.with_mass(&MASS)] {
        for length in 1..=3 {
            let staged = stages(&a, &SCHEDULE[..length], &START).unwrap();
            let (field, sum) = in_a_row(&a, &SCHEDULE[..length]).pop().unwrap();
            assert_eq!((bits(&staged.field), staged.report), (bits(&field), sum));
        }
    }
    assert!(stages(&ROD, &SCHEDULE, &START).unwrap().report.substeps > 10);
}

#[test]
fn sixty_four_stages_and_no_more() {
    let short = [Stage { tau: 0.25, further: &[&HEATING], solver: TAYLOR }; 66];
    let staged = stages(&ROD, &short[..64], &START).unwrap();
    let (field, sum) = in_a_row(&ROD, &short[..64]).pop().unwrap();
    assert_eq!((bits(&staged.field), staged.report), (bits(&field), sum));
    for length in [0, 65, 66] {
        let (number, value, stage, field) = refused(stages(&ROD, &short[..length], &START));
        assert!((number, stage, field) == (37, 0, None) && value.is_nan());
        // It comes before anything of stage 1, and after the matrix.
        assert_eq!(refused(stages(&ROD, &short[..length], &[])).0, 37);
        let no_rows = Matrix::new(0, &[0], &[], &[]);
        assert_eq!(refused(stages(&no_rows, &short[..length], &START)).0, 1);
    }
    assert!(stages(&ROD, &[], &START).unwrap_err().to_string().starts_with("refused (37): the schedule does not have 1 to 64 stages"));
}

/// The exported call itself, with a list of another length; nothing is changed.
#[test]
fn lists_that_differ_in_length() {
    for short in 0..8 {
        let length = |list: usize| if list == short { 1 } else { 2 };
        let (numbers, sizes, solvers) = ([1.0, 1.0], [1usize, 1], [0u32, 0]);
        let (mut out, mut work) = ([MARK; 8], [MARK; 64]);
        let (mut value, mut stage, mut counts) = (0.0, 9, [9u64; 3]);
        let [applications, substeps, rejected] = &mut counts;
        // SAFETY: each pointer comes from a list that is at least as long as is said.
        let number = unsafe {
            sys::hazhendu_stages(
                8,
                ROD.starts.as_ptr(),
                9,
                ROD.columns.as_ptr(),
                22,
                ROD.entries.as_ptr(),
                22,
                false,
                numbers.as_ptr(),
                0,
                numbers.as_ptr(),
                length(0),
                sizes.as_ptr(),
                length(1),
                solvers.as_ptr(),
                length(2),
                [30u32, 30].as_ptr(),
                length(3),
                [1e-10, 1e-10].as_ptr(),
                length(4),
                sizes.as_ptr(),
                length(5),
                sizes.as_ptr(),
                length(6),
                START.as_ptr(),
                8,
                numbers.as_ptr(),
                0,
                out.as_mut_ptr(),
                8,
                work.as_mut_ptr(),
                64,
                &mut value,
                &mut stage,
                applications,
                substeps,
                rejected,
            )
        };
        if short == 7 {
            assert_eq!((number, value, stage, counts[1]), (0, 0.0, 0, 0));
            continue;
        }
        assert!((number, stage, counts) == (37, 0, [0; 3]) && value.is_nan(), "list {short}");
        assert!(out.iter().chain(&work).all(|x| *x == MARK));
    }
}

#[test]
fn the_start_and_the_slice_of_further_vectors() {
    assert_eq!(refused(stages(&ROD, &SCHEDULE, &START[..7])), (16, 7.0, 1, None));
    assert_eq!(refused(stages(&ROD, &SCHEDULE, &[0.0; 9])), (16, 9.0, 1, None));
    // On lent memory: too short for stage 1, for stage 2, and too long, which the last stage tells.
    let counted = |stage: &Stage| lent::Stage { tau: stage.tau, count: 1 + stage.further.len(), solver: stage.solver };
    let schedule = SCHEDULE.map(|stage| counted(&stage));
    let further = [HEATING, GROWTH, HEATING, HEATING].concat();
    let after = in_a_row(&ROD, &SCHEDULE);
    let need = sizes::stages_work(8, 22, false, &schedule);
    for (length, at) in [(0, 1), (15, 1), (16, 2), (23, 2), (25, 3), (32, 3)] {
        let (mut out, mut work) = ([MARK; 8], vec![MARK; need + 3]);
        let refused = lent::stages(&ROD, &schedule, &START, &further[..length], &mut out, &mut work).unwrap_err();
        assert_eq!((refused.refusal.number, refused.refusal.value, refused.stage), (16, length as f64, at as u32));
        // What the stages before needed is cleared.
        let field = if at == 1 { vec![MARK; 8] } else { after[at - 2].0.clone() };
        let cleared = sizes::stages_work(8, 22, false, &schedule[..at - 1]);
        assert_eq!(bits(&out), bits(&field));
        assert!(work[..cleared].iter().all(|x| x.to_bits() == 0) && work[cleared..].iter().all(|x| *x == MARK));
    }
    let (mut out, mut work) = ([MARK; 8], vec![MARK; need + 3]);
    let report = lent::stages(&ROD, &schedule, &START, &further[..24], &mut out, &mut work).unwrap();
    assert_eq!((bits(&out), report), (bits(&after[2].0), after[2].1));
    assert!(work[..need].iter().all(|x| x.to_bits() == 0) && work[need..].iter().all(|x| *x == MARK));
    // A vector too short and one too long in one stage do not make up for each other.
    let uneven = Stage { further: &[&[0.0; 7], &[0.0; 9]], ..SCHEDULE[0] };
    assert_eq!(refused(stages(&ROD, &[SCHEDULE[2], uneven], &START)).0, 16);
    assert_eq!(refused(stages(&ROD, &[SCHEDULE[2], uneven], &START)).2, 2);
}

#[test]
fn early_refusals_leave_the_field_of_the_stage_before() {
    let first = in_a_row(&ROD, &SCHEDULE[..1])[0].0.clone();
    let second = |stage: Stage| refused(stages(&ROD, &[SCHEDULE[0], stage, SCHEDULE[2]], &START));
    let krylov = |tol, m, max_substeps| Stage { solver: Solver::Krylov(KrylovOptions { tol, m, max_substeps }), ..SCHEDULE[1] };
    let infinite = [f64::INFINITY; 8];
    let wrong = [
        (Stage { further: &[&HEATING, &HEATING, &HEATING, &HEATING], ..SCHEDULE[1] }, 12, 5.0),
        (Stage { tau: -1.0, ..SCHEDULE[1] }, 14, -1.0),
        (Stage { further: &[&infinite], ..SCHEDULE[1] }, 17, f64::INFINITY),
        (krylov(1.0, 4, 10), 18, 1.0),
        (krylov(0.5, 4, 0), 19, 0.0),
    ];
    for (stage, number, value) in wrong {
        let told = second(stage);
        assert_eq!((told.0, told.1, told.2), (number, value, 2));
        assert_eq!(bits(&told.3.unwrap()), bits(&first));
        // The same at stage 1 leaves nothing.
        let told = refused(stages(&ROD, &[stage, SCHEDULE[2]], &START));
        assert_eq!((told.0, told.2, told.3), (number, 1, None));
    }
    for degree in [0, 31] {
        let told = second(Stage { solver: Solver::Taylor(TaylorOptions { degree }), ..SCHEDULE[1] });
        assert_eq!((told.0, told.2), (33, 2));
    }
    let error = stages(&ROD, &[SCHEDULE[0], Stage { tau: -1.0, ..SCHEDULE[1] }], &START).unwrap_err();
    assert_eq!((error.stage(), error.refusal().map(|refusal| refusal.number)), (2, Some(14)));
    assert!(error.to_string().starts_with("stage 2 refused (14): tau is negative") && error.field().is_some());
    // What a stage does not use is not looked at.
    let taylor = Stage { solver: TAYLOR, ..krylov(f64::NAN, usize::MAX, 0) };
    assert!(stages(&ROD, &[taylor], &START).is_ok());
}

#[test]
fn working_memory_is_looked_at_stage_by_stage() {
    let counted = |stage: &Stage| lent::Stage { tau: stage.tau, count: 1 + stage.further.len(), solver: stage.solver };
    let schedule = SCHEDULE.map(|stage| counted(&stage));
    let further = [HEATING, GROWTH, HEATING].concat();
    let (first, most) = (sizes::stages_work(8, 22, true, &schedule[..1]), sizes::stages_work(8, 22, true, &schedule));
    let a = ROD.with_mass(&MASS);
    for (length, at) in [(first - 1, 1), (first, 2), (most - 1, 2)] {
        let (mut out, mut work) = ([MARK; 8], vec![MARK; length]);
        let refused = lent::stages(&a, &schedule, &START, &further, &mut out, &mut work).unwrap_err();
        assert_eq!((refused.refusal.number, refused.stage), (26, at));
        assert_eq!(refused.leaves_field(), at == 2);
        let cleared = if at == 2 { first } else { 0 };
        assert!(work[..cleared].iter().all(|x| x.to_bits() == 0) && work[cleared..].iter().all(|x| *x == MARK));
    }
    assert!(lent::stages(&a, &schedule, &START, &further, &mut [0.0; 8], &mut vec![0.0; most]).is_ok());
    assert_eq!(sizes::stages_work(8, 22, true, &[schedule[1]; 65]), 0);
}

#[test]
fn a_stage_refused_in_its_run_leaves_its_own_state() {
    let limited = Stage { solver: Solver::Krylov(KrylovOptions { tol: 1e-8, m: 4, max_substeps: 2 }), ..SCHEDULE[1] };
    let (number, value, stage, field) = refused(stages(&ROD, &[SCHEDULE[0], limited, SCHEDULE[2]], &START));
    let w = [&in_a_row(&ROD, &SCHEDULE[..1])[0].0[..], &HEATING].concat();
    let single = combine(limited.solver, &ROD, limited.tau, 2, &w).unwrap_err();
    assert_eq!((number, value, stage), (27, single.refusal().unwrap().value, 2));
    assert_eq!(bits(&field.unwrap()), bits(single.state().unwrap()));
    // In stage 1 too.
    let (number, _, stage, field) = refused(stages(&ROD, &[limited], &START));
    assert!((number, stage) == (27, 1) && field.is_some());
}
