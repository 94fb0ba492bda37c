//! Paused runs, beside the whole call.

use hazhendu::lent::{self, paused};
use hazhendu::{phi_combination_krylov, sizes, Error, KrylovOptions, Matrix, Paused, Report};

/// Eight bodies in a row; the last one loses heat.
const ROD: Matrix = Matrix {
    n: 8,
    starts: &[0, 2, 5, 8, 11, 14, 17, 20, 22],
    columns: &[0, 1, 0, 1, 2, 1, 2, 3, 2, 3, 4, 3, 4, 5, 4, 5, 6, 5, 6, 7, 6, 7],
    entries: &[1.0, -1.0, -1.0, 2.0, -1.0, -1.0, 2.0, -1.0, -1.0, 2.0, -1.0, -1.0, 2.0, -1.0, -1.0, 2.0, -1.0, -1.0, 2.0, -1.0, -1.0, 1.5],
    mass: None,
};
const MASS: [f64; 8] = [4.0, 3.0, 5.0, 4.0, 4.0, 6.0, 4.0, 2.0];
const TAU: f64 = 20.0;
const W: [f64; 16] = [20.0, 19.0, 18.0, 17.0, 16.0, 15.0, 14.0, 13.0, 0.25, 0.0, 0.0, 0.5, 0.0, 0.0, 0.0, 0.125];
const OPTIONS: KrylovOptions = KrylovOptions { tol: 1e-8, m: 4, max_substeps: 10_000 };

fn bits(list: &[f64]) -> Vec<u64> {
    list.iter().map(|x| x.to_bits()).collect()
}

fn refused<T: std::fmt::Debug>(answer: Result<T, Error>) -> (u32, f64) {
    let refusal = answer.unwrap_err().refusal().expect("a refusal");
    (refusal.number, refusal.value)
}

fn started() -> Paused {
    Paused::start(&ROD, TAU, 2, &W, OPTIONS).unwrap()
}

/// Everything a refused step must leave.
fn kept(run: &Paused) -> (Vec<u64>, [usize; 8], Vec<u64>) {
    (bits(&run.state().numbers), run.state().counts, bits(run.field()))
}

#[test]
fn unchanged_it_is_the_whole_call() {
    for a in [ROD, ROD.with_mass(&MASS)] {
        for m in [3, 4, 40] {
            for count in [1, 2] {
                let (w, options) = (&W[..8 * count], KrylovOptions { m, ..OPTIONS });
                let whole = phi_combination_krylov(&a, TAU, count, w, options).unwrap();
                let run = Paused::start(&a, TAU, count, w, options).unwrap();
                assert_eq!((run.time(), run.ended(), run.report()), (0.0, false, Report::default()));
                let soaked = run.finish(&a, TAU, count, w).unwrap();
                assert_eq!((bits(&soaked.field), soaked.cost), (bits(&whole.field), whole.cost));
            }
        }
    }
}

#[test]
fn between_substeps_it_is_a_whole_run_that_stopped_there() {
    let mut run = started();
    for made in 1..=5 {
        run.step(&ROD, TAU, 2, &W).unwrap();
        let error = phi_combination_krylov(&ROD, TAU, 2, &W, KrylovOptions { max_substeps: made, ..OPTIONS }).unwrap_err();
        assert_eq!(bits(run.field()), bits(error.state().unwrap()));
        // 27 carries the estimate of the scaled start.
        assert_eq!(run.state().report().estimated_error, error.refusal().unwrap().value);
        assert_eq!(run.report().estimated_error, error.refusal().unwrap().value / run.state().norm());
        assert_eq!(run.report().substeps, made);
        assert!(run.time() > 0.0 && run.time() < 1.0 && !run.ended());
    }
}

#[test]
fn the_limit_refuses_with_its_last_substep() {
    let options = KrylovOptions { max_substeps: 3, ..OPTIONS };
    let whole = phi_combination_krylov(&ROD, TAU, 2, &W, options).unwrap_err();
    let mut run = Paused::start(&ROD, TAU, 2, &W, options).unwrap();
    run.step(&ROD, TAU, 2, &W).unwrap();
    run.step(&ROD, TAU, 2, &W).unwrap();
    assert!(!run.ended());
    let error = run.step(&ROD, TAU, 2, &W).unwrap_err();
    assert_eq!((error.refusal().unwrap().number, error.refusal().unwrap().value), (27, whole.refusal().unwrap().value));
    assert_eq!(bits(error.state().unwrap()), bits(whole.state().unwrap()));
    assert!(
        run.ended() && run.report().substeps == 3 && run.report().estimated_error == error.refusal().unwrap().value / run.state().norm()
    );
    assert_eq!(refused(run.step(&ROD, TAU, 2, &W)).0, 31);
    assert_eq!(refused(run.clone().finish(&ROD, TAU, 2, &W)), (27, whole.refusal().unwrap().value));
}

#[test]
fn tightened_half_way() {
    let (loose, tight) = (1e-4, 1e-11);
    let cost = |tol| phi_combination_krylov(&ROD, TAU, 2, &W, KrylovOptions { tol, ..OPTIONS }).unwrap().cost;
    let mut run = Paused::start(&ROD, TAU, 2, &W, KrylovOptions { tol: loose, ..OPTIONS }).unwrap();
    let mut tightened_at = 0;
    while !run.ended() {
        if run.time() >= 0.5 && tightened_at == 0 {
            tightened_at = run.report().substeps;
            run.tighten(tight);
            assert_eq!(run.tol(), loose, "it comes with the step");
        }
        run.step(&ROD, TAU, 2, &W).unwrap();
        assert_eq!(run.tol(), if tightened_at == 0 { loose } else { tight });
    }
    assert_eq!(run.time(), 1.0);
    assert!(tightened_at > 0 && cost(loose).substeps < run.report().substeps && run.report().substeps < cost(tight).substeps);
    // The same tolerance again changes nothing.
    let mut run = started();
    while !run.ended() {
        run.tighten(OPTIONS.tol);
        run.step(&ROD, TAU, 2, &W).unwrap();
    }
    let whole = phi_combination_krylov(&ROD, TAU, 2, &W, OPTIONS).unwrap();
    assert_eq!((bits(run.field()), run.report()), (bits(&whole.field), whole.cost));
}

#[test]
fn an_ended_run_is_refused_before_all_else() {
    let mut run = started();
    while !run.ended() {
        run.step(&ROD, TAU, 2, &W).unwrap();
    }
    let before = kept(&run);
    for a in [ROD, Matrix::new(0, &[], &[], &[])] {
        let (number, value) = refused(run.step(&a, -1.0, 7, &[]));
        assert!(number == 31 && value.is_nan());
    }
    assert_eq!(kept(&run), before);
    assert_eq!(run.clone().finish(&ROD, TAU, 2, &W).unwrap().cost, run.report());
}

#[test]
fn early_refusals_leave_the_run() {
    let mut run = started();
    run.step(&ROD, TAU, 2, &W).unwrap();
    let before = kept(&run);
    assert_eq!(refused(run.step(&ROD, -1.0, 2, &W)), (14, -1.0));
    assert_eq!(refused(run.step(&ROD, TAU, 0, &[])), (12, 0.0));
    assert_eq!(refused(run.step(&ROD, TAU, 2, &W[..15])), (16, 15.0));
    let mut infinite = W;
    infinite[3] = f64::INFINITY;
    assert_eq!(refused(run.step(&ROD, TAU, 2, &infinite)), (17, f64::INFINITY));
    run.tighten(1.0);
    assert_eq!(refused(run.step(&ROD, TAU, 2, &W)), (18, 1.0));
    run.tighten(1e-12);
    assert_eq!(refused(run.step(&ROD, -1.0, 2, &W)).0, 14);
    assert_eq!(kept(&run), before);
    // None of it is to be seen in the end.
    let whole = phi_combination_krylov(&ROD, TAU, 2, &W, OPTIONS).unwrap();
    let soaked = run.finish(&ROD, TAU, 2, &W).unwrap();
    assert_eq!((bits(&soaked.field), soaked.cost), (bits(&whole.field), whole.cost));
}

#[test]
fn another_n_or_count_is_16() {
    let mut run = started();
    let before = kept(&run);
    let one = Matrix::new(1, &[0, 1], &[0], &[2.0]);
    assert_eq!(refused(run.step(&one, TAU, 2, &[1.0, 2.0])), (16, 2.0));
    assert_eq!(refused(run.step(&ROD, TAU, 1, &W[..8])), (16, 8.0));
    // As many numbers as the start had, but of four vectors over four rows.
    let empty = Matrix::new(4, &[0, 0, 0, 0, 0], &[], &[]);
    assert_eq!(refused(run.step(&empty, TAU, 4, &W)), (16, 16.0));
    assert_eq!(kept(&run), before);
    // The library itself: an output of the run's length with another n is 15 before it is 16.
    let (mut state, mut out, mut field) = (*run.state(), [0.0; 8], [0.0; 9]);
    let refusal = paused::step(&mut state, &one, TAU, 2, &[1.0, 2.0], None, &mut out, &mut [], &mut field).unwrap_err();
    assert_eq!((refusal.number, refusal.value), (15, 8.0));
}

#[test]
fn another_job_goes_on_from_the_field() {
    // Half of the time with the heating on, then off: in total another field than either.
    let mut off = W;
    off[8..].fill(0.0);
    let mut run = started();
    while !run.ended() {
        let w = if run.time() < 0.5 { &W } else { &off };
        run.step(&ROD, TAU, 2, w).unwrap();
    }
    let sum = |field: &[f64]| field.iter().sum::<f64>();
    let whole = |w| sum(&phi_combination_krylov(&ROD, TAU, 2, w, OPTIONS).unwrap().field);
    assert!(whole(&off) < sum(run.field()) && sum(run.field()) < whole(&W));
    // A mass that comes later needs more working memory, which is seen to.
    let mut run = started();
    run.step(&ROD, TAU, 2, &W).unwrap();
    run.step(&ROD.with_mass(&MASS), TAU, 2, &W).unwrap();
    assert_eq!(run.report().substeps, 2);
}

#[test]
fn a_zero_start_has_ended() {
    let zeros = [0.0, -0.0, 0.0, 0.0, 0.0, 0.0, 0.0, 0.0];
    let mut run = Paused::start(&ROD, TAU, 1, &zeros, OPTIONS).unwrap();
    assert!(run.ended());
    assert_eq!((run.time(), run.report(), bits(run.field())), (0.0, Report::default(), bits(&zeros)));
    assert_eq!(refused(run.step(&ROD, TAU, 1, &zeros)).0, 31);
    let whole = phi_combination_krylov(&ROD, TAU, 1, &zeros, OPTIONS).unwrap();
    assert_eq!(run.finish(&ROD, TAU, 1, &zeros).unwrap(), whole);
    // Two zero vectors are a run.
    assert!(!Paused::start(&ROD, TAU, 2, &[0.0; 16], OPTIONS).unwrap().ended());
}

#[test]
fn a_start_is_refused_as_the_whole_call() {
    let both = |a: &Matrix, tau: f64, count: usize, w: &[f64], options: KrylovOptions| {
        let (one, other) = (Paused::start(a, tau, count, w, options), phi_combination_krylov(a, tau, count, w, options));
        let (one, other) = (refused(one), refused(other));
        assert!(one.0 == other.0 && one.1.to_bits() == other.1.to_bits(), "{one:?} {other:?}");
        one.0
    };
    assert_eq!(both(&Matrix::new(0, &[0], &[], &[]), TAU, 1, &[], OPTIONS), 1);
    assert_eq!(both(&ROD.with_mass(&MASS[..3]), TAU, 2, &W, OPTIONS), 7);
    assert_eq!(both(&ROD, TAU, 5, &[0.0; 40], OPTIONS), 12);
    assert_eq!(both(&ROD, f64::NAN, 2, &W, OPTIONS), 14);
    assert_eq!(both(&ROD, TAU, 2, &W, KrylovOptions { tol: 0.0, ..OPTIONS }), 18);
    assert_eq!(both(&ROD, TAU, 2, &W, KrylovOptions { max_substeps: 0, ..OPTIONS }), 19);
    assert_eq!(both(&ROD, TAU, usize::MAX, &W, OPTIONS), 12);
    assert_eq!(both(&ROD, TAU, 0, &[], OPTIONS), 12);
}

#[test]
fn the_lent_field_has_one_length() {
    let work = sizes::krylov_work(8, 22, false, 2, OPTIONS.m);
    for length in [0, 8, 10, 9] {
        let (mut out, mut work, mut field) = ([0.5; 8], vec![0.5; work], vec![0.5; length]);
        let started = paused::start(&ROD, TAU, 2, &W, OPTIONS, &mut out, &mut work, &mut field);
        if length == sizes::field(8, 2) {
            assert!(started.is_ok() && work.iter().all(|x| x.to_bits() == 0));
            continue;
        }
        assert_eq!(started.unwrap_err().number, 26);
        assert!(out.iter().chain(&work).chain(&field).all(|x| *x == 0.5));
    }
    // A step over a field of another length changes nothing either.
    let (mut out, mut work, mut field) = ([0.0; 8], vec![0.0; work], vec![0.0; 9]);
    let mut state = paused::start(&ROD, TAU, 2, &W, OPTIONS, &mut out, &mut work, &mut field).unwrap();
    let before = state;
    let refusal = paused::step(&mut state, &ROD, TAU, 2, &W, None, &mut out, &mut work, &mut field[..8]).unwrap_err();
    assert_eq!((refusal.number, state), (26, before));
    assert!(paused::step(&mut state, &ROD, TAU, 2, &W, None, &mut out, &mut work, &mut field).is_ok());
    assert!(work.iter().all(|x| x.to_bits() == 0));
}

#[test]
fn states_that_no_call_left_are_answered() {
    let run = started();
    let (mut out, mut work, mut field) = ([0.0; 8], vec![0.0; 4096], [0.5; 9]);
    for number in [0.0, -0.0, 1.0, -1.0, 1e300, -1e300, 5e-324, f64::NAN, f64::INFINITY, f64::NEG_INFINITY] {
        for place in 0..10 {
            let mut state = *run.state();
            state.numbers[place] = number;
            field.fill(if place % 2 == 0 { number } else { 0.5 });
            let told = paused::step(&mut state, &ROD, TAU, 2, &W, None, &mut out, &mut work, &mut field);
            assert!(told.map_or_else(|refusal| refusal.is_known(), |()| true));
        }
    }
    for count in [0, 1, 2, 3, 127, 129, 1_000_000, 1_000_001, 129_000_000, 129_000_001, usize::MAX - 1, usize::MAX] {
        for place in 0..8 {
            let mut state = *run.state();
            state.counts[place] = count;
            field.fill(0.5);
            let told = paused::step(&mut state, &ROD, TAU, 2, &W, None, &mut out, &mut work, &mut field);
            assert!(told.map_or_else(|refusal| refusal.is_known(), |()| true));
        }
    }
}

#[test]
fn lent_and_owned_are_one() {
    let work_length = sizes::krylov_work(8, 22, false, 2, OPTIONS.m);
    let (mut out, mut work, mut field) = ([0.0; 8], vec![0.0; work_length], [0.0; 9]);
    let mut state = paused::start(&ROD, TAU, 2, &W, OPTIONS, &mut out, &mut work, &mut field).unwrap();
    let mut run = started();
    while !state.ended() {
        paused::step(&mut state, &ROD, TAU, 2, &W, None, &mut out, &mut work, &mut field).unwrap();
        run.step(&ROD, TAU, 2, &W).unwrap();
        assert_eq!((bits(&out), state.counts), (bits(run.field()), run.state().counts));
    }
    let report = lent::phi_combination_krylov(&ROD, TAU, 2, &W, OPTIONS, &mut out, &mut work).unwrap();
    assert_eq!((report, bits(&out)), (run.report(), bits(run.field())));
}
