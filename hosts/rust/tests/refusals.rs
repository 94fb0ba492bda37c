//! Each refusal, its double, and what it leaves.

use hazhendu::{lent, phi_action, phi_combination, phi_combination_krylov, sizes, KrylovOptions, Matrix, Refusal, Solver, TaylorOptions};

const ONE: Matrix = Matrix { n: 1, starts: &[0, 1], columns: &[0], entries: &[2.0], mass: None };
/// Eight bodies in a row; the last one loses heat.
const ROD: Matrix = Matrix {
    n: 8,
    starts: &[0, 2, 5, 8, 11, 14, 17, 20, 22],
    columns: &[0, 1, 0, 1, 2, 1, 2, 3, 2, 3, 4, 3, 4, 5, 4, 5, 6, 5, 6, 7, 6, 7],
    entries: &[1.0, -1.0, -1.0, 2.0, -1.0, -1.0, 2.0, -1.0, -1.0, 2.0, -1.0, -1.0, 2.0, -1.0, -1.0, 2.0, -1.0, -1.0, 2.0, -1.0, -1.0, 1.5],
    mass: None,
};

const MARK: f64 = 0.125;

fn same(a: f64, b: f64) -> bool {
    a.to_bits() == b.to_bits() || (a.is_nan() && b.is_nan())
}

#[track_caller]
fn expect<T: std::fmt::Debug>(answer: Result<T, Refusal>, number: u32, value: f64) {
    let refusal = answer.unwrap_err();
    assert_eq!(refusal.number, number);
    assert!(same(refusal.value, value), "{refusal:?}, not {value:?}");
    assert!(!refusal.wrong().is_empty() && !refusal.change().is_empty());
    assert!(refusal.to_string().starts_with(&format!("refused ({number}): {}", refusal.wrong())));
}

/// A Taylor combination on marked memory, which a refusal must leave as it is.
fn taylor(a: Matrix, tau: f64, count: usize, w: &[f64]) -> Result<hazhendu::Plan, Refusal> {
    let mut out = vec![MARK; a.n.min(8)];
    let mut work = vec![MARK; 64];
    let answer = lent::phi_combination(&a, tau, count, w, TaylorOptions::default(), &mut out, &mut work);
    if answer.is_err() {
        assert!(out.iter().chain(&work).all(|x| *x == MARK));
    }
    answer
}

fn krylov(a: Matrix, tau: f64, count: usize, w: &[f64], tol: f64, m: usize, max_substeps: usize) -> Result<hazhendu::Report, Refusal> {
    let mut out = vec![MARK; a.n];
    let mut work = vec![MARK; 4096];
    lent::phi_combination_krylov(&a, tau, count, w, KrylovOptions { tol, m, max_substeps }, &mut out, &mut work)
}

#[test]
fn matrix() {
    expect(taylor(Matrix::new(0, &[0], &[], &[]), 1.0, 1, &[]), 1, 1.0);
    expect(taylor(Matrix::new(2, &[0, 1], &[0], &[1.0]), 1.0, 1, &[1.0, 1.0]), 1, 2.0);
    expect(taylor(Matrix::new(usize::MAX, &[], &[], &[]), 1.0, 1, &[]), 1, 0.0);
    expect(taylor(Matrix::new(1, &[0, 1], &[0, 0], &[1.0]), 1.0, 1, &[1.0]), 2, 1.0);
    expect(taylor(Matrix::new(1, &[0, 2], &[0], &[1.0]), 1.0, 1, &[1.0]), 2, 1.0);
    expect(taylor(Matrix::new(2, &[0, 2, 1], &[0], &[1.0]), 1.0, 1, &[1.0; 2]), 4, 1.0);
    expect(taylor(Matrix::new(2, &[0, 1, 2], &[0, 7], &[1.0; 2]), 1.0, 1, &[1.0; 2]), 5, 7.0);
    for entry in [f64::NAN, f64::INFINITY, f64::NEG_INFINITY] {
        expect(taylor(Matrix::new(1, &[0, 1], &[0], &[entry]), 1.0, 1, &[1.0]), 6, entry);
    }
    expect(taylor(Matrix::new(1, &[0, 2], &[0, 0], &[1e308, -1e308]), 1.0, 1, &[1.0]), 11, f64::INFINITY);
    expect(lent::check(&Matrix::new(2, &[0, 1, 2], &[0, 7], &[1.0; 2])), 5, 7.0);
    expect(lent::check(&Matrix::new(1, &[0, 2], &[0, 0], &[1e308, -1e308])), 11, f64::INFINITY);
    expect(lent::check(&ONE.with_mass(&[-1.0])), 8, -1.0);
}

#[test]
fn too_large_a_matrix() {
    let starts = vec![0; sizes::MAX_ROWS + 2];
    expect(taylor(Matrix::new(sizes::MAX_ROWS + 1, &starts, &[], &[]), 1.0, 1, &[]), 3, f64::NAN);
}

#[test]
fn mass() {
    expect(taylor(ONE.with_mass(&[]), 1.0, 1, &[1.0]), 7, 0.0);
    expect(taylor(ONE.with_mass(&[1.0, 1.0]), 1.0, 1, &[1.0]), 7, 2.0);
    for mass in [0.0, -0.0, -1.0, f64::NAN, f64::INFINITY] {
        expect(taylor(ONE.with_mass(&[mass]), 1.0, 1, &[1.0]), 8, mass);
    }
    expect(taylor(Matrix::new(1, &[1, 2], &[0, 0], &[5.0, 2.0]).with_mass(&[1.0]), 1.0, 1, &[1.0]), 9, f64::NAN);
    expect(taylor(Matrix::new(1, &[0, 1], &[0], &[1e300]).with_mass(&[1e-300]), 1.0, 1, &[1.0]), 10, f64::INFINITY);
}

#[test]
fn job() {
    expect(taylor(ONE, 1.0, 0, &[]), 12, 0.0);
    expect(taylor(ONE, 1.0, 5, &[1.0; 5]), 12, 5.0);
    expect(lent::phi_action(&ONE, 1.0, 4, &[1.0], TaylorOptions::default(), &mut [MARK], &mut [MARK; 9]), 13, 4.0);
    for tau in [-1.0, f64::NAN, f64::INFINITY] {
        expect(taylor(ONE, tau, 1, &[1.0]), 14, tau);
    }
    expect(lent::phi_combination(&ONE, 1.0, 1, &[1.0], TaylorOptions::default(), &mut [MARK; 3], &mut [MARK; 3]), 15, 3.0);
    expect(lent::phi_action_batched(&ONE, 1.0, 3, &[1.0], TaylorOptions::default(), &mut [MARK; 3], &mut [MARK; 9]), 15, 3.0);
    expect(taylor(ONE, 1.0, 2, &[1.0; 3]), 16, 3.0);
    expect(lent::phi_action(&ONE, 1.0, 0, &[], TaylorOptions::default(), &mut [MARK], &mut [MARK; 9]), 16, 0.0);
    expect(taylor(ONE, 1.0, 2, &[1.0, f64::NEG_INFINITY]), 17, f64::NEG_INFINITY);
    expect(taylor(ONE, 1e200, 2, &[1.0, 1e200]), 21, f64::INFINITY);
    expect(taylor(ONE, 1e10, 2, &[1.0, 5e-324]), 22, f64::NAN);
}

/// phi_1 of a field of three rows, and phi_0 to phi_2; a refusal must leave the memory as it is.
fn actions(v: &[f64]) -> [Result<hazhendu::Plan, Refusal>; 2] {
    let chain = Matrix { n: 3, starts: &[0, 1, 3, 4], columns: &[0, 0, 1, 2], entries: &[1.0, -1.0, 2.0, 0.5], mass: None };
    let (mut one, mut batch, mut work, mut other) = ([MARK; 3], [MARK; 9], [MARK; 16], [MARK; 16]);
    let answers = [
        lent::phi_action(&chain, 1.0, 1, v, TaylorOptions::default(), &mut one, &mut work),
        lent::phi_action_batched(&chain, 1.0, 2, v, TaylorOptions::default(), &mut batch, &mut other),
    ];
    let untouched = |answer: &Result<_, _>, slices: [&[f64]; 2]| answer.is_ok() || slices.iter().all(|s| s.iter().all(|x| *x == MARK));
    assert!(untouched(&answers[0], [&one, &work]) && untouched(&answers[1], [&batch, &other]));
    answers
}

#[test]
fn a_field_is_tested_as_the_vectors_of_a_combination() {
    for place in 0..3 {
        let with = |x: f64| {
            let mut v = [1.0, 2.0, 3.0];
            v[place] = x;
            v
        };
        for x in [f64::NAN, f64::INFINITY, f64::NEG_INFINITY] {
            actions(&with(x)).into_iter().for_each(|answer| expect(answer, 17, x));
            // the length comes first, and of two such numbers the first is told
            actions(&with(x)[place..]).into_iter().filter(|_| place > 0).for_each(|answer| expect(answer, 16, 3.0 - place as f64));
            let mut two = with(x);
            two[2] = if place < 2 { f64::NEG_INFINITY } else { x };
            actions(&two).into_iter().for_each(|answer| expect(answer, 17, x));
        }
        for x in [-0.0, 5e-324, -2.2e-308] {
            actions(&with(x)).into_iter().for_each(|answer| assert!(answer.is_ok()));
        }
    }
}

#[test]
fn degrees() {
    let up_to = |degree, out: &mut [f64]| lent::phi_action(&ONE, 1.0, 0, &[1.0], TaylorOptions { degree }, out, &mut [MARK; 9]);
    for degree in [0, 31, u32::MAX] {
        expect(up_to(degree, &mut [MARK]), 33, f64::NAN);
        // behind 14, in front of 15
        expect(up_to(degree, &mut [MARK; 3]), 33, f64::NAN);
        expect(lent::phi_combination(&ONE, -1.0, 1, &[1.0], TaylorOptions { degree }, &mut [MARK; 3], &mut [MARK; 3]), 14, -1.0);
        expect(lent::combine(Solver::Taylor(TaylorOptions { degree }), &ONE, 1.0, 1, &[1.0], &mut [MARK], &mut [MARK; 3]), 33, f64::NAN);
    }
    // the argument is (1 * 2 + 2) * 2, and no row is admissible up to degree 1
    expect(up_to(1, &mut [MARK]), 25, 8.0);
    for degree in 3..=30 {
        assert!((1..=degree).contains(&up_to(degree, &mut [MARK]).unwrap().m));
    }
}

#[test]
fn options() {
    for tol in [0.0, 1.0, -1.0, f64::NAN, f64::INFINITY] {
        expect(krylov(ONE, 1.0, 1, &[1.0], tol, 30, 10), 18, tol);
    }
    expect(krylov(ONE, 1.0, 1, &[1.0], 1e-10, 30, 0), 19, 0.0);
    expect(krylov(ONE, 1.0, 1, &[1.0], 1e-10, 30, sizes::MAX_SUBSTEPS + 1), 20, f64::NAN);
}

#[test]
fn schedule_and_memory() {
    let steep = Matrix::new(1, &[0, 1], &[0], &[1e200]);
    expect(taylor(steep, 1e200, 1, &[1.0]), 24, f64::INFINITY);
    expect(krylov(steep, 1e200, 1, &[1.0], 1e-10, 30, 10), 24, f64::INFINITY);
    expect(taylor(ONE, 1e12, 1, &[1.0]), 25, 4e12 + 4.0);
    expect(lent::phi_combination(&ONE, 1.0, 1, &[1.0], TaylorOptions::default(), &mut [MARK], &mut [MARK; 2]), 26, f64::NAN);
    expect(lent::phi_action(&ONE, 1.0, 0, &[1.0], TaylorOptions::default(), &mut [MARK], &mut [MARK; 8]), 26, f64::NAN);
}

#[test]
fn limit_leaves_the_state_after_the_last_substep() {
    let short = KrylovOptions { tol: 1e-10, m: 4, max_substeps: 2 };
    let error = phi_combination_krylov(&ROD, 10.0, 1, &[20.0; 8], short).unwrap_err();
    assert_eq!(error.refusal().unwrap().number, 27);
    let state = error.state().unwrap();
    assert_eq!(state.len(), 8);
    assert!(state[7] < 20.0 && state[7] > 0.0 && state.iter().all(|x| x.is_finite()));
    let whole = phi_combination_krylov(&ROD, 10.0, 1, &[20.0; 8], KrylovOptions { max_substeps: 100_000, ..short }).unwrap();
    assert!(whole.field[7] < state[7]);
    assert_eq!((whole.cost.shortest_step, whole.cost.last_step), (6.9e-5, 0.02080099999999918));
}

#[test]
fn eleven_rejections() {
    let bits = |b: u64| f64::from_bits(b);
    let entries = [
        0x41670381f6ebceda,
        0xc01067aaf67ca09c,
        0xc003ffb5783eb862,
        0xc00308cd96cff37e,
        0xc020b054e6631be5,
        0x3dbfe6160867f4e4,
        0xc000000000000000,
        0xbee41fc4ba4c18b0,
        0x3fe3b46e30d7fc76,
    ]
    .map(bits);
    let w =
        [0xc1bec6a741c3b800, 0xbe73edad938bb4e6, 0xc0cb02c795f5c452, 0xc008000000000000, 0xbfe6b05b4224b1b6, 0x41a7c57e0f0a64e2].map(bits);
    let a = Matrix::new(3, &[0, 3, 6, 9], &[0, 1, 2, 0, 1, 2, 0, 1, 2], &entries);
    let error = phi_combination_krylov(&a, 1.75, 2, &w, KrylovOptions { tol: 0.5, m: 1, max_substeps: 1000 }).unwrap_err();
    assert_eq!(error.refusal().unwrap().number, 28);
    assert_eq!(error.state().unwrap().len(), 3);
}

#[test]
fn no_inner_plan_leaves_the_start() {
    let entry = f64::from_bits(0x3f50624dd2f1a9fc);
    let a = Matrix { n: 1, starts: &[0, 1], columns: &[0], entries: &[entry], mass: None };
    let w = [f64::from_bits(0xbff12aaf04ea1d54)];
    let options = KrylovOptions { tol: 1e-6, m: 30, max_substeps: 2 };
    let error = phi_combination_krylov(&a, f64::from_bits(0x42b5aa4ae2eae370), 1, &w, options).unwrap_err();
    let refusal = error.refusal().unwrap();
    assert_eq!((refusal.number, refusal.value.to_bits()), (29, 0x42162f674ec37842));
    assert_eq!(error.state().unwrap(), w);
}

#[test]
fn refusals_before_the_run_leave_no_state() {
    assert!(phi_combination(&ONE, -1.0, 1, &[1.0], TaylorOptions::default()).unwrap_err().state().is_none());
    assert!(phi_action(&ONE, 1.0, 4, &[1.0], TaylorOptions::default()).unwrap_err().state().is_none());
}

#[test]
fn a_number_the_library_does_not_have_is_still_told() {
    for number in [0, 23, 37, 255, u32::MAX] {
        assert!(!Refusal { number, value: 0.0 }.to_string().is_empty());
    }
}
