//! The boundary jobs of document 01 that the calls can show.

use hazhendu::{check, combine, lent, phi_action, phi_action_batched, phi_combination, phi_combination_krylov, sizes, TaylorOptions};
use hazhendu::{Cost, Error, KrylovOptions, Largest, Matrix, Report, Soaked, Solver};

const EMPTY_2: Matrix = Matrix { n: 2, starts: &[0, 0, 0], columns: &[], entries: &[], mass: None };
const ONE: Matrix = Matrix { n: 1, starts: &[0, 1], columns: &[0], entries: &[2.0], mass: None };
const PAIR: Matrix = Matrix { n: 2, starts: &[0, 2, 4], columns: &[0, 1, 0, 1], entries: &[2.0, -1.0, -1.0, 2.0], mass: None };

fn options(m: usize) -> KrylovOptions {
    KrylovOptions { m, ..KrylovOptions::default() }
}

fn number<C: std::fmt::Debug>(answer: Result<Soaked<C>, Error>) -> u32 {
    answer.map_or_else(|error| error.refusal().expect("a refusal").number, |_| 0)
}

#[test]
fn tau_of_either_zero_leaves_the_vector() {
    for tau in [0.0, -0.0] {
        assert_eq!(phi_combination(&EMPTY_2, tau, 1, &[1.0, -2.0], TaylorOptions::default()).unwrap().field, [1.0, -2.0]);
    }
}

#[test]
fn shift_is_taken_where_it_costs_less() {
    let at_1 = phi_combination(&PAIR, 1.0, 1, &[1.0, -2.0], TaylorOptions::default()).unwrap().cost;
    assert_eq!((at_1.s, at_1.m, at_1.mu, at_1.applications), (3, 30, 0.0, 90));
    let at_10 = phi_combination(&PAIR, 10.0, 1, &[1.0, -2.0], TaylorOptions::default()).unwrap().cost;
    assert_eq!(at_10.mu, -20.0);
    assert_eq!(at_10.applications, u64::from(at_10.s) * u64::from(at_10.m));
}

#[test]
fn four_vectors_and_no_more() {
    assert_eq!(number(phi_combination(&ONE, 1.0, 4, &[1.0; 4], TaylorOptions::default())), 0);
    assert_eq!(number(phi_combination(&ONE, 1.0, 5, &[1.0; 5], TaylorOptions::default())), 12);
    assert_eq!(number(phi_combination(&ONE, 1.0, 0, &[], TaylorOptions::default())), 12);
}

#[test]
fn phi_3_and_no_higher() {
    assert_eq!(number(phi_action(&ONE, 1.0, 3, &[3.0], TaylorOptions::default())), 0);
    assert_eq!(number(phi_action(&ONE, 1.0, 4, &[3.0], TaylorOptions::default())), 13);
    assert_eq!(number(phi_action_batched(&ONE, 1.0, 3, &[3.0], TaylorOptions::default())), 0);
    assert_eq!(number(phi_action_batched(&ONE, 1.0, 4, &[3.0], TaylorOptions::default())), 13);
    assert_eq!(number(phi_action_batched(&ONE, 1.0, usize::MAX, &[3.0], TaylorOptions::default())), 13);
}

#[test]
fn two_zero_vectors_are_a_run() {
    let empty = Matrix::new(1, &[0, 0], &[], &[]);
    let soaked = phi_combination_krylov(&empty, 1.0, 2, &[0.0, 0.0], options(30)).unwrap();
    let one = Report { substeps: 1, matvecs: 1, rejected: 0, estimated_error: 2f64.powi(-51), shortest_step: 1.0, last_step: 1.0 };
    assert_eq!(soaked.cost, one);
    assert_eq!(soaked.field, [0.0]);
}

#[test]
fn one_zero_vector_is_none() {
    let soaked = phi_combination_krylov(&EMPTY_2, 1.0, 1, &[0.0, -0.0], options(30)).unwrap();
    assert_eq!(soaked.cost, Report::default());
    assert_eq!(soaked.field.iter().map(|x| x.to_bits()).collect::<Vec<_>>(), [0, 1 << 63]);
}

#[test]
fn tol_of_one_is_refused() {
    assert_eq!(number(phi_combination_krylov(&ONE, 1.0, 1, &[1.0], KrylovOptions { tol: 1.0, ..options(30) })), 18);
}

fn diagonal(n: u32) -> (Vec<u32>, Vec<u32>, Vec<f64>) {
    ((0..=n).collect(), (0..n).collect(), (0..n).map(|i| f64::from(i + 1)).collect())
}

#[test]
fn m_of_1000_on_5_rows_is_5() {
    let (starts, columns, entries) = diagonal(5);
    let a = Matrix::new(5, &starts, &columns, &entries);
    let need = 5 + (5 + 3) * 5 + (5 + 2) * (5 + 2);
    assert_eq!(sizes::krylov_work(5, 5, false, 1, 1000), need);
    let run = |work: usize| lent::phi_combination_krylov(&a, 1.0, 1, &[1.0; 5], options(1000), &mut [0.0; 5], &mut vec![0.0; work]);
    assert!(run(need).is_ok());
    assert_eq!(run(need - 1).unwrap_err().number, 26);
}

#[test]
fn m_of_128_on_200_rows_is_accepted_and_129_is_not() {
    let (starts, columns, entries) = diagonal(200);
    let a = Matrix::new(200, &starts, &columns, &entries);
    assert_eq!(number(phi_combination_krylov(&a, 1.0, 1, &[1.0; 200], options(128))), 0);
    assert_eq!(number(phi_combination_krylov(&a, 1.0, 1, &[1.0; 200], options(129))), 20);
}

#[test]
fn first_row_start_of_1() {
    let late = Matrix::new(1, &[1, 2], &[0, 0], &[5.0, 2.0]);
    assert_eq!(
        phi_action(&late, 1.0, 0, &[3.0], TaylorOptions::default()).unwrap().field,
        phi_action(&ONE, 1.0, 0, &[3.0], TaylorOptions::default()).unwrap().field
    );
    assert_eq!(number(phi_combination(&late.with_mass(&[4.0]), 1.0, 1, &[3.0], TaylorOptions::default())), 9);
}

#[test]
fn one_row_more_than_a_million() {
    let n = sizes::MAX_ROWS + 1;
    let starts = vec![0; n + 1];
    assert_eq!(number(phi_combination(&Matrix::new(n, &starts, &[], &[]), 1.0, 1, &vec![0.0; n], TaylorOptions::default())), 3);
    assert_eq!(
        number(phi_combination(&Matrix::new(n - 1, &starts[1..], &[], &[]), 0.0, 1, &vec![0.0; n - 1], TaylorOptions::default())),
        0
    );
}

#[test]
fn a_mass_divides_the_rows() {
    // Entry 2, mass 4: exp(-0.5).
    let field = phi_combination(&ONE.with_mass(&[4.0]), 1.0, 1, &[1.0], TaylorOptions::default()).unwrap().field;
    assert!((field[0] - (-0.5f64).exp()).abs() < 1e-15);
}

#[test]
fn a_matrix_has_the_norm_of_its_largest_row() {
    let a = Matrix::new(3, &[0, 2, 4, 5], &[0, 1, 0, 1, 2], &[1.0, -1.0, 2.5, -0.5, -2.0]);
    assert_eq!(check(&a).unwrap(), Largest { norm: 3.0, row: 1 });
    assert_eq!(check(&a.with_mass(&[1.0, 8.0, 0.5])).unwrap(), Largest { norm: 4.0, row: 2 });
}

#[test]
fn of_rows_with_one_sum_the_first_is_named() {
    let a = Matrix::new(3, &[0, 1, 2, 3], &[0, 1, 2], &[1.0, -2.0, 2.0]);
    assert_eq!(check(&a).unwrap(), Largest { norm: 2.0, row: 1 });
    assert_eq!(check(&a.with_mass(&[1.0, 4.0, 2.0])).unwrap(), Largest { norm: 1.0, row: 0 });
    assert_eq!(check(&EMPTY_2).unwrap(), Largest { norm: 0.0, row: 0 });
}

/// (2 -1; -1 2) at time 1: 3 x 30 without a shift; up to 29 the shifted plan is cheaper, 4 x 25.
#[test]
fn a_lower_degree_may_bring_the_shift() {
    let a = Matrix::new(2, &[0, 2, 4], &[0, 1, 0, 1], &[2.0, -1.0, -1.0, 2.0]);
    let plan = |degree| phi_combination(&a, 1.0, 1, &[1.0, -2.0], TaylorOptions { degree }).unwrap().cost;
    assert_eq!((plan(30).s, plan(30).m, plan(30).mu), (3, 30, 0.0));
    assert_eq!((plan(29).s, plan(29).m, plan(29).mu), (4, 25, -2.0));
    assert_eq!(plan(25), plan(29));
}

#[test]
fn combine_is_the_call_of_its_solver() {
    let (tau, w) = (0.75, [1.0, 2.0, 3.0, 4.0]);
    let taylor = phi_combination(&PAIR, tau, 2, &w, TaylorOptions::default()).unwrap();
    let soaked = combine(Solver::default(), &PAIR, tau, 2, &w).unwrap();
    assert_eq!((soaked.field, soaked.cost), (taylor.field, Cost::Taylor(taylor.cost)));
    let krylov = phi_combination_krylov(&PAIR, tau, 2, &w, options(2)).unwrap();
    let soaked = combine(Solver::Krylov(options(2)), &PAIR, tau, 2, &w).unwrap();
    assert_eq!((soaked.field, soaked.cost), (krylov.field, Cost::Krylov(krylov.cost)));
    assert_eq!(number(combine(Solver::Krylov(KrylovOptions { tol: 1.0, ..options(2) }), &PAIR, tau, 2, &w)), 18);
    assert_eq!(number(combine(Solver::default(), &PAIR, -1.0, 2, &w)), 14);
}

#[test]
fn functions_are_the_phi_functions() {
    let z: f64 = -2.0 * 0.75;
    let phi_1 = (z.exp() - 1.0) / z;
    let phi_2 = (phi_1 - 1.0) / z;
    let phi_3 = (phi_2 - 0.5) / z;
    let batch = phi_action_batched(&ONE, 0.75, 3, &[3.0], TaylorOptions::default()).unwrap();
    for (got, phi) in batch.field.iter().zip([z.exp(), phi_1, phi_2, phi_3]) {
        assert!((got - 3.0 * phi).abs() < 1e-14, "{got} for {}", 3.0 * phi);
    }
    let sum = z.exp() + 0.75 * 2.0 * phi_1 + 0.75f64.powi(2) * 3.0 * phi_2 + 0.75f64.powi(3) * 4.0 * phi_3;
    for solver in [Solver::default(), Solver::Krylov(options(30))] {
        let soaked = combine(solver, &ONE, 0.75, 4, &[1.0, 2.0, 3.0, 4.0]).unwrap();
        assert!((soaked.field[0] - sum).abs() < 1e-13);
        assert_eq!(matches!(soaked.cost, Cost::Taylor(_)), solver == Solver::default());
    }
}
