//! The plan alone is what the run reports, and the solver is taken by it.

use hazhendu::{auto, choose, lent, phi_action, phi_action_batched, phi_combination, sizes, taylor_plan, transposed};
use hazhendu::{AutoOptions, Cost, Csr, Error, KrylovOptions, Matrix, Plan, Solver, TaylorOptions, Triplets, Why, MILD, SMALL};

/// A rod of n rows that loses heat at both ends, and masses that rise.
fn rod(n: u32) -> (Csr, Vec<f64>) {
    let mut triplets = Triplets::new(n as usize);
    for i in 0..n {
        triplets.push(i, i, 2.0).unwrap();
        for (row, column) in [(i, i + 1), (i + 1, i)].into_iter().filter(|_| i + 1 < n) {
            triplets.push(row, column, -1.0).unwrap();
        }
    }
    (triplets.by_rows().unwrap(), (0..n).map(|i| 0.5 + f64::from(i) / f64::from(n)).collect())
}

fn degrees() -> impl Iterator<Item = TaylorOptions> {
    [7, 13, 20, 30].into_iter().map(|degree| TaylorOptions { degree })
}

fn number<T: std::fmt::Debug>(answer: Result<T, Error>) -> u32 {
    answer.map_or_else(|error| error.refusal().expect("a refusal").number, |_| 0)
}

#[test]
fn a_plan_is_what_its_run_reports() {
    let (csr, mass) = rod(20);
    let v: Vec<f64> = (0..20).map(f64::from).collect();
    for a in [csr.matrix(), csr.matrix().with_mass(&mass)] {
        for options in degrees() {
            for tau in [0.0, 1e-3, 1.0, 17.0, 300.0] {
                let plan = taylor_plan(&a, tau, options).unwrap();
                assert_eq!(plan.applications, u64::from(plan.s) * u64::from(plan.m));
                assert_eq!(phi_combination(&a, tau, 1, &v, options).unwrap().cost, plan);
                assert_eq!(phi_action(&a, tau, 2, &v, options).unwrap().cost, plan);
                let batch = phi_action_batched(&a, tau, 3, &v, options).unwrap().cost;
                assert_eq!(batch, Plan { applications: 4 * plan.applications, ..plan });
                let turned = transposed::taylor_plan(&a, tau, options).unwrap();
                assert_eq!(transposed::phi_combination(&a, tau, 1, &v, options).unwrap().cost, turned);
            }
        }
    }
}

#[test]
fn a_plan_is_refused_as_its_run_is() {
    let (csr, mass) = rod(4);
    let a = csr.matrix().with_mass(&mass);
    let bad = Matrix { mass: Some(&mass[..3]), ..a };
    let all = TaylorOptions::default();
    for (a, tau, options, refused) in [
        (a, -1.0, all, 14),
        (a, f64::NAN, TaylorOptions { degree: 0 }, 14),
        (a, 1.0, TaylorOptions { degree: 0 }, 33),
        (a, f64::INFINITY, TaylorOptions { degree: 31 }, 14),
        (a, 1.0, TaylorOptions { degree: 31 }, 33),
        (a, 1e308, all, 24),
        (a, 1e12, all, 25),
        (a, 1e3, TaylorOptions { degree: 1 }, 25),
        (bad, -1.0, all, 7),
    ] {
        let told = taylor_plan(&a, tau, options).unwrap_err();
        let ran = phi_combination(&a, tau, 1, &[1.0; 4], options).unwrap_err();
        assert_eq!(told.refusal().unwrap().number, refused);
        assert_eq!(ran.refusal().unwrap().number, refused);
        assert_eq!(told.refusal().unwrap().value.to_bits(), ran.refusal().unwrap().value.to_bits());
    }
}

#[test]
fn a_plan_clears_what_it_needs_and_a_refusal_changes_nothing() {
    let (csr, mass) = rod(4);
    let entries = csr.entries.len();
    for (a, need) in [(csr.matrix(), 0), (csr.matrix().with_mass(&mass), entries)] {
        assert_eq!(sizes::plan_work(entries, a.mass.is_some()), need);
        let mut work = vec![3.0; entries + 2];
        lent::taylor_plan(&a, 1.0, TaylorOptions::default(), &mut work).unwrap();
        assert!(work[..need].iter().all(|x| x.to_bits() == 0));
        assert!(work[need..].iter().all(|x| *x == 3.0));
        let mut work = vec![3.0; need.saturating_sub(1)];
        let short = lent::taylor_plan(&a, 1.0, TaylorOptions::default(), &mut work).map_or_else(|refusal| refusal.number, |_| 0);
        assert_eq!(short, if need > 0 { 26 } else { 0 });
        assert!(work.iter().all(|x| *x == 3.0));
        // 25 comes before 26.
        assert_eq!(lent::taylor_plan(&a, 1e12, TaylorOptions::default(), &mut work).unwrap_err().number, 25);
    }
    assert_eq!(sizes::plan_work(usize::MAX, true), 0);
}

#[test]
fn small_and_mild_jobs_are_taken_by_taylor() {
    let options = AutoOptions::default();
    let taken = |n: u32, tau: f64| choose(&rod(n).0.matrix(), tau, 1, options).unwrap();
    let size = |n: usize| 4 * n - 2;
    assert_eq!(size(88), 350);
    assert!(size(88) <= SMALL && size(89) > SMALL);
    assert_eq!(taken(88, 1e4).why, Why::Small { size: 350 });
    assert!(matches!(taken(101, 10.0).why, Why::Mild { applications } if applications <= MILD));
    let stiff = taken(101, 1e4);
    assert!(matches!((stiff.why, stiff.solver), (Why::Stiff { applications }, Solver::Krylov(_)) if applications > MILD));
    assert_eq!(stiff.plan, taylor_plan(&rod(101).0.matrix(), 1e4, options.taylor).ok());
    assert_eq!(taken(101, 1e12).why, Why::NoPlan { number: 25 });
    assert_eq!(taken(101, -1.0).why, Why::Refused { number: 14 });
    assert_eq!(number(auto(&rod(101).0.matrix(), -1.0, 1, &[1.0; 101], options)), 14);
    assert_eq!(number(auto(&rod(101).0.matrix(), -1.0, 5, &[1.0; 505], options)), 12);
}

#[test]
fn after_28_another_m_is_taken_and_then_taylor() {
    let choice = choose(&rod(101).0.matrix(), 1e4, 1, AutoOptions::default()).unwrap();
    let mut tried = vec![];
    let mut next = Some(choice);
    while let Some(choice) = next {
        tried.push(match choice.solver {
            Solver::Krylov(KrylovOptions { m, .. }) => m,
            Solver::Taylor(_) => 0,
        });
        next = choice.after_28();
    }
    assert_eq!(tried, [40, 60, 20, 15, 0]);
    // Without a plan there is no Taylor, and an m above the rows is the same as another.
    let (small, options) = (rod(10).0, AutoOptions::default());
    let alone = choose(&small.matrix(), 1e13, 1, options).unwrap();
    assert_eq!(alone.why, Why::NoPlan { number: 25 });
    assert_eq!(alone.after_28(), None);
}

#[test]
fn auto_is_the_call_that_it_takes() {
    let (csr, mass) = rod(150);
    let a = csr.matrix().with_mass(&mass);
    let w: Vec<f64> = (0..300).map(|i| f64::from(i % 7)).collect();
    for tau in [1.0, 2000.0] {
        let soaked = auto(&a, tau, 2, &w, AutoOptions::default()).unwrap();
        let named = hazhendu::combine(soaked.choice.solver, &a, tau, 2, &w).unwrap();
        assert_eq!((&soaked.field, soaked.cost), (&named.field, named.cost));
        assert_eq!(matches!(soaked.cost, Cost::Taylor(_)), tau == 1.0);
        let soaked = transposed::auto(&a, tau, 2, &w, AutoOptions::default()).unwrap();
        let named = transposed::combine(soaked.choice.solver, &a, tau, 2, &w).unwrap();
        assert_eq!((&soaked.field, soaked.cost), (&named.field, named.cost));
    }
}

#[test]
fn the_header_has_the_crates_rule() {
    let header = include_str!("../../c/hazhendu.h");
    assert!(header.contains(&format!("enum {{ HAZHENDU_SMALL = {SMALL}, HAZHENDU_MILD = {MILD} }};")));
    let others = hazhendu::OTHER_DIMENSIONS.map(|m| m.to_string()).join(", ");
    assert!(header.contains(&format!("#define HAZHENDU_OTHER_M {{{others}}}")));
}
