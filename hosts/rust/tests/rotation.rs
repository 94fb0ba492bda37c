//! Several paused runs on one unit, beside each of them alone.

use hazhendu::lent::{paused, rotation};
use hazhendu::{sizes, Error, Joined, KrylovOptions, Matrix, Paused, Report, Turned, Unit};

/// Eight bodies in a row; the last one loses heat.
const ROD: Matrix = Matrix {
    n: 8,
    starts: &[0, 2, 5, 8, 11, 14, 17, 20, 22],
    columns: &[0, 1, 0, 1, 2, 1, 2, 3, 2, 3, 4, 3, 4, 5, 4, 5, 6, 5, 6, 7, 6, 7],
    entries: &[1.0, -1.0, -1.0, 2.0, -1.0, -1.0, 2.0, -1.0, -1.0, 2.0, -1.0, -1.0, 2.0, -1.0, -1.0, 2.0, -1.0, -1.0, 2.0, -1.0, -1.0, 1.5],
    mass: None,
};
const PAIR: Matrix = Matrix { n: 2, starts: &[0, 2, 4], columns: &[0, 1, 0, 1], entries: &[0.5, -0.5, -0.5, 0.6], mass: Some(&[8.0, 4.0]) };
const W: [f64; 16] = [20.0, 19.0, 18.0, 17.0, 16.0, 15.0, 14.0, 13.0, 0.25, 0.0, 0.0, 0.5, 0.0, 0.0, 0.0, 0.125];
const OPTIONS: KrylovOptions = KrylovOptions { tol: 1e-8, m: 4, max_substeps: 10_000 };

/// What a key stands for.
#[derive(Clone, Copy)]
struct Job {
    a: Matrix<'static>,
    tau: f64,
    count: usize,
    w: &'static [f64],
    options: KrylovOptions,
}

const LONG: Job = Job { a: ROD, tau: 20.0, count: 2, w: &W, options: OPTIONS };
const SHORT: Job = Job { a: ROD, tau: 2.0, count: 1, w: W.split_at(8).0, options: OPTIONS };
const SMALL: Job =
    Job { a: PAIR, tau: 300.0, count: 2, w: W.split_at(4).0, options: KrylovOptions { tol: 1e-6, m: 2, max_substeps: 10_000 } };
const LIMITED: Job = Job { options: KrylovOptions { max_substeps: 3, ..OPTIONS }, ..LONG };
const ZERO: Job = Job { w: &[0.0, -0.0, 0.0, 0.0, 0.0, 0.0, 0.0, 0.0], count: 1, ..LONG };

fn bits(list: &[f64]) -> Vec<u64> {
    list.iter().map(|x| x.to_bits()).collect()
}

fn refused<T: std::fmt::Debug>(answer: Result<T, Error>) -> (u32, f64) {
    let refusal = answer.unwrap_err().refusal().expect("a refusal");
    (refusal.number, refusal.value)
}

fn join<K: std::fmt::Debug>(unit: &mut Unit<K>, key: K, job: &Job) -> Result<Joined<K>, Error> {
    unit.join(key, &job.a, job.tau, job.count, job.w, job.options)
}

fn placed<K: std::fmt::Debug>(unit: &mut Unit<K>, key: K, job: &Job) -> usize {
    match join(unit, key, job).unwrap() {
        Joined::Waits { place } => place,
        ended => panic!("{ended:?}"),
    }
}

fn turn<K>(unit: &mut Unit<K>, job: &Job) -> Result<Turned<K>, Error> {
    unit.turn(&job.a, job.tau, job.count, job.w, None)
}

fn alone(job: &Job) -> Paused {
    Paused::start(&job.a, job.tau, job.count, job.w, job.options).unwrap()
}

/// Field and report, or refusal and the field left.
fn told(answer: Result<hazhendu::Soaked<Report>, Error>) -> (u32, u64, Vec<u64>, Option<Report>) {
    match answer {
        Ok(soaked) => (0, 0, bits(&soaked.field), Some(soaked.cost)),
        Err(error) => {
            let refusal = error.refusal().unwrap();
            (refusal.number, refusal.value.to_bits(), bits(error.state().unwrap()), None)
        }
    }
}

#[test]
fn each_run_is_the_run_alone() {
    let jobs = [LONG, SHORT, SMALL, LIMITED, SHORT];
    let mut unit = Unit::new();
    let mut runs: Vec<Paused> = jobs.iter().map(alone).collect();
    for (i, job) in jobs.iter().enumerate() {
        assert_eq!(placed(&mut unit, i, job), i);
    }
    let (mut order, mut ended) = (Vec::new(), 0);
    while let Some((place, &i)) = unit.next() {
        order.push(i);
        let Job { a, tau, count, w, .. } = jobs[i];
        let stepped = runs[i].step(&a, tau, count, w);
        match turn(&mut unit, &jobs[i]).unwrap() {
            Turned::Waits { place: p } => {
                let barrel = unit.barrel(place).unwrap();
                assert!(p == place && stepped.is_ok() && !runs[i].ended() && *barrel.key() == i);
                assert_eq!(bits(barrel.field()), bits(runs[i].field()));
                assert_eq!((barrel.state(), barrel.report(), barrel.time()), (runs[i].state(), runs[i].report(), runs[i].time()));
                assert_eq!(unit.state().run(place).as_ref(), Some(barrel.state()));
            }
            Turned::Ended { place: p, key, soaked } => {
                assert!(p == place && key == i && runs[i].ended() && unit.barrel(place).is_none());
                assert_eq!(told(soaked), told(runs[i].clone().finish(&a, tau, count, w)));
                ended += 1;
            }
        }
    }
    assert!(ended == 5 && unit.is_empty() && order.len() > 60);
    // Round by round, less those that have ended.
    assert_eq!(order[..15], [0, 1, 2, 3, 4, 0, 1, 2, 3, 4, 0, 1, 2, 3, 4]);
    assert_eq!(order[15..19], [0, 1, 2, 4]);
}

#[test]
fn an_empty_unit() {
    let mut unit: Unit<usize> = Unit::new();
    assert!(unit.next().is_none() && unit.is_empty());
    let before = unit.state().clone();
    for job in [LONG, Job { a: Matrix::new(0, &[], &[], &[]), ..LONG }] {
        let (number, value) = refused(turn(&mut unit, &job));
        assert!(number == 31 && value.is_nan());
    }
    assert_eq!(*unit.state(), before);
}

#[test]
fn sixteen_and_no_more() {
    let mut unit = Unit::new();
    for i in 0..16 {
        assert_eq!(placed(&mut unit, i, &LONG), i);
    }
    let before = unit.state().clone();
    let (number, value) = refused(join(&mut unit, 16, &LONG));
    assert!(number == 32 && value.is_nan());
    // Behind all checks of the job; and one that ends at its start is served.
    assert_eq!(refused(join(&mut unit, 16, &Job { tau: -1.0, ..LONG })), (14, -1.0));
    assert!(matches!(join(&mut unit, 16, &ZERO), Ok(Joined::Ended { key: 16, .. })));
    assert!(*unit.state() == before && unit.len() == 16);
    // At most fifteen turns of others between two of one.
    let order: Vec<usize> = (0..48)
        .map(|_| {
            let place = unit.next().unwrap().0;
            turn(&mut unit, &LONG).unwrap();
            place
        })
        .collect();
    assert!(order.iter().enumerate().all(|(t, place)| *place == t % 16));
}

#[test]
fn one_ended_at_its_start_takes_no_place() {
    let mut unit = Unit::new();
    let Joined::Ended { key, soaked } = join(&mut unit, "zero", &ZERO).unwrap() else { panic!("it waits") };
    assert_eq!((key, bits(&soaked.field), soaked.cost), ("zero", bits(ZERO.w), Report::default()));
    assert!(unit.is_empty() && unit.next().is_none());
    assert_eq!(placed(&mut unit, "long", &LONG), 0);
}

#[test]
fn a_freed_place_is_taken_again_at_the_end_of_the_queue() {
    let mut unit = Unit::new();
    for (i, job) in [LONG, LIMITED, LONG].iter().enumerate() {
        placed(&mut unit, i, job);
    }
    // Three rounds: the second meets its limit at its third turn.
    for i in 0..8 {
        assert_eq!(unit.next().unwrap(), (i % 3, &(i % 3)));
        let turned = turn(&mut unit, &if i % 3 == 1 { LIMITED } else { LONG }).unwrap();
        assert_eq!(matches!(turned, Turned::Ended { place: 1, key: 1, soaked: Err(_) }), i == 7);
    }
    assert_eq!(unit.next().unwrap(), (2, &2));
    assert_eq!(placed(&mut unit, 3, &SMALL), 1);
    let order: Vec<usize> = (0..6)
        .map(|_| {
            let i = *unit.next().unwrap().1;
            turn(&mut unit, if i == 3 { &SMALL } else { &LONG }).unwrap();
            i
        })
        .collect();
    assert_eq!(order, [2, 0, 3, 2, 0, 3]);
}

#[test]
fn an_early_refusal_counts_and_passes_on() {
    let mut unit = Unit::new();
    placed(&mut unit, "long", &LONG);
    placed(&mut unit, "small", &SMALL);
    let before = unit.barrel(0).unwrap().clone();
    let early = [
        (Job { tau: -1.0, ..LONG }, None, (14, -1.0)),
        (Job { w: &W[..15], ..LONG }, None, (16, 15.0)),
        (SMALL, None, (16, 4.0)),
        (SHORT, None, (16, 8.0)),
        (LONG, Some(1.0), (18, 1.0)),
    ];
    for (job, tol, expected) in early {
        assert_eq!(unit.next(), Some((0, &"long")));
        assert_eq!(refused(unit.turn(&job.a, job.tau, job.count, job.w, tol)), expected);
        assert_eq!(unit.next(), Some((1, &"small")));
        turn(&mut unit, &SMALL).unwrap();
        let after = unit.barrel(0).unwrap();
        assert_eq!((after.state(), bits(after.field())), (before.state(), bits(before.field())));
    }
    // None of it is to be seen in the end.
    let mut last = None;
    while let Some((_, key)) = unit.next() {
        let job = if *key == "long" { &LONG } else { &SMALL };
        if let Turned::Ended { key: "long", soaked, .. } = turn(&mut unit, job).unwrap() {
            last = Some(soaked);
        }
    }
    assert_eq!(told(last.unwrap()), told(alone(&LONG).finish(&LONG.a, LONG.tau, LONG.count, LONG.w)));
}

#[test]
fn tightened_in_rotation() {
    let mut unit = Unit::new();
    let loose = Job { options: KrylovOptions { tol: 1e-4, ..OPTIONS }, ..LONG };
    let mut run = alone(&loose);
    placed(&mut unit, 0, &loose);
    placed(&mut unit, 1, &SMALL);
    while let Some((place, &i)) = unit.next() {
        if i == 1 {
            turn(&mut unit, &SMALL).unwrap();
            continue;
        }
        let tol = (run.time() >= 0.5).then_some(1e-11);
        tol.into_iter().for_each(|tol| run.tighten(tol));
        run.step(&ROD, loose.tau, 2, &W).unwrap();
        match unit.turn(&ROD, loose.tau, 2, &W, tol).unwrap() {
            Turned::Waits { .. } => assert_eq!(unit.barrel(place).unwrap().state(), run.state()),
            Turned::Ended { soaked, .. } => {
                let soaked = soaked.unwrap();
                assert_eq!((bits(&soaked.field), soaked.cost), (bits(run.field()), run.report()));
            }
        }
    }
    assert!(run.ended() && run.tol() == 1e-11);
}

#[test]
fn lent_fields() {
    let work = sizes::krylov_work(8, 22, false, 2, OPTIONS.m);
    let (mut out, mut work, mut field) = ([0.5; 8], vec![0.5; work], vec![0.5; 9]);
    let mut unit = rotation::Unit::default();
    let empty = unit.clone();
    // A field of another length is 26, and nothing is changed.
    let refusal = unit.join(&ROD, 20.0, 2, &W, OPTIONS, &mut out, &mut work, &mut field[..8]).unwrap_err();
    assert!(refusal.number == 26 && unit == empty && out.iter().chain(&work).chain(&field).all(|x| *x == 0.5));
    let (place, state) = unit.join(&ROD, 20.0, 2, &W, OPTIONS, &mut out, &mut work, &mut field).unwrap();
    assert!(place == Some(0) && unit.run(0) == Some(state) && unit.run(16).is_none() && unit.run(15).unwrap().ended());
    assert!(work.iter().all(|x| x.to_bits() == 0));
    let (mut alone_out, mut alone_field) = ([0.5; 8], [0.5; 9]);
    let mut run = paused::start(&ROD, 20.0, 2, &W, OPTIONS, &mut alone_out, &mut work, &mut alone_field).unwrap();
    // Any field may be lent to a turn that is refused early.
    let (place, answer) = unit.turn(&ROD, -1.0, 2, &W, None, &mut out, &mut work, &mut [0.25; 3]);
    assert!(place == Some(0) && answer.unwrap_err().number == 14);
    while unit.next().is_some() {
        let (place, answer) = unit.turn(&ROD, 20.0, 2, &W, None, &mut out, &mut work, &mut field);
        paused::step(&mut run, &ROD, 20.0, 2, &W, None, &mut alone_out, &mut work, &mut alone_field).unwrap();
        assert_eq!((place, answer.unwrap(), bits(&out), bits(&field)), (Some(0), run, bits(&alone_out), bits(&alone_field)));
    }
    assert!(run.ended() && unit.run(0) == Some(run));
}

#[test]
fn units_that_no_call_left_are_answered() {
    let (mut out, mut work, mut field) = ([0.0; 8], vec![0.0; 4096], vec![0.5; 9]);
    let mut made = rotation::Unit::default();
    for _ in 0..3 {
        made.join(&ROD, 20.0, 2, &W, OPTIONS, &mut out, &mut work, &mut field).unwrap();
    }
    for place in 0..made.counts.len() {
        for count in [0, 1, 2, 15, 16, 17, 129, 1_000_001, usize::MAX] {
            let mut unit = made.clone();
            unit.counts[place] = count;
            field.fill(0.5);
            for _ in 0..18 {
                let told = unit.join(&ROD, 20.0, 2, &W, OPTIONS, &mut out, &mut work, &mut field);
                assert!(told.map_or_else(|refusal| refusal.is_known(), |(place, _)| place < Some(16)));
            }
            for _ in 0..20 {
                let (place, told) = unit.turn(&ROD, 20.0, 2, &W, None, &mut out, &mut work, &mut field);
                assert!(place < Some(16) && told.map_or_else(|refusal| refusal.is_known(), |_| true));
            }
        }
    }
    for place in 0..made.numbers.len() {
        for number in [0.0, -1.0, 1e300, 5e-324, f64::NAN, f64::INFINITY] {
            let mut unit = made.clone();
            unit.numbers[place] = number;
            let (_, told) = unit.turn(&ROD, 20.0, 2, &W, None, &mut out, &mut work, &mut field);
            assert!(told.map_or_else(|refusal| refusal.is_known(), |_| true));
        }
    }
}
