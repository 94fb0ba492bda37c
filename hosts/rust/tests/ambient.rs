//! Soaks under a changing ambient level, beside single calls in a row and extremes by hand.

use hazhendu::lent::ambient::{ambient as lent, End, Results};
use hazhendu::{ambient, phi_combination, sizes, AmbientError, Log, Logged, Matrix, TaylorOptions};

/// Four bodies in a row; the last one loses heat to the room.
const ROD: Matrix = Matrix {
    n: 4,
    starts: &[0, 2, 5, 8, 10],
    columns: &[0, 1, 0, 1, 2, 1, 2, 3, 2, 3],
    entries: &[0.5, -0.5, -0.5, 1.0, -0.5, -0.5, 1.0, -0.5, -0.5, 0.6],
    mass: None,
};
const MASS: [f64; 4] = [8.0, 4.0, 8.0, 2.0];
const FIELD: [f64; 4] = [20.0, 19.0, 18.0, 17.0];
const LOAD: [f64; 4] = [0.0, 0.0, 0.001, 0.0125];
const DURATIONS: [f64; 6] = [30.0, 0.0, 10.0, 60.0, 5.0, 120.0];
const LEVELS: [f64; 6] = [18.0, -3.0, 25.0, 0.0, 40.0, 21.0];
const LOG: Log = Log { durations: &DURATIONS, levels: &LEVELS };
const MARK: f64 = 0.125;
const RESULTS: usize = 8;

fn bits(list: &[f64]) -> Vec<u64> {
    list.iter().map(|x| x.to_bits()).collect()
}

/// The library has one NaN, of whatever pattern.
fn same(x: f64, y: f64) -> bool {
    x.to_bits() == y.to_bits() || (x.is_nan() && y.is_nan())
}

/// The field after each of the first records, as single calls.
fn in_a_row(a: &Matrix, log: &Log, start: &[f64], load: &[f64]) -> Vec<Vec<f64>> {
    let mut after: Vec<Vec<f64>> = Vec::new();
    for (duration, level) in log.durations.iter().zip(log.levels) {
        let field = after.last().map_or(start, Vec::as_slice);
        let w: Vec<f64> = field.iter().copied().chain(load.iter().map(|x| x * level)).collect();
        after.push(phi_combination(a, *duration, 2, &w, TaylorOptions::default()).unwrap().field);
    }
    after
}

/// The extremes of each window, and +0 for a 0.
fn extremes(temperatures: &[f64], window: usize) -> (Vec<f64>, Vec<f64>) {
    let last = |i: usize| &temperatures[(i + 1).saturating_sub(window)..=i];
    let of = |pick: fn(f64, f64) -> f64, i: usize| last(i).iter().copied().reduce(pick).unwrap() + 0.0;
    let all = |pick: fn(f64, f64) -> f64| (0..temperatures.len()).map(|i| of(pick, i)).collect();
    (all(|a, b| if b > a { b } else { a }), all(|a, b| if b < a { b } else { a }))
}

/// On memory with marks: the answer, the output, the working memory and the three slices.
struct Lent {
    ended: Result<End, (u32, f64, u32)>,
    out: Vec<f64>,
    work: Vec<f64>,
    results: [Vec<f64>; 3],
}

struct Call<'a> {
    a: Matrix<'a>,
    log: Log<'a>,
    field: &'a [f64],
    load: &'a [f64],
    window: usize,
    node: usize,
    out: usize,
    work: usize,
    results: [usize; 3],
}

impl Default for Call<'_> {
    fn default() -> Self {
        let work = sizes::ambient_work(4, 10, true) + 3;
        let a = ROD.with_mass(&MASS);
        Call { a, log: LOG, field: &FIELD, load: &LOAD, window: 3, node: 3, out: 4, work, results: [RESULTS; 3] }
    }
}

impl Call<'_> {
    fn lent(&self) -> Lent {
        let (mut out, mut work) = (vec![MARK; self.out], vec![MARK; self.work]);
        let mut results = self.results.map(|places| vec![MARK; places]);
        let [temperatures, largest, smallest] = &mut results;
        let places = Results { temperatures, largest, smallest };
        let ended = lent(&self.a, &self.log, self.field, self.load, self.window, self.node, &mut out, &mut work, places);
        Lent { ended: ended.map_err(|refused| (refused.refusal.number, refused.refusal.value, refused.record)), out, work, results }
    }

    /// Refused before any record, or at the first: nothing is changed.
    #[track_caller]
    fn refused(&self, number: u32, value: f64, record: u32) {
        let Lent { ended, out, work, results } = self.lent();
        let (told, double, at) = ended.unwrap_err();
        assert!((told, at) == (number, record) && same(double, value), "{told} {double} {at}");
        assert!(out.iter().chain(&work).chain(results.iter().flatten()).all(|x| *x == MARK));
        let error = ambient(&self.a, &self.log, self.field, self.load, self.window, self.node);
        if self.out == 4 && self.results == [RESULTS; 3] && number != 26 {
            let AmbientError::Refused { refusal, record: at, temperatures, largest, smallest, field } = error.unwrap_err() else {
                panic!("no memory")
            };
            assert_eq!((refusal.number, at, field), (number, record, None));
            assert!(same(refusal.value, value));
            assert!(temperatures.is_empty() && largest.is_empty() && smallest.is_empty());
        }
    }
}

/// The front of the working memory is cleared, the rest unchanged; the first places have results, the others are unchanged.
#[track_caller]
fn left(lent: &Lent, need: usize, results: usize) {
    assert!(lent.work[..need].iter().all(|x| x.to_bits() == 0) && lent.work[need..].iter().all(|x| *x == MARK));
    assert!(lent.results.iter().all(|list| list[results..].iter().all(|x| *x == MARK)));
}

#[test]
fn records_are_single_calls_in_a_row() {
    for a in [ROD, ROD.with_mass(&MASS)] {
        let after = in_a_row(&a, &LOG, &FIELD, &LOAD);
        for node in 0..4 {
            let temperatures: Vec<f64> = after.iter().map(|field| field[node]).collect();
            for window in [1, 2, 3, 6, 1024] {
                for records in 1..=6 {
                    let log = Log { durations: &DURATIONS[..records], levels: &LEVELS[..records] };
                    let logged = ambient(&a, &log, &FIELD, &LOAD, window, node).unwrap();
                    let (largest, smallest) = extremes(&temperatures[..records], window);
                    assert_eq!(bits(&logged.field), bits(&after[records - 1]));
                    assert_eq!(bits(&logged.temperatures), bits(&temperatures[..records]));
                    assert_eq!((bits(&logged.largest), bits(&logged.smallest)), (bits(&largest), bits(&smallest)));
                    assert_eq!(logged.not_a_number, None);
                }
            }
        }
    }
}

#[test]
fn what_is_left_of_slices_that_are_longer() {
    let call = Call::default();
    let made = call.lent();
    assert_eq!(made.ended, Ok(End::Done));
    left(&made, sizes::ambient_work(4, 10, true), 6);
    assert_eq!(sizes::ambient_work(4, 10, true), 4 * 4 + 2 + 10);
    let logged = ambient(&call.a, &LOG, &FIELD, &LOAD, 3, 3).unwrap();
    assert_eq!((bits(&made.out), bits(&made.results[0][..6])), (bits(&logged.field), bits(&logged.temperatures)));
}

#[test]
fn lengths_and_numbers_before_any_record_in_their_order() {
    let (nan, infinite) = ([20.0, f64::NAN, 18.0, 17.0], [0.0, 0.0, f64::INFINITY, 0.0]);
    let wrong = Log { durations: &[], levels: &[] };
    // Each has all that comes behind it wrong too.
    let call = Call { log: wrong, window: 0, results: [0; 3], ..Call::default() };
    let no_rows = Matrix::new(0, &[0], &[], &[]);
    Call { a: no_rows, field: &nan[..3], load: &[], out: 3, ..call }.refused(1, 1.0, 0);
    Call { field: &nan[..3], load: &[], out: 3, ..call }.refused(15, 3.0, 0);
    Call { field: &nan[..3], load: &infinite[..1], ..call }.refused(16, 3.0, 0);
    Call { field: &nan, load: &infinite[..1], ..call }.refused(16, 1.0, 0);
    Call { field: &nan, load: &infinite, ..call }.refused(17, f64::NAN, 0);
    Call { load: &infinite, ..call }.refused(17, f64::INFINITY, 0);
    call.refused(38, f64::NAN, 0);
}

#[test]
fn window_node_records_and_places() {
    let call = Call::default();
    for (window, node) in [(0, 3), (1025, 3), (usize::MAX, 3), (3, 4), (3, usize::MAX), (1, 4), (1024, 4)] {
        Call { window, node, ..call }.refused(38, f64::NAN, 0);
    }
    for (durations, levels) in [(0, 0), (0, 1), (6, 5), (5, 6)] {
        let log = Log { durations: &DURATIONS[..durations], levels: &LEVELS[..levels] };
        Call { log, results: [0; 3], ..call }.refused(39, f64::NAN, 0);
    }
    for short in 0..3 {
        for places in [5, 0] {
            let mut results = [6; 3];
            results[short] = places;
            // It comes before the first record, whose duration is wrong here.
            Call { log: Log { durations: &[-1.0; 6], levels: &LEVELS }, results, ..call }.refused(40, f64::NAN, 0);
        }
    }
    assert_eq!(Call { results: [6; 3], ..call }.lent().ended, Ok(End::Done));
}

#[test]
fn a_hundred_thousand_records_and_no_more() {
    let one = Matrix::new(1, &[0, 1], &[0], &[0.25]);
    let durations = vec![0.5; sizes::MAX_RECORDS + 1];
    let levels: Vec<f64> = (0..=sizes::MAX_RECORDS).map(|i| (i as f64 / 700.0).sin()).collect();
    let (field, load) = ([1.0], [0.125]);
    let log = Log { durations: &durations[..100_000], levels: &levels[..100_000] };
    let logged = ambient(&one, &log, &field, &load, 1024, 0).unwrap();
    assert_eq!((logged.temperatures.len(), logged.not_a_number), (100_000, None));
    for i in (0..100_000).step_by(61).chain([1023, 1024, 99_999]) {
        let window = &logged.temperatures[(i + 1usize).saturating_sub(1024)..=i];
        assert_eq!(logged.largest[i], window.iter().copied().fold(f64::NEG_INFINITY, f64::max));
        assert_eq!(logged.smallest[i], window.iter().copied().fold(f64::INFINITY, f64::min));
    }
    let short = Log { durations: &durations[..300], levels: &levels[..300] };
    let after = in_a_row(&one, &short, &field, &load);
    assert_eq!(bits(&logged.temperatures[..300]), bits(&after.concat()));
    let long = Log { durations: &durations, levels: &levels };
    let error = ambient(&one, &long, &field, &load, 1024, 0).unwrap_err();
    assert_eq!((error.refusal().unwrap().number, error.record()), (39, 0));
    assert!(error.to_string().starts_with("refused (39): the log does not have 1 to 100,000 records"));
    // Before the places for results, which are none here.
    let call = Call { a: one, log: long, field: &field, load: &load, node: 0, out: 1, results: [0; 3], ..Call::default() };
    call.refused(39, f64::NAN, 0);
}

#[test]
fn a_refusal_at_a_later_record_leaves_the_field_before_it() {
    let a = ROD.with_mass(&MASS);
    let need = sizes::ambient_work(4, 10, true);
    let (durations, levels) = (DURATIONS, LEVELS);
    let wrong_duration = |x: f64| [durations[0], x, durations[2], durations[3], durations[4], durations[5]];
    let wrong_level = |x: f64| [levels[0], x, levels[2], levels[3], levels[4], levels[5]];
    let cases = [
        (wrong_duration(-1.0), levels, 14, -1.0),
        (wrong_duration(f64::INFINITY), levels, 14, f64::INFINITY),
        (wrong_duration(f64::NAN), wrong_level(f64::NAN), 14, f64::NAN),
        (wrong_duration(1.0), wrong_level(f64::INFINITY), 17, f64::NAN),
        (wrong_duration(1.0), wrong_level(f64::MIN), 17, f64::NEG_INFINITY),
    ];
    let loud = [2.0, 0.0, 2.0, 2.0];
    for (k, (durations, levels, number, value)) in cases.into_iter().enumerate() {
        // 0 times infinity is NaN, and the load's first entry is 0; of the last case the load is large enough to overflow.
        let load = if k == 4 { &loud } else { &LOAD };
        let log = Log { durations: &durations, levels: &levels };
        let first = in_a_row(&a, &Log { durations: &durations[..1], levels: &levels[..1] }, &FIELD, load).pop().unwrap();
        let made = Call { log, load, ..Call::default() }.lent();
        let (told, double, record) = made.ended.unwrap_err();
        assert!((told, record) == (number, 2) && same(double, value), "{told} {double} {record}");
        assert_eq!(bits(&made.out), bits(&first));
        left(&made, need, 1);
        assert!(made.results.iter().all(|list| list[0] == first[3]));
        let error = ambient(&a, &log, &FIELD, load, 3, 3).unwrap_err();
        assert_eq!((error.record(), error.refusal().unwrap().number), (2, number));
        assert!(error.to_string().starts_with(&format!("record 2 refused ({number}): ")));
        assert_eq!(bits(error.field().unwrap()), bits(&first));
        let AmbientError::Refused { temperatures, largest, smallest, .. } = error else { panic!("no memory") };
        assert_eq!([temperatures, largest, smallest], [vec![first[3]], vec![first[3]], vec![first[3]]]);
        // The same at record 1 changes nothing.
        let log = Log { durations: &durations[1..], levels: &levels[1..] };
        Call { log, load, ..Call::default() }.refused(number, value, 1);
    }
}

#[test]
fn working_memory_is_looked_at_last_of_record_1() {
    let need = sizes::ambient_work(4, 10, true);
    for work in [0, need - 4, need - 1] {
        Call { work, ..Call::default() }.refused(26, f64::NAN, 1);
        let log = Log { durations: &[f64::NAN; 6], ..LOG };
        Call { work, log, ..Call::default() }.refused(14, f64::NAN, 1);
    }
    assert_eq!(Call { work: need, ..Call::default() }.lent().ended, Ok(End::Done));
    assert_eq!(Call { a: ROD, work: need - 10, ..Call::default() }.lent().ended, Ok(End::Done));
    Call { a: ROD, work: need - 11, ..Call::default() }.refused(26, f64::NAN, 1);
    assert_eq!(sizes::ambient_work(1_000_001, 1, false), 0);
}

/// Row 0 loses nothing; of row 1 the two entries in column 1 take 2 T - 2 T, which is NaN once 2 T is infinite.
const CANCELS: Matrix = Matrix { n: 2, starts: &[0, 0, 2], columns: &[1, 1], entries: &[2.0, -2.0], mass: None };

#[test]
fn a_nan_ends_the_work_with_the_field_after_it() {
    let large = 2f64.powi(1023);
    // Up to 2^1023 in row 1 at record 2; record 3 makes it NaN.
    let (field, load) = ([1.0, 0.0], [0.0, large]);
    let log = Log { durations: &[1.0, 1.0, 1.0, 1.0], levels: &[0.0, 1.0, 0.0, 0.0] };
    let call = Call { a: CANCELS, log, field: &field, load: &load, window: 2, node: 1, out: 2, work: 13, ..Call::default() };
    let made = call.lent();
    assert_eq!(made.ended, Ok(End::NotANumber(3)));
    left(&made, sizes::ambient_work(2, 2, false), 2);
    assert!(made.out[0] == 1.0 && made.out[1].is_nan());
    assert_eq!(
        [made.results[0][..2].to_vec(), made.results[1][..2].to_vec(), made.results[2][..2].to_vec()],
        [vec![0.0, large], vec![0.0, large], vec![0.0, 0.0]]
    );
    let Logged { field: after, temperatures, largest, smallest, not_a_number } = ambient(&CANCELS, &log, &field, &load, 2, 1).unwrap();
    assert_eq!((temperatures, largest, smallest, not_a_number), (vec![0.0, large], vec![0.0, large], vec![0.0; 2], Some(3)));
    assert!(after[0] == 1.0 && after[1].is_nan());
    // At record 1 too.
    let one = Log { durations: &[1.0], levels: &[0.0] };
    let first = ambient(&CANCELS, &one, &[1.0, large], &[0.0; 2], 1, 1).unwrap();
    assert_eq!((first.not_a_number, first.temperatures.len()), (Some(1), 0));
    // In another row it ends nothing, and the next record is refused.
    let made = Call { node: 0, ..call }.lent();
    let (number, value, record) = made.ended.unwrap_err();
    assert!((number, record) == (17, 4) && value.is_nan() && made.out[1].is_nan());
    left(&made, sizes::ambient_work(2, 2, false), 3);
    assert_eq!(made.results.map(|list| list[2]), [1.0; 3]);
}

#[test]
fn zeros_and_infinities() {
    let bare = Matrix::new(1, &[0, 0], &[], &[]);
    let log = Log { durations: &[1.0, 1.0], levels: &[-1.0, -1.0] };
    let logged = ambient(&bare, &log, &[-0.0], &[0.0], 2, 0).unwrap();
    assert_eq!(bits(&logged.temperatures), bits(&[-0.0, -0.0]));
    assert_eq!((bits(&logged.largest), bits(&logged.smallest)), (bits(&[0.0, 0.0]), bits(&[0.0, 0.0])));
    // An infinite temperature is a result; the next record is refused for the field before it.
    let log = Log { durations: &[1.0, 1.0, 1.0], levels: &[0.5, 0.5, 0.5] };
    let error = ambient(&bare, &log, &[f64::MAX], &[f64::MAX], 2, 0).unwrap_err();
    let AmbientError::Refused { refusal, record, temperatures, largest, smallest, field } = error else { panic!("no memory") };
    assert_eq!((refusal.number, refusal.value, record, field), (17, f64::INFINITY, 2, Some(vec![f64::INFINITY])));
    assert_eq!([temperatures, largest, smallest], [vec![f64::INFINITY], vec![f64::INFINITY], vec![f64::INFINITY]]);
}
