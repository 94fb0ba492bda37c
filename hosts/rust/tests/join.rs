//! Barrel and mount as one matrix (document 02, N8): the result, each refusal, and what it leaves.

use hazhendu::{check, join, lent, phi_action, sizes, Csr, Matrix, Refusal, TaylorOptions};

const BARREL: Matrix = Matrix { n: 3, starts: &[0, 2, 2, 4], columns: &[0, 2, 1, 2], entries: &[1.0, -1.0, -0.25, 0.25], mass: None };
/// An entry in common with the barrel in the first row, one in the second alone, a sum of 0 in the third.
const MOUNT: Matrix = Matrix { n: 3, starts: &[0, 2, 3, 4], columns: &[0, 1, 1, 2], entries: &[0.5, -0.5, 2.0, -0.25], mass: None };
const EMPTY: Matrix = Matrix { n: 3, starts: &[0, 0, 0, 0], columns: &[], entries: &[], mass: None };
const ONE: Matrix = Matrix { n: 1, starts: &[0, 1], columns: &[0], entries: &[2.0], mass: None };

const MARK: f64 = 0.125;
const MARKS: u32 = 77;

fn one(entry: &[f64]) -> Matrix<'_> {
    Matrix { entries: entry, ..ONE }
}

fn bits(list: &[f64]) -> Vec<u64> {
    list.iter().map(|x| x.to_bits()).collect()
}

/// On marked slices of these lengths; a refused join must leave them as they are, and an accepted one what is beyond its result.
fn on_slices(a: Matrix, b: Matrix, lengths: [usize; 3]) -> Result<Csr, Refusal> {
    let mut starts = vec![MARKS; lengths[0]];
    let mut columns = vec![MARKS; lengths[1]];
    let mut entries = vec![MARK; lengths[2]];
    let answer = lent::join(&a, &b, &mut starts, &mut columns, &mut entries);
    let (rows, count) = answer.as_ref().map_or((0, 0), |count| (a.n + 1, *count));
    assert!(starts.drain(rows..).chain(columns.drain(count..)).all(|x| x == MARKS));
    assert!(entries.drain(count..).all(|x| x == MARK));
    answer.map(|_| Csr { n: a.n, starts, columns, entries })
}

#[track_caller]
fn refused(a: Matrix, b: Matrix, number: u32, value: f64) {
    refused_on(a, b, [8, 8, 8], number, value);
}

#[track_caller]
fn refused_on(a: Matrix, b: Matrix, lengths: [usize; 3], number: u32, value: f64) {
    let refusal = on_slices(a, b, lengths).unwrap_err();
    assert_eq!(refusal.number, number);
    assert!(refusal.value.to_bits() == value.to_bits() || refusal.value.is_nan() && value.is_nan(), "{refusal:?}, not {value:?}");
    assert!(!refusal.change().is_empty() && refusal.to_string().starts_with(&format!("refused ({number}): {}", refusal.wrong())));
}

#[test]
fn rows_are_merged_by_column_and_a_sum_of_0_is_kept() {
    let both = join(&BARREL, &MOUNT).unwrap();
    assert_eq!(both.starts, [0, 3, 4, 6]);
    assert_eq!(both.columns, [0, 1, 2, 1, 1, 2]);
    assert_eq!(bits(&both.entries), bits(&[1.5, -0.5, -1.0, 2.0, -0.25, 0.0]));
    assert_eq!(on_slices(BARREL, MOUNT, [4, 6, 6]).unwrap(), both);
    assert_eq!(on_slices(BARREL, MOUNT, [9, 7, 8]).unwrap(), both);
}

#[test]
fn the_sum_is_rounded_once_the_barrel_first() {
    let sum = |a: f64, b: f64| join(&one(&[a]), &one(&[b])).unwrap().entries;
    for (a, b) in [(0.1, 0.2), (1e308, -1e-308), (5e-324, 5e-324), (1.0, 2f64.powi(-53)), (1e16, 1.0)] {
        assert_eq!(bits(&sum(a, b)), bits(&[a + b]));
    }
}

#[test]
fn zeros_keep_their_sign() {
    let sum = |a: f64, b: f64| bits(&join(&one(&[a]), &one(&[b])).unwrap().entries);
    assert_eq!(sum(-0.0, -0.0), bits(&[-0.0]));
    assert_eq!(sum(-0.0, 0.0), bits(&[0.0]));
    assert_eq!(sum(1.5, -1.5), bits(&[0.0]));
    let none = Matrix::new(1, &[0, 0], &[], &[]);
    assert_eq!(bits(&join(&one(&[-0.0]), &none).unwrap().entries), bits(&[-0.0]));
    assert_eq!(bits(&join(&none, &one(&[-0.0])).unwrap().entries), bits(&[-0.0]));
}

#[test]
fn rows_without_entries() {
    for (a, b) in [(BARREL, EMPTY), (EMPTY, BARREL)] {
        let both = join(&a, &b).unwrap();
        assert_eq!(both.matrix(), BARREL);
    }
    assert_eq!(join(&EMPTY, &EMPTY).unwrap().matrix(), EMPTY);
}

#[test]
fn entries_before_the_first_row_start_are_not_carried() {
    // They fall, which is no 35, and are counted in no length.
    let late = Matrix::new(3, &[2, 4, 4, 6], &[1, 0, 0, 2, 1, 2], &[7.0, 7.0, 1.0, -1.0, -0.25, 0.25]);
    let both = join(&BARREL, &MOUNT).unwrap();
    assert_eq!(on_slices(late, MOUNT, [4, 6, 6]).unwrap(), both);
    assert_eq!(join(&MOUNT, &late).unwrap(), join(&MOUNT, &BARREL).unwrap());
    refused(Matrix { entries: &[f64::NAN, 7.0, 1.0, -1.0, -0.25, 0.25], ..late }, MOUNT, 6, f64::NAN);
}

#[test]
fn a_mass_is_not_looked_at() {
    assert_eq!(join(&BARREL.with_mass(&[-1.0]), &MOUNT.with_mass(&[])).unwrap(), join(&BARREL, &MOUNT).unwrap());
}

#[test]
fn the_result_is_a_matrix_to_soak_and_to_join() {
    let both = join(&BARREL, &MOUNT).unwrap();
    assert_eq!(check(&both.matrix()).unwrap().norm, 3.0);
    assert!(phi_action(&both.matrix(), 1.0, 0, &[1.0; 3], TaylorOptions::default()).is_ok());
    assert_eq!(join(&both.matrix(), &EMPTY).unwrap(), both);
}

#[test]
fn rows_differ() {
    refused(BARREL, ONE, 34, f64::NAN);
    refused(ONE, BARREL, 34, f64::NAN);
    // before 35 and 36
    refused_on(ONE, Matrix { columns: &[2, 0, 1, 2], ..BARREL }, [0, 0, 0], 34, f64::NAN);
}

#[test]
fn columns_do_not_rise() {
    for columns in [[2, 0, 1, 2], [0, 2, 2, 1], [0, 0, 1, 2], [0, 2, 1, 1]] {
        let falling = Matrix { columns: &columns, ..BARREL };
        refused(falling, MOUNT, 35, f64::NAN);
        refused(MOUNT, falling, 35, f64::NAN);
        refused_on(falling, falling, [0, 0, 0], 35, f64::NAN);
    }
    // from one row to the next they may fall
    assert!(join(&Matrix::new(2, &[0, 1, 2], &[1, 0], &[1.0; 2]), &Matrix::new(2, &[0, 1, 2], &[1, 1], &[1.0; 2])).is_ok());
}

#[test]
fn a_slice_one_short() {
    assert!(on_slices(BARREL, MOUNT, [4, 6, 6]).is_ok());
    for lengths in [[3, 6, 6], [4, 5, 6], [4, 6, 5], [0, 9, 9], [9, 0, 9], [9, 9, 0]] {
        refused_on(BARREL, MOUNT, lengths, 36, f64::NAN);
    }
    // before the sum that is not finite
    refused_on(one(&[f64::MAX]), one(&[f64::MAX]), [2, 1, 0], 36, f64::NAN);
}

#[test]
fn a_sum_that_is_not_finite() {
    refused(one(&[f64::MAX]), one(&[f64::MAX]), 6, f64::INFINITY);
    refused(one(&[f64::MIN]), one(&[f64::MIN]), 6, f64::NEG_INFINITY);
    // of two the first
    let two = |first: f64, second: f64| [first, second];
    let (up, down) = (two(f64::MAX, f64::MIN), two(f64::MIN, f64::MAX));
    let pair = |entries| Matrix { n: 2, starts: &[0, 1, 2], columns: &[0, 1], entries, mass: None };
    refused(pair(&up), pair(&up), 6, f64::INFINITY);
    refused(pair(&down), pair(&down), 6, f64::NEG_INFINITY);
}

/// One wrong matrix for each of 1 to 6 and 11, with the double.
fn wrong(starts: &[u32]) -> [(Matrix<'_>, u32, f64); 7] {
    [
        (Matrix::new(2, &[0, 1], &[0], &[1.0]), 1, 2.0),
        (Matrix::new(1, &[0, 1], &[0, 0], &[1.0]), 2, 1.0),
        (Matrix::new(starts.len() - 1, starts, &[], &[]), 3, f64::NAN),
        (Matrix::new(2, &[0, 2, 1], &[0], &[1.0]), 4, 1.0),
        (Matrix::new(2, &[0, 1, 2], &[0, 7], &[1.0; 2]), 5, 7.0),
        (one(&[f64::NEG_INFINITY]), 6, f64::NEG_INFINITY),
        (Matrix::new(2, &[0, 2, 2], &[0, 1], &[f64::MAX; 2]), 11, f64::INFINITY),
    ]
}

#[test]
fn the_barrel_is_checked_wholly_before_the_mount() {
    let starts = vec![0; sizes::MAX_ROWS + 2];
    for (barrel, number, value) in wrong(&starts) {
        // before 34, 35 and 36 too
        refused(barrel, BARREL, number, value);
        refused(BARREL, barrel, number, value);
        refused_on(barrel, BARREL, [0, 0, 0], number, value);
        refused_on(BARREL, barrel, [0, 0, 0], number, value);
        for (mount, _, _) in wrong(&starts) {
            refused(barrel, mount, number, value);
        }
    }
}

/// 64 entries in every row of each: too many in the result, though not in either.
#[test]
fn too_many_entries_in_the_result() {
    const N: usize = 200_000;
    let starts: Vec<u32> = (0..=N).map(|i| 64 * i as u32).collect();
    let columns = |first: u32| (0..64 * N).map(|k| first + k as u32 % 64).collect::<Vec<u32>>();
    let entries = vec![1.0; 64 * N];
    let (low, high) = (columns(0), columns(64));
    let (a, b) = (Matrix::new(N, &starts, &low, &entries), Matrix::new(N, &starts, &high, &entries));
    assert_eq!(join(&a, &b).unwrap_err().refusal().unwrap().number, 3);
    assert_eq!(lent::join(&a, &b, &mut vec![0; N + 1], &mut [], &mut []).unwrap_err().number, 36);
    // on the same places there are half as many
    assert_eq!(join(&a, &a).unwrap().entries.len(), 64 * N);
}
