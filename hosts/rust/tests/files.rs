//! Matrices and vectors in text.

use hazhendu::{matrix_market, vectors, Csr, ReadError};

fn read(text: &str) -> Result<Csr, ReadError> {
    matrix_market::read(text.as_bytes())
}

fn wrong(text: &str) -> String {
    read(text).unwrap_err().to_string()
}

fn dense(a: &Csr) -> Vec<Vec<f64>> {
    let mut rows = vec![vec![0.0; a.n]; a.n];
    for (i, row) in rows.iter_mut().enumerate() {
        for k in a.starts[i] as usize..a.starts[i + 1] as usize {
            row[a.columns[k] as usize] += a.entries[k];
        }
    }
    rows
}

#[test]
fn every_kind_gives_the_same_matrix() {
    let symmetric = [[2.0, -1.0, 0.0], [-1.0, 3.0, 0.5], [0.0, 0.5, 4.0]];
    for text in [
        "%%MatrixMarket matrix coordinate real general\n3 3 7\n1 1 2\n1 2 -1\n2 1 -1\n2 2 3\n2 3 .5\n3 2 .5\n3 3 4\n",
        "%%MatrixMarket matrix coordinate real symmetric\n3 3 5\n1 1 2\n2 1 -1\n2 2 3\n3 2 0.5\n3 3 4\n",
        "%%MatrixMarket matrix array real general\n% c\n3 3\n2\n-1\n0\n-1\n3\n0.5\n0\n0.5\n4\n",
        "%%MatrixMarket matrix array real symmetric\n3 3\n2\n-1\n0\n3\n5D-1\n4\n",
        "\u{feff}%%matrixmarket MATRIX ARRAY REAL SYMMETRIC\r\n3 3\r\n2\r\n-1\r\n-0\r\n3\r\n0.5\r\n4\r\n",
    ] {
        let a = read(text).unwrap();
        assert_eq!(dense(&a), symmetric, "{text}");
        assert_eq!(a.entries.len(), 7, "zeros of an array are no entries");
    }
    let skew = [[0.0, 2.0, 0.0], [-2.0, 0.0, 0.5], [0.0, -0.5, 0.0]];
    for text in [
        "%%MatrixMarket matrix coordinate integer skew-symmetric\n3 3 2\n2 1 -2\n3 2 -.5\n",
        "%%MatrixMarket matrix array real skew-symmetric\n3 3\n-2\n0\n-0.5\n",
    ] {
        assert_eq!(dense(&read(text).unwrap()), skew, "{text}");
    }
}

#[test]
fn what_is_not_read_is_named() {
    let header = |kind: &str| format!("%%MatrixMarket matrix {kind}\n1 1 1\n1 1 1\n");
    assert!(wrong(&header("coordinate complex general")).contains("complex"));
    assert!(wrong(&header("array complex hermitian")).contains("complex"));
    assert!(wrong(&header("coordinate pattern general")).contains("pattern"));
    assert!(wrong(&header("coordinate real hermitian")).contains("hermitian"));
    assert!(wrong(&header("elemental real general")).contains("elemental"));
    assert!(wrong(&header("array pattern general")).contains("pattern"));
    assert!(wrong("%%MatrixMarket vector coordinate real general\n").contains("header"));
    assert_eq!(
        wrong("%%MatrixMarket matrix array real general\n1 1\n1\n2\n"),
        "line 4: a line beyond the entries that the file says it has"
    );
    let large = read("%%MatrixMarket matrix array real general\n1000001 1000001\n").unwrap_err();
    assert!(matches!(large, ReadError::TooLarge { line: 2, rows: 1_000_001, entries: 0 }));
    assert_eq!(large.refusal().map(|refusal| refusal.number), Some(3));
}

#[test]
fn what_is_written_is_read_again() {
    let a = read("%%MatrixMarket matrix coordinate real general\n2 2 4\n2 2 1e-310\n1 2 -0\n2 2 3\n2 1 0.1\n").unwrap();
    let mut text = Vec::new();
    matrix_market::write(&mut text, &a.matrix()).unwrap();
    let again = matrix_market::read(&text[..]).unwrap();
    assert_eq!((&again.starts, &again.columns), (&a.starts, &a.columns));
    let bits = |a: &Csr| a.entries.iter().map(|x| x.to_bits()).collect::<Vec<_>>();
    assert_eq!(bits(&again), bits(&a));

    let numbers = [0.1, -0.0, 5e-324, f64::INFINITY, 1e300];
    let mut text = Vec::new();
    vectors::write(&mut text, &numbers).unwrap();
    let again = vectors::read(&text[..]).unwrap();
    assert_eq!(again.numbers, numbers);
    assert_eq!(again.lines, [1, 2, 3, 4, 5]);
}

#[test]
fn a_vector_is_a_column_a_row_or_a_matrix_market_file() {
    let numbers = |text: &str| vectors::read(text.as_bytes()).map(|vector| vector.numbers).map_err(|error| error.to_string());
    let is = [1.0, 0.0, 2.5];
    for text in [
        "1\n0\n2.5\n",
        "# three\n1 0 2.5\n",
        "1,0, 2.5\n",
        "% three\n\n1\t0\t25D-1",
        "%%MatrixMarket matrix array real general\n3 1\n1\n0\n2.5\n",
        "%%MatrixMarket matrix array real general\n1 3\n1\n0\n2.5\n",
        "%%MatrixMarket matrix coordinate real general\n3 1 3\n3 1 2\n1 1 1\n3 1 0.5\n",
        "%%MatrixMarket matrix coordinate real general\n1 3 2\n1 3 2.5\n1 1 1\n",
    ] {
        assert_eq!(numbers(text).unwrap(), is, "{text}");
    }
    assert_eq!(numbers("%%MatrixMarket matrix coordinate pattern general\n3 1 1\n2 1\n").unwrap(), [0.0, 1.0, 0.0]);
    for text in ["1\n2 3\n", "1 2\n3\n", "1 2\n3 4\n", "1,,2\n", "1 two\n", "%%MatrixMarket matrix array real general\n2 2\n1\n2\n3\n4\n"] {
        assert!(numbers(text).is_err(), "{text}");
    }
    let long = "1 ".repeat(1_000_001);
    assert_eq!(numbers(&long).unwrap().len(), 1_000_001);
}
