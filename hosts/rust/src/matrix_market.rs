//! Matrix Market files, as `scipy.io.mmwrite` and MATLAB's `mmwrite` write them.
//!
//! A matrix is square, coordinate or array, real or integer, general, symmetric or skew-symmetric. Entries of a coordinate file may repeat,
//! and then add up in a soak; of an array file the zeros are places without an entry. A vector has one column or one row, and may be a
//! pattern too, of which each entry is 1 (the weights of a reading, say). Complex entries are refused by name.
//!
//! ```
//! use hazhendu::{check, matrix_market};
//!
//! let text = "%%MatrixMarket matrix coordinate real symmetric\n2 2 3\n1 1 0.5\n2 1 -0.5\n2 2 0.6\n";
//! let a = matrix_market::read(text.as_bytes())?;
//! assert_eq!(check(&a.matrix())?.norm, 1.1);
//!
//! let mut written = Vec::new();
//! matrix_market::write(&mut written, &a.matrix())?;
//! assert_eq!(matrix_market::read(&written[..])?, a);
//! # Ok::<(), Box<dyn std::error::Error>>(())
//! ```

use crate::lines::{quoted, Lines, ReadError};
use crate::sizes::{MAX_ENTRIES, MAX_ROWS};
use crate::{push, shortest, zeros, Csr, Matrix, Triplets};
use std::io::{self, BufRead, Write};

/// No line of a matrix is nearly as long.
const LONGEST: u64 = 65_536;
/// What begins the first line, in small letters.
pub(crate) const BANNER: &str = "%%matrixmarket";

/// Row by row, in the order in which the entries stand; a mass is not written. Of a matrix that the library would refuse for its row
/// starts or lengths (1, 2 or 4), what its lists hold.
pub fn write(to: &mut dyn Write, a: &Matrix) -> io::Result<()> {
    writeln!(to, "%%MatrixMarket matrix coordinate real general\n{0} {0} {1}", a.n, a.entries.len())?;
    for (i, bounds) in a.starts.windows(2).enumerate() {
        let range = bounds[0] as usize..bounds[1] as usize;
        let row = a.columns.get(range.clone()).unwrap_or_default().iter().zip(a.entries.get(range).unwrap_or_default());
        for (column, entry) in row {
            writeln!(to, "{} {} {}", i + 1, u64::from(*column) + 1, shortest(*entry))?;
        }
    }
    Ok(())
}

/// A square matrix, each row's entries in the order of the file.
pub fn read(from: impl BufRead) -> Result<Csr, ReadError> {
    let mut lines = Lines::new(from, LONGEST);
    let header = lines.next()?.unwrap_or_default();
    let kind = Kind::of(&lines, &header)?;
    if kind.pattern {
        return Err(lines.wrong(
            "entries of kind \"pattern\": places without entries, and a matrix needs its conductances; only real and integer are read",
        ));
    }
    let read = if kind.array { read_array } else { read_coordinates };
    let triplets = read(&mut lines, kind.symmetry)?;
    no_more(&mut lines)?;
    Ok(triplets.by_rows()?)
}

/// A vector, with the line of each number; of a coordinate vector that of the line of sizes.
pub(crate) fn read_vector<R: BufRead>(lines: &mut Lines<R>, header: &str) -> Result<(Vec<f64>, Vec<u64>), ReadError> {
    let kind = Kind::of(lines, header)?;
    if kind.symmetry != Symmetry::General {
        return Err(lines.wrong("a symmetric matrix, where a vector is wanted"));
    }
    let sizes = read_sizes(lines, if kind.array { 2 } else { 3 })?;
    let length = match sizes[..] {
        [n, 1, ..] | [1, n, ..] => n,
        _ => return Err(lines.wrong(format!("{} rows and {} columns: a vector has one row or one column", sizes[0], sizes[1]))),
    };
    let read = if kind.array { read_array_vector(lines, length)? } else { read_coordinate_vector(lines, kind.pattern, &sizes, length)? };
    if read.0.len() <= MAX_ROWS {
        no_more(lines)?;
    }
    Ok(read)
}

#[derive(Clone, Copy, PartialEq)]
enum Symmetry {
    General,
    Symmetric,
    Skew,
}

struct Kind {
    array: bool,
    pattern: bool,
    symmetry: Symmetry,
}

impl Kind {
    fn of<R: BufRead>(lines: &Lines<R>, header: &str) -> Result<Kind, ReadError> {
        let header = header.to_ascii_lowercase();
        let words: Vec<&str> = header.split_whitespace().collect();
        let [BANNER, "matrix", format, field, symmetry] = words[..] else {
            return Err(lines.wrong("no Matrix Market header: '%%MatrixMarket matrix coordinate real general'"));
        };
        let array = match format {
            "coordinate" => false,
            "array" => true,
            _ => return Err(lines.wrong(format!("format {}: only coordinate and array are read", quoted(format)))),
        };
        let pattern = match field {
            "real" | "integer" | "unsigned-integer" => false,
            "pattern" if !array => true,
            "complex" => return Err(lines.wrong("entries of kind \"complex\": a soak is real; only real and integer are read")),
            _ => return Err(lines.wrong(format!("entries of kind {}: only real and integer are read", quoted(field)))),
        };
        let symmetry = match symmetry {
            "general" => Symmetry::General,
            "symmetric" => Symmetry::Symmetric,
            "skew-symmetric" => Symmetry::Skew,
            _ => return Err(lines.wrong(format!("symmetry {}: only general, symmetric and skew-symmetric are read", quoted(symmetry)))),
        };
        Ok(Kind { array, pattern, symmetry })
    }
}

/// The numbers of rows, of columns and, of a coordinate file, of stored entries.
fn read_sizes<R: BufRead>(lines: &mut Lines<R>, count: usize) -> Result<Vec<usize>, ReadError> {
    let line = lines.next_data(&['%'])?.unwrap_or_default();
    let words: Vec<&str> = line.split_whitespace().collect();
    match words.len() {
        length if length == count => words.iter().map(|word| lines.whole(word)).collect(),
        _ if count == 2 => Err(lines.wrong("no line with the numbers of rows and columns")),
        _ => Err(lines.wrong("no line with the numbers of rows, columns and entries")),
    }
}

/// The library would refuse it too, but only once it stands in memory.
fn allowed<R: BufRead>(lines: &Lines<R>, rows: usize, columns: usize, entries: usize) -> Result<(), ReadError> {
    if rows != columns {
        return Err(lines.wrong(format!("{rows} rows and {columns} columns: the matrix is not square")));
    }
    if rows > MAX_ROWS || entries > MAX_ENTRIES {
        return Err(ReadError::TooLarge { line: lines.line(), rows, entries });
    }
    Ok(())
}

fn read_coordinates<R: BufRead>(lines: &mut Lines<R>, symmetry: Symmetry) -> Result<Triplets, ReadError> {
    let sizes = read_sizes(lines, 3)?;
    let (n, count) = (sizes[0], sizes[2]);
    allowed(lines, n, sizes[1], count)?;
    let mut triplets = Triplets::new(n);
    for read in 0..count {
        let line = next_entry(lines, read, count)?;
        let words: Vec<&str> = line.split_whitespace().collect();
        let [row, column, entry] = words[..] else {
            return Err(lines.wrong("not a row, a column and an entry"));
        };
        let (row, column, entry) = (read_index(lines, "row", row, n)?, read_index(lines, "column", column, n)?, lines.number(entry)?);
        match symmetry {
            Symmetry::Symmetric if column > row => {
                return Err(lines.wrong("an entry above the diagonal of a symmetric matrix, of which only the lower triangle is stored"))
            }
            Symmetry::Skew if column >= row => {
                return Err(
                    lines.wrong("an entry on or above the diagonal of a skew-symmetric matrix, of which only what is below it is stored")
                )
            }
            _ => push_both(&mut triplets, symmetry, row, column, entry)?,
        }
    }
    Ok(triplets)
}

/// Column by column; of a symmetric matrix from the diagonal on, of a skew-symmetric one below it.
fn read_array<R: BufRead>(lines: &mut Lines<R>, symmetry: Symmetry) -> Result<Triplets, ReadError> {
    let sizes = read_sizes(lines, 2)?;
    let n = sizes[0];
    allowed(lines, n, sizes[1], 0)?;
    let stored = match symmetry {
        Symmetry::General => n * n,
        Symmetry::Symmetric => n * (n + 1) / 2,
        Symmetry::Skew => n * n.saturating_sub(1) / 2,
    };
    let mut triplets = Triplets::new(n);
    let mut read = 0;
    for column in 0..n {
        let first = match symmetry {
            Symmetry::General => 0,
            Symmetry::Symmetric => column,
            Symmetry::Skew => column + 1,
        };
        for row in first..n {
            let line = next_entry(lines, read, stored)?;
            read += 1;
            let entry = lines.number(&line)?;
            if entry != 0.0 {
                // At most a million rows.
                push_both(&mut triplets, symmetry, row as u32, column as u32, entry)?;
            }
            if triplets.len() > MAX_ENTRIES {
                return Err(ReadError::TooLarge { line: lines.line(), rows: n, entries: triplets.len() });
            }
        }
    }
    Ok(triplets)
}

/// An entry, and its mirror image.
fn push_both(triplets: &mut Triplets, symmetry: Symmetry, row: u32, column: u32, entry: f64) -> Result<(), ReadError> {
    triplets.push(row, column, entry)?;
    match symmetry {
        Symmetry::Symmetric if row != column => Ok(triplets.push(column, row, entry)?),
        Symmetry::Skew => Ok(triplets.push(column, row, -entry)?),
        _ => Ok(()),
    }
}

/// Reading stops at one number more than any job may have, which is enough to be refused.
fn read_array_vector<R: BufRead>(lines: &mut Lines<R>, length: usize) -> Result<(Vec<f64>, Vec<u64>), ReadError> {
    let (mut numbers, mut places) = (vec![], vec![]);
    for read in 0..length.min(MAX_ROWS + 1) {
        let line = next_entry(lines, read, length)?;
        push(&mut numbers, lines.number(&line)?)?;
        push(&mut places, lines.line())?;
    }
    Ok((numbers, places))
}

/// Places without an entry are 0, and entries that repeat add up.
fn read_coordinate_vector<R: BufRead>(
    lines: &mut Lines<R>,
    pattern: bool,
    sizes: &[usize],
    length: usize,
) -> Result<(Vec<f64>, Vec<u64>), ReadError> {
    let held = length.min(MAX_ROWS + 1);
    let (mut numbers, mut places) = (zeros(held)?, zeros(held)?);
    places.fill(lines.line());
    for read in 0..sizes[2] {
        let line = next_entry(lines, read, sizes[2])?;
        let words: Vec<&str> = line.split_whitespace().collect();
        let (row, column, entry) = match words[..] {
            [row, column] if pattern => (row, column, 1.0),
            [row, column, entry] if !pattern => (row, column, lines.number(entry)?),
            _ => return Err(lines.wrong(if pattern { "not a row and a column" } else { "not a row, a column and an entry" })),
        };
        let place = read_index(lines, "row", row, sizes[0])?.max(read_index(lines, "column", column, sizes[1])?) as usize;
        if let (Some(number), Some(line)) = (numbers.get_mut(place), places.get_mut(place)) {
            *number += entry;
            *line = lines.line();
        }
    }
    Ok((numbers, places))
}

fn next_entry<R: BufRead>(lines: &mut Lines<R>, read: usize, count: usize) -> Result<String, ReadError> {
    lines.next_data(&['%'])?.ok_or_else(|| lines.wrong(format!("the file ends after {read} of {count} entries")))
}

fn no_more<R: BufRead>(lines: &mut Lines<R>) -> Result<(), ReadError> {
    match lines.next_data(&['%'])? {
        None => Ok(()),
        Some(_) => Err(lines.wrong("a line beyond the entries that the file says it has")),
    }
}

/// An index counts from 1 in the file, from 0 in the answer.
fn read_index<R: BufRead>(lines: &Lines<R>, name: &str, word: &str, n: usize) -> Result<u32, ReadError> {
    let from_1: Option<usize> = word.parse().ok().filter(|index| (1..=n).contains(index));
    let from_0 = from_1.and_then(|index| u32::try_from(index - 1).ok());
    from_0.ok_or_else(|| lines.wrong(format!("{name} {}: not a whole number from 1 to {n}", quoted(word))))
}
