//! Vectors and masses in text: one number a line, all numbers in one line, or a Matrix Market file with one column or row.

use crate::lines::{is_data, quoted, Lines, ReadError};
use crate::matrix_market::{self, BANNER};
use crate::sizes::MAX_ROWS;
use crate::{push, shortest};
use std::io::{self, BufRead, Write};

/// A vector of the largest size in one line.
const LONGEST: u64 = 32 * (MAX_ROWS as u64 + 1);
const COMMENT: &[char] = &['#', '%'];

/// The numbers of a text, and where they stand.
#[derive(Clone, Debug, Default, PartialEq)]
pub struct Vector {
    pub numbers: Vec<f64>,
    /// The line of each number, from 1.
    pub lines: Vec<u64>,
}

/// Blank lines and lines that begin with # or % are skipped. In one line, numbers stand between blanks or commas. Reading stops at one
/// number more than any job may have, which is enough to be refused.
pub fn read(from: impl BufRead) -> Result<Vector, ReadError> {
    let mut lines = Lines::new(from, LONGEST);
    let mut vector = Vector::default();
    let mut next = lines.next()?;
    if let Some(header) = next.as_ref().filter(|line| line.to_ascii_lowercase().starts_with(BANNER)) {
        (vector.numbers, vector.lines) = matrix_market::read_vector(&mut lines, header)?;
        return Ok(vector);
    }
    let mut row = false;
    while let Some(line) = next {
        if is_data(&line, COMMENT) {
            let words = words(&lines, &line)?;
            if row || (words.len() > 1 && !vector.numbers.is_empty()) {
                return Err(lines.wrong("more than one number in a line, and more than one line: a vector is one column or one row"));
            }
            row = words.len() > 1;
            for word in words {
                push(&mut vector.numbers, lines.number(word)?)?;
                push(&mut vector.lines, lines.line())?;
                if vector.numbers.len() > MAX_ROWS {
                    return Ok(vector);
                }
            }
        }
        next = lines.next()?;
    }
    Ok(vector)
}

/// One number a line, the shortest decimal that reads back as the same double.
pub fn write(to: &mut dyn Write, numbers: &[f64]) -> io::Result<()> {
    numbers.iter().try_for_each(|x| writeln!(to, "{}", shortest(*x)))
}

/// Between commas, where there is one, nothing is left out.
fn words<'a, R: BufRead>(lines: &Lines<R>, line: &'a str) -> Result<Vec<&'a str>, ReadError> {
    if !line.contains(',') {
        return Ok(line.split_whitespace().collect());
    }
    let words: Vec<&str> = line.split(',').map(str::trim).collect();
    match words.iter().any(|word| word.is_empty()) {
        true => Err(lines.wrong(format!("{}: nothing before or after a comma", quoted(line)))),
        false => Ok(words),
    }
}
