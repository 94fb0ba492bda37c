//! The lines of a text with their numbers, numbers in lines, and why a text was not read.

use crate::{Error, Refusal};
use std::fmt;
use std::io::{self, BufRead, Read};

const BYTE_ORDER_MARK: &[u8] = b"\xef\xbb\xbf";

/// Why a text was not read.
#[derive(Debug)]
pub enum ReadError {
    /// What is wrong, and the line in which it shows, from 1.
    Wrong {
        line: u64,
        what: String,
    },
    /// The text says that the matrix has more rows or entries than the library takes (its refusal 3).
    TooLarge {
        line: u64,
        rows: usize,
        entries: usize,
    },
    Unread(io::Error),
    /// This many doubles are not to be had.
    OutOfMemory {
        doubles: usize,
    },
}

impl ReadError {
    /// The refusal that the library would give, if it is one.
    pub fn refusal(&self) -> Option<Refusal> {
        matches!(self, ReadError::TooLarge { .. }).then_some(Refusal { number: 3, value: f64::NAN })
    }
}

impl fmt::Display for ReadError {
    fn fmt(&self, f: &mut fmt::Formatter) -> fmt::Result {
        match self {
            ReadError::Wrong { line, what } => write!(f, "line {line}: {what}"),
            ReadError::TooLarge { line, rows, entries } => {
                write!(f, "line {line}: {rows} rows, {entries} entries: at most 1,000,000 and 16,777,216 are taken")
            }
            ReadError::Unread(error) => error.fmt(f),
            ReadError::OutOfMemory { doubles } => write!(f, "no memory for {doubles} doubles"),
        }
    }
}

impl std::error::Error for ReadError {}

impl From<Error> for ReadError {
    fn from(error: Error) -> Self {
        match error {
            Error::OutOfMemory { doubles } => ReadError::OutOfMemory { doubles },
            Error::Refused { refusal, .. } => ReadError::Wrong { line: 0, what: refusal.to_string() },
        }
    }
}

pub(crate) struct Lines<R> {
    reader: R,
    /// A longer line is not read into memory.
    longest: u64,
    /// The number of the line read last, from 1; 0 before the first.
    number: u64,
}

impl<R: BufRead> Lines<R> {
    pub fn new(reader: R, longest: u64) -> Self {
        Lines { reader, longest, number: 0 }
    }

    /// The next line without its end and without blanks around it. Bytes that are no text become replacement characters.
    pub fn next(&mut self) -> Result<Option<String>, ReadError> {
        let mut bytes = Vec::new();
        let read = self.reader.by_ref().take(self.longest).read_until(b'\n', &mut bytes);
        if read.map_err(ReadError::Unread)? == 0 {
            return Ok(None);
        }
        self.number += 1;
        if bytes.len() as u64 == self.longest && !bytes.ends_with(b"\n") {
            return Err(self.wrong(format!("a line of {} bytes or more", self.longest)));
        }
        let text = match bytes.strip_prefix(BYTE_ORDER_MARK) {
            Some(rest) if self.number == 1 => rest,
            _ => &bytes,
        };
        Ok(Some(String::from_utf8_lossy(text).trim().to_owned()))
    }

    /// The next line that is neither blank nor a comment.
    pub fn next_data(&mut self, comment: &[char]) -> Result<Option<String>, ReadError> {
        while let Some(line) = self.next()? {
            if is_data(&line, comment) {
                return Ok(Some(line));
            }
        }
        Ok(None)
    }

    /// Something is wrong in the line read last.
    pub fn wrong(&self, what: impl Into<String>) -> ReadError {
        ReadError::Wrong { line: self.line(), what: what.into() }
    }

    /// The number of the line read last.
    pub fn line(&self) -> u64 {
        self.number.max(1)
    }

    pub fn number(&self, word: &str) -> Result<f64, ReadError> {
        number(word).ok_or_else(|| self.wrong(format!("{} is not a number", quoted(word))))
    }

    pub fn whole(&self, word: &str) -> Result<usize, ReadError> {
        word.parse().map_err(|_| self.wrong(format!("{} is not a whole number that fits", quoted(word))))
    }
}

pub(crate) fn is_data(line: &str, comment: &[char]) -> bool {
    !line.is_empty() && !line.starts_with(comment)
}

/// `nan` and `inf` are numbers here, and what is too large for a double is infinite: the library refuses them. Fortran's exponents are
/// written with a D.
pub(crate) fn number(word: &str) -> Option<f64> {
    word.parse().ok().or_else(|| {
        let (digits, exponent) = word.split_once(['d', 'D'])?;
        let plain = |part: &str| part.bytes().all(|byte| byte.is_ascii_digit() || b"+-.".contains(&byte));
        (plain(digits) && plain(exponent)).then(|| format!("{digits}e{exponent}").parse().ok())?
    })
}

/// The beginning of a word, with what is not printable escaped.
pub(crate) fn quoted(word: &str) -> String {
    let short: String = word.chars().take(40).collect();
    let dots = if short.len() < word.len() { "..." } else { "" };
    format!("{short:?}{dots}")
}

#[cfg(test)]
mod tests {
    use super::number;

    #[test]
    fn numbers_are_rusts_and_fortrans() {
        for (word, value) in [("1.5", 1.5), ("-2D3", -2e3), ("1.25d-02", 1.25e-2), ("1D+400", f64::INFINITY), ("-inf", f64::NEG_INFINITY)] {
            assert_eq!(number(word), Some(value), "{word}");
        }
        for word in ["", "D", "1D", "D3", "1DD3", "0xD3", "deux", "1,5", "infD3", "1.0-103"] {
            assert_eq!(number(word), None, "{word}");
        }
        assert!(number("NaN").is_some_and(f64::is_nan));
    }
}
