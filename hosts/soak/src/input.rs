//! What is read: a file, or `-` for the standard input; what gzip has packed is unpacked by gzip.

use crate::failure::Failure;
use hazhendu::vectors;
use hazhendu::{matrix_market, Csr, ReadError};
use std::fmt;
use std::fs::File;
use std::io::{self, BufRead, BufReader, Read, Seek, SeekFrom};
use std::path::{Path, PathBuf};
use std::process::{Child, ChildStdout, Command, Stdio};

/// A longer line of places is not read into memory.
const LONGEST: u64 = 65_536;
/// The bytes that a gzip file begins with.
const GZIP: [u8; 2] = [0x1f, 0x8b];

#[derive(Clone, Debug, PartialEq)]
pub struct Source(pub PathBuf);

impl Source {
    pub fn is_standard_input(&self) -> bool {
        self.0.as_os_str() == "-"
    }

    /// The file and its folder.
    pub fn short_name(&self) -> String {
        let whole = self.0.canonicalize().unwrap_or_else(|_| self.0.clone());
        let parts: Vec<_> = whole.iter().rev().take(2).collect();
        match parts[..] {
            _ if self.is_standard_input() => self.to_string(),
            [file, folder] if folder != "/" => format!("{}/{}", folder.to_string_lossy(), file.to_string_lossy()),
            _ => self.to_string(),
        }
    }

    pub fn open(&self) -> Result<Box<dyn BufRead>, Failure> {
        let opened = if self.is_standard_input() { standard_input() } else { file(&self.0) };
        opened.map_err(|error| Failure::CannotRead { name: self.to_string(), error })
    }

    /// Hands on each line with its number from 1, without its end and without blanks around it.
    pub fn each_line(&self, mut take: impl FnMut(usize, &str) -> Result<(), Failure>) -> Result<(), Failure> {
        let mut reader = self.open()?;
        for number in 1.. {
            let mut bytes = Vec::new();
            let read = reader.by_ref().take(LONGEST).read_until(b'\n', &mut bytes);
            let read = read.map_err(|error| Failure::CannotRead { name: self.to_string(), error })?;
            if read == 0 {
                break;
            }
            if read as u64 == LONGEST {
                return Err(Failure::BadFile { place: format!("{self}:{number}"), wrong: format!("a line of {LONGEST} bytes or more") });
            }
            take(number, String::from_utf8_lossy(&bytes).trim_start_matches('\u{feff}').trim())?;
        }
        Ok(())
    }

    pub fn matrix(&self) -> Result<Csr, Failure> {
        matrix_market::read(self.open()?).map_err(|error| self.failure(error))
    }

    pub fn vector(&self) -> Result<Vector, Failure> {
        let vectors::Vector { numbers, lines } = vectors::read(self.open()?).map_err(|error| self.failure(error))?;
        Ok(Vector { source: self.clone(), numbers, lines })
    }

    fn failure(&self, error: ReadError) -> Failure {
        let refusal = error.refusal();
        match (error, refusal) {
            (ReadError::Wrong { line, what }, _) => Failure::BadFile { place: format!("{self}:{line}"), wrong: what },
            (ReadError::Unread(error), _) => Failure::CannotRead { name: self.to_string(), error },
            (ReadError::OutOfMemory { doubles }, _) => Failure::OutOfMemory { doubles },
            (ReadError::TooLarge { line, rows, entries }, Some(refusal)) => {
                Failure::refused(refusal, Some(format!("{self}:{line}, {rows} rows, {entries} entries")))
            }
            (error, _) => Failure::BadFile { place: self.to_string(), wrong: error.to_string() },
        }
    }
}

impl fmt::Display for Source {
    fn fmt(&self, f: &mut fmt::Formatter) -> fmt::Result {
        match self.is_standard_input() {
            true => write!(f, "standard input"),
            false => self.0.display().fmt(f),
        }
    }
}

fn standard_input() -> io::Result<Box<dyn BufRead>> {
    let mut input = BufReader::new(io::stdin());
    if input.fill_buf()?.starts_with(&GZIP) {
        return Err(io::Error::new(io::ErrorKind::InvalidData, "packed by gzip: let 'gzip -dc' unpack it on the way"));
    }
    Ok(Box::new(input))
}

fn file(path: &Path) -> io::Result<Box<dyn BufRead>> {
    let mut file = File::open(path)?;
    if !file.metadata()?.is_file() {
        return Ok(Box::new(BufReader::new(file)));
    }
    let mut first = [0; 2];
    let packed = file.read_exact(&mut first).is_ok() && first == GZIP;
    file.seek(SeekFrom::Start(0))?;
    match packed {
        true => Ok(Box::new(BufReader::new(Unpacked::new(file)?))),
        false => Ok(Box::new(BufReader::new(file))),
    }
}

/// What `gzip -dc` gives, and at its end whether it was content.
struct Unpacked {
    gzip: Child,
    output: ChildStdout,
}

impl Unpacked {
    fn new(file: File) -> io::Result<Self> {
        let mut command = Command::new("gzip");
        let started = command.arg("-dc").stdin(file).stdout(Stdio::piped()).stderr(Stdio::piped()).spawn();
        let mut gzip =
            started.map_err(|error| io::Error::new(error.kind(), format!("packed by gzip, and the program gzip does not run: {error}")))?;
        let output = gzip.stdout.take().ok_or(io::ErrorKind::BrokenPipe)?;
        Ok(Unpacked { gzip, output })
    }

    fn finish(&mut self) -> io::Result<()> {
        let mut messages = String::new();
        if let Some(mut stderr) = self.gzip.stderr.take() {
            stderr.read_to_string(&mut messages)?;
        }
        match self.gzip.wait()?.success() {
            true => Ok(()),
            false => Err(io::Error::new(io::ErrorKind::InvalidData, messages.split_whitespace().collect::<Vec<_>>().join(" "))),
        }
    }
}

impl Read for Unpacked {
    fn read(&mut self, buffer: &mut [u8]) -> io::Result<usize> {
        let read = self.output.read(buffer)?;
        if read == 0 && !buffer.is_empty() {
            self.finish()?;
        }
        Ok(read)
    }
}

impl Drop for Unpacked {
    fn drop(&mut self) {
        let _ = self.gzip.kill();
        let _ = self.gzip.wait();
    }
}

/// The numbers of a file, and where they stand.
pub struct Vector {
    pub source: Source,
    pub numbers: Vec<f64>,
    lines: Vec<u64>,
}

impl Vector {
    /// The first number that is wrong, as FILE:LINE and by its place.
    pub fn first(&self, wrong: impl Fn(f64) -> bool) -> Option<String> {
        let place = self.numbers.iter().position(|x| wrong(*x))?;
        Some(format!("{}:{}, number {}", self.source, self.lines[place], place + 1))
    }
}
