//! What is written: a file, which appears whole or not at all, or `-` for the standard output.
//!
//! A file is written beside its place and then renamed, so that what stood there stays until all is written, and a run that is stopped
//! leaves nothing. Whether it can be written is tried before the call, so that it is told before a long run and not after it.

use crate::failure::Failure;
use std::ffi::OsString;
use std::fs::{self, File, OpenOptions};
use std::io::{self, BufWriter, Write};
use std::path::{Path, PathBuf};

pub struct Sink {
    /// As it was given.
    name: PathBuf,
    place: Place,
}

enum Place {
    StandardOutput,
    /// A device or a pipe: what stands there is not replaced.
    Device(PathBuf),
    /// A file, links followed.
    File(PathBuf),
}

impl Sink {
    pub fn open(name: &Path) -> Result<Sink, Failure> {
        let place = if is_standard_output(name) { Ok(Place::StandardOutput) } else { tried(name) };
        Ok(Sink { name: name.to_owned(), place: place.map_err(|error| cannot_write(name, error))? })
    }

    pub fn standard_output() -> Sink {
        Sink { name: "-".into(), place: Place::StandardOutput }
    }

    pub fn fill(&self, write: impl FnOnce(&mut dyn Write) -> io::Result<()>) -> Result<(), Failure> {
        let filled = match &self.place {
            Place::StandardOutput => buffered(io::stdout().lock(), write),
            Place::Device(path) => OpenOptions::new().write(true).open(path).and_then(|file| buffered(&file, write)),
            Place::File(path) => replaced(path, write),
        };
        filled.map_err(|error| cannot_write(&self.name, error))
    }
}

pub fn to_stdout(write: impl FnOnce(&mut dyn Write) -> io::Result<()>) -> Result<(), Failure> {
    Sink::standard_output().fill(write)
}

pub fn is_standard_output(name: &Path) -> bool {
    name.as_os_str() == "-"
}

/// A device or a pipe, which has no place beside it.
pub fn is_device(name: &Path) -> bool {
    fs::metadata(name).is_ok_and(|found| !found.is_file() && !found.is_dir())
}

/// A file beside the place is made and taken away again.
fn tried(name: &Path) -> io::Result<Place> {
    let path = name.canonicalize().unwrap_or_else(|_| name.to_owned());
    if let Ok(found) = fs::metadata(&path) {
        if found.is_dir() {
            return Err(io::Error::from_raw_os_error(21));
        }
        let file = OpenOptions::new().write(true).open(&path)?;
        if !file.metadata()?.is_file() {
            return Ok(Place::Device(path));
        }
    }
    Beside::new(&path)?;
    Ok(Place::File(path))
}

/// A file beside a path, which goes away unless it takes the path's place.
struct Beside<'a> {
    path: &'a Path,
    beside: PathBuf,
    file: File,
}

impl<'a> Beside<'a> {
    fn new(path: &'a Path) -> io::Result<Self> {
        let mut name = OsString::from(".");
        name.push(path.file_name().ok_or(io::ErrorKind::InvalidInput)?);
        name.push(format!(".soak-{}", std::process::id()));
        let beside = path.with_file_name(name);
        let file = OpenOptions::new().write(true).create_new(true).open(&beside)?;
        Ok(Beside { path, beside, file })
    }

    /// What has been written is on the disk before the name is.
    fn take_place(self) -> io::Result<()> {
        if let Ok(old) = fs::metadata(self.path) {
            self.file.set_permissions(old.permissions())?;
        }
        self.file.sync_all()?;
        fs::rename(&self.beside, self.path)
    }
}

impl Drop for Beside<'_> {
    fn drop(&mut self) {
        // After a renaming there is nothing to remove.
        let _ = fs::remove_file(&self.beside);
    }
}

fn replaced(path: &Path, write: impl FnOnce(&mut dyn Write) -> io::Result<()>) -> io::Result<()> {
    let new = Beside::new(path)?;
    buffered(&new.file, write)?;
    new.take_place()
}

fn buffered(target: impl Write, write: impl FnOnce(&mut dyn Write) -> io::Result<()>) -> io::Result<()> {
    let mut writer = BufWriter::new(target);
    write(&mut writer)?;
    writer.flush()
}

fn cannot_write(name: &Path, error: io::Error) -> Failure {
    let name = if is_standard_output(name) { "the standard output".into() } else { name.display().to_string() };
    Failure::CannotWrite { name, error }
}
