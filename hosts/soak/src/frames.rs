//! The field on the way: one file after every K substeps, and a picture beside it if pictures are asked for.

use crate::failure::Failure;
use crate::sink::Sink;
use hazhendu::{shortest, vectors};
use std::fs;
use std::io;
use std::path::{Path, PathBuf};

#[derive(Clone, Debug, PartialEq)]
pub struct Frames {
    pub every: usize,
    pub folder: PathBuf,
}

impl Frames {
    /// The folder is made if it is not there, and has to be empty, so that nothing is written over and no frames of two runs mix.
    pub fn open(&self) -> Result<(), Failure> {
        let failed = |error| Failure::CannotWrite { name: self.folder.display().to_string(), error };
        match fs::create_dir(&self.folder) {
            Err(error) if error.kind() == io::ErrorKind::AlreadyExists => {}
            made => return made.map_err(failed),
        }
        match fs::read_dir(&self.folder).map_err(failed)?.next() {
            None => Sink::open(&self.path(0, "txt")).map(|_| ()),
            Some(_) => Err(failed(io::Error::new(io::ErrorKind::Other, "the folder of frames is not empty"))),
        }
    }

    pub fn is_due(&self, substeps: usize) -> bool {
        substeps > 0 && substeps % self.every == 0
    }

    /// A comment says what it is; as a vector it reads back.
    pub fn write(&self, substeps: usize, time: f64, tau: f64, field: &[f64], picture: Option<String>) -> Result<(), Failure> {
        Sink::open(&self.path(substeps, "txt"))?.fill(|to| {
            writeln!(to, "# the field after {substeps} substeps, at {} of tau {}", shortest(time), shortest(tau))?;
            vectors::write(to, field)
        })?;
        let Some(picture) = picture else { return Ok(()) };
        Sink::open(&self.path(substeps, "svg"))?.fill(|to| to.write_all(picture.as_bytes()))
    }

    /// Seven digits, which hold every number of substeps, so that names are in the order of time.
    fn path(&self, substeps: usize, kind: &str) -> PathBuf {
        Path::new(&self.folder).join(format!("field-{substeps:07}.{kind}"))
    }
}
