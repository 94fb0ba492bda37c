//! Why the command ends without a field, and its status.

use crate::progress::percent;
use crate::steps::Stopped;
use hazhendu::{shortest, Refusal};
use std::fmt;
use std::io;

#[derive(Debug)]
pub enum Failure {
    Usage(String),
    /// A file whose contents are wrong, and where that shows, as FILE:LINE.
    BadFile {
        place: String,
        wrong: String,
    },
    CannotRead {
        name: String,
        error: io::Error,
    },
    OutOfMemory {
        doubles: usize,
    },
    CannotWrite {
        name: String,
        error: io::Error,
    },
    /// A refusal of the library; `place` says where in the files or options its cause is, if that is known, and `state` is what a run
    /// that was begun has left.
    Refused {
        refusal: Refusal,
        place: Option<String>,
        state: Option<Vec<f64>>,
    },
    /// The same of a soak in stages; the stage from 1, 0 before any.
    RefusedStage {
        refusal: Refusal,
        place: Option<String>,
        stage: usize,
    },
    /// The same of a soak under a changing level; the record from 1, 0 before any.
    RefusedRecord {
        refusal: Refusal,
        place: Option<String>,
        record: usize,
    },
    /// The temperature after a record is NaN; what there is is written.
    NotANumber(String),
    /// The field, which is written, holds numbers that are not finite.
    NotFinite(String),
    /// Of several barrels not all have a finite field at tau; what there is is written, and each is told.
    Barrels {
        /// That of the first of them.
        status: u8,
        told: String,
    },
    /// Ctrl-C between two substeps; the field so far is written.
    Stopped(Stopped),
}

impl Failure {
    pub fn refused(refusal: Refusal, place: Option<String>) -> Self {
        Failure::Refused { refusal, place, state: None }
    }

    /// A refusal's number is its status; the others are those of sysexits.h, beyond all refusals, and 80 to 82 behind those.
    pub fn status(&self) -> u8 {
        match self {
            Failure::Usage(_) => 64,
            Failure::BadFile { .. } => 65,
            Failure::CannotRead { .. } => 66,
            Failure::OutOfMemory { .. } => 71,
            Failure::CannotWrite { .. } => 74,
            Failure::NotFinite(_) => 80,
            Failure::Stopped(_) => 81,
            Failure::Barrels { status, .. } => *status,
            Failure::NotANumber(_) => 82,
            Failure::Refused { refusal, .. } | Failure::RefusedStage { refusal, .. } | Failure::RefusedRecord { refusal, .. } => {
                u8::try_from(refusal.number).unwrap_or(70)
            }
        }
    }

    /// Whoever closes the pipe that reads the field does not want to hear of it.
    pub fn is_quiet(&self) -> bool {
        matches!(self, Failure::CannotWrite { error, .. } if error.kind() == io::ErrorKind::BrokenPipe)
    }
}

impl fmt::Display for Failure {
    fn fmt(&self, f: &mut fmt::Formatter) -> fmt::Result {
        match self {
            Failure::Usage(wrong) => write!(f, "soak: {wrong}\nsoak --help tells how it is used"),
            Failure::NotFinite(told) | Failure::NotANumber(told) | Failure::Barrels { told, .. } => write!(f, "{told}"),
            Failure::Stopped(stopped) => stopped.fmt(f),
            Failure::BadFile { place, wrong } => write!(f, "{place}: {wrong}"),
            Failure::CannotRead { name, error } => write!(f, "soak: cannot read {name}: {error}"),
            Failure::OutOfMemory { doubles } => write!(f, "soak: no memory for {doubles} numbers"),
            Failure::CannotWrite { name, error } => write!(f, "soak: cannot write {name}: {error}"),
            Failure::Refused { refusal, place, .. } => refused(f, refusal, place, ""),
            Failure::RefusedStage { refusal, place, stage: 0 } => refused(f, refusal, place, ""),
            Failure::RefusedStage { refusal, place, stage } => refused(f, refusal, place, &format!(" at stage {stage}")),
            Failure::RefusedRecord { refusal, place, record: 0 } => refused(f, refusal, place, ""),
            Failure::RefusedRecord { refusal, place, record } => refused(f, refusal, place, &format!(" at record {record}")),
        }
    }
}

fn refused(f: &mut fmt::Formatter, refusal: &Refusal, place: &Option<String>, at: &str) -> fmt::Result {
    write!(f, "soak: refused ({}){at}: {}", refusal.number, refusal.wrong())?;
    if let Some(told) = refusal.told() {
        write!(f, "\n  {told}")?;
    }
    if let Some(place) = place {
        write!(f, "\n  where: {place}")?;
    }
    write!(f, "\n  what to change: {}", refusal.change())
}

impl fmt::Display for Stopped {
    fn fmt(&self, f: &mut fmt::Formatter) -> fmt::Result {
        let Stopped { time, tau, report, .. } = self;
        write!(
            f,
            "soak: stopped by Ctrl-C at {} % of tau, after {} substeps and {} applications",
            percent(*time),
            report.substeps,
            report.matvecs
        )?;
        write!(
            f,
            "\n  what is written is a paused state, the field at {} of tau {}, and not the field at tau",
            shortest(*time),
            shortest(*tau)
        )?;
        match self.rest() {
            Some(rest) => write!(f, "\n  to go on: it as the first --vector, and --tau {}", shortest(rest)),
            None => Ok(()),
        }
    }
}
