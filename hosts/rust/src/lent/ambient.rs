//! A soak under a changing ambient level on memory that the caller lends.
//!
//! Where all records have results `out` is the field after the last one, and the needed length of `work` holds +0. A temperature that is NaN
//! ends the work: `out` is the field after that record, and `work` is cleared in the same way. A refusal before any record (1 to 11, 15 to 17
//! and 38 to 40), or at record 1, changes nothing; at a later record `out` is the field after the one before it, and the needed length of `work`
//! holds +0. The slices for the results get a number for each record before the one that is named, or for all; their other places are
//! unchanged.

use super::call;
use crate::{sys, Log, Matrix, Refusal};
use std::fmt;

/// Places for the results, at least as many in each as there are records.
#[derive(Debug)]
pub struct Results<'a> {
    /// The node's temperature after each record.
    pub temperatures: &'a mut [f64],
    /// The largest and the smallest among the last of these.
    pub largest: &'a mut [f64],
    pub smallest: &'a mut [f64],
}

/// How a log ended that is not refused.
#[derive(Clone, Copy, Debug, PartialEq, Eq)]
pub enum End {
    /// All records have results.
    Done,
    /// After this record, from 1, the node's temperature is NaN.
    NotANumber(u32),
}

/// A refusal, and the record that it refuses, from 1; 0 before any record.
#[derive(Clone, Copy, Debug)]
pub struct Refused {
    pub refusal: Refusal,
    pub record: u32,
}

impl Refused {
    /// Whether `out` holds a field, which is that after the record before.
    pub fn leaves_field(&self) -> bool {
        self.record > 1
    }

    /// How many records have results.
    pub fn results(&self) -> usize {
        (self.record as usize).saturating_sub(1)
    }
}

impl fmt::Display for Refused {
    fn fmt(&self, f: &mut fmt::Formatter) -> fmt::Result {
        match self.record {
            0 => self.refusal.fmt(f),
            record => write!(f, "record {record} {}", self.refusal),
        }
    }
}

impl std::error::Error for Refused {}

/// Runs the records in order, from `field`, each with `load` times its level for w_1. [`crate::sizes::ambient_work`] says how long `work` has
/// to be.
#[allow(clippy::too_many_arguments)]
pub fn ambient(
    a: &Matrix,
    log: &Log,
    field: &[f64],
    load: &[f64],
    window: usize,
    node: usize,
    out: &mut [f64],
    work: &mut [f64],
    results: Results,
) -> Result<End, Refused> {
    let Results { temperatures, largest, smallest } = results;
    let (mut value, mut record) = (0.0, 0);
    let number = call!(
        hazhendu_ambient,
        a,
        log.durations.as_ptr(),
        log.durations.len(),
        log.levels.as_ptr(),
        log.levels.len(),
        field.as_ptr(),
        field.len(),
        load.as_ptr(),
        load.len(),
        window,
        node,
        out.as_mut_ptr(),
        out.len(),
        work.as_mut_ptr(),
        work.len(),
        temperatures.as_mut_ptr(),
        temperatures.len(),
        largest.as_mut_ptr(),
        largest.len(),
        smallest.as_mut_ptr(),
        smallest.len(),
        &mut value,
        &mut record,
    );
    match (number, record) {
        (0, 0) => Ok(End::Done),
        (0, record) => Ok(End::NotANumber(record)),
        _ => Err(Refused { refusal: Refusal { number, value }, record }),
    }
}
