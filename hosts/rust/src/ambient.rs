//! A soak under a changing ambient level, with a window: a logger's records over one matrix.

use crate::lent::ambient::{self as lent, End, Refused, Results};
use crate::sizes::{self, MAX_RECORDS};
use crate::{zeros, Error, Matrix, Refusal};
use std::fmt;

/// A logger's records, 1 to 100,000: a duration and an ambient level of each.
#[derive(Clone, Copy, Debug, Default, PartialEq)]
pub struct Log<'a> {
    pub durations: &'a [f64],
    pub levels: &'a [f64],
}

/// A log whose records all have results, or up to a record after which the node's temperature is NaN.
#[derive(Clone, Debug, Default, PartialEq)]
pub struct Logged {
    /// After the last record, or after that with the NaN.
    pub field: Vec<f64>,
    /// The node's temperature after each record that has a result.
    pub temperatures: Vec<f64>,
    /// The largest and the smallest among the last of these, as many as the window has, fewer at the start. 0 is +0.
    pub largest: Vec<f64>,
    pub smallest: Vec<f64>,
    /// The record, from 1, after which the node's temperature is NaN; it and later ones have no result.
    pub not_a_number: Option<usize>,
}

/// A log that is refused.
#[derive(Clone, Debug)]
pub enum AmbientError {
    Refused {
        refusal: Refusal,
        /// Which record, from 1; 0 where matrix, field, load, window or log as a whole are refused.
        record: u32,
        /// Of the records before it.
        temperatures: Vec<f64>,
        largest: Vec<f64>,
        smallest: Vec<f64>,
        /// The field after the record before; none where no record was run.
        field: Option<Vec<f64>>,
    },
    /// The job is within the library's limits, but this many doubles are not to be had.
    OutOfMemory { doubles: usize },
}

impl AmbientError {
    pub fn refusal(&self) -> Option<Refusal> {
        match self {
            AmbientError::Refused { refusal, .. } => Some(*refusal),
            AmbientError::OutOfMemory { .. } => None,
        }
    }

    /// Which record, from 1; 0 where none was reached.
    pub fn record(&self) -> u32 {
        match self {
            AmbientError::Refused { record, .. } => *record,
            AmbientError::OutOfMemory { .. } => 0,
        }
    }

    /// The field after the record before.
    pub fn field(&self) -> Option<&[f64]> {
        match self {
            AmbientError::Refused { field, .. } => field.as_deref(),
            AmbientError::OutOfMemory { .. } => None,
        }
    }
}

impl fmt::Display for AmbientError {
    fn fmt(&self, f: &mut fmt::Formatter) -> fmt::Result {
        match self {
            AmbientError::Refused { refusal, record, .. } => Refused { refusal: *refusal, record: *record }.fmt(f),
            AmbientError::OutOfMemory { doubles } => Error::OutOfMemory { doubles: *doubles }.fmt(f),
        }
    }
}

impl std::error::Error for AmbientError {}

impl From<Error> for AmbientError {
    fn from(error: Error) -> Self {
        match error {
            Error::Refused { refusal, .. } => {
                AmbientError::Refused { refusal, record: 0, temperatures: vec![], largest: vec![], smallest: vec![], field: None }
            }
            Error::OutOfMemory { doubles } => AmbientError::OutOfMemory { doubles },
        }
    }
}

/// Runs a logger's records in order by Taylor, from `field`: w_1 of each is `load` times its level, entry by entry, and the field after one is
/// w_0 of the next, as if each were a single call of [`phi_combination`](crate::phi_combination). For one node, a row from 0, it shows the
/// temperature after each record, and the largest and the smallest among the last `window` of these, 1 to 1,024.
///
/// A temperature that is NaN ends the work, and is told by [`Logged::not_a_number`]: that is no error.
///
/// ```
/// use hazhendu::{ambient, Log, Matrix};
///
/// // Two bodies of 8 J/K, joined by 0.5 W/K; the second loses 0.1 W/K to the room, whose temperature is logged every ten minutes.
/// let a = Matrix::new(2, &[0, 2, 4], &[0, 1, 0, 1], &[0.5, -0.5, -0.5, 0.6]).with_mass(&[8.0, 8.0]);
/// let load = [0.0, 0.1 / 8.0];
/// let log = Log { durations: &[600.0; 4], levels: &[20.0, 22.0, 19.0, 20.0] };
/// let logged = ambient(&a, &log, &[20.0, 20.0], &load, 3, 0)?;
/// assert_eq!((logged.temperatures.len(), logged.not_a_number), (4, None));
/// assert!(logged.largest[3] > logged.smallest[3]);
/// # Ok::<(), hazhendu::AmbientError>(())
/// ```
pub fn ambient(a: &Matrix, log: &Log, field: &[f64], load: &[f64], window: usize, node: usize) -> Result<Logged, AmbientError> {
    // What the library refuses for its length needs no places.
    let records = if log.durations.len() > MAX_RECORDS { 0 } else { log.durations.len() };
    let mut out = zeros(sizes::output(a.n, 0))?;
    let mut work = zeros(sizes::ambient_work(a.n, a.entries.len(), a.mass.is_some()))?;
    let (mut temperatures, mut largest, mut smallest) = (zeros(records)?, zeros(records)?, zeros(records)?);
    let results = Results { temperatures: &mut temperatures, largest: &mut largest, smallest: &mut smallest };
    let ended = lent::ambient(a, log, field, load, window, node, &mut out, &mut work, results);
    let shown = match ended {
        Ok(End::Done) => records,
        Ok(End::NotANumber(record)) => record as usize - 1,
        Err(refused) => refused.results(),
    };
    for list in [&mut temperatures, &mut largest, &mut smallest] {
        list.truncate(shown);
    }
    match ended {
        Ok(end) => {
            let not_a_number = match end {
                End::Done => None,
                End::NotANumber(record) => Some(record as usize),
            };
            Ok(Logged { field: out, temperatures, largest, smallest, not_a_number })
        }
        Err(refused) => {
            let Refused { refusal, record } = refused;
            let field = refused.leaves_field().then_some(out);
            Err(AmbientError::Refused { refusal, record, temperatures, largest, smallest, field })
        }
    }
}
