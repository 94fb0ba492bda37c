//! Why a job or a join got no result.

use crate::shortest;
use std::fmt;

/// A numbered refusal of the library, with the double that is reported with it.
#[derive(Clone, Copy, Debug)]
pub struct Refusal {
    pub number: u32,
    pub value: f64,
}

struct Meaning {
    number: u32,
    wrong: &'static str,
    /// What the double is, or nothing where it tells nothing.
    value: &'static str,
    change: &'static str,
}

const fn meaning(number: u32, wrong: &'static str, value: &'static str, change: &'static str) -> Meaning {
    Meaning { number, wrong, value, change }
}

/// In the order of their numbers; 23 is not used.
const MEANINGS: [Meaning; 39] = [
    meaning(
        1,
        "the matrix has no rows, or there are not n + 1 row starts",
        "number of row starts",
        "give n + 1 row starts for a matrix of n rows, n at least 1",
    ),
    meaning(
        2,
        "columns and entries differ in number, or the last row start is not their number",
        "number of entries",
        "give one column for each entry, and end the row starts with the number of entries",
    ),
    meaning(3, "the matrix has more than 1,000,000 rows or 16,777,216 entries", "", "take a coarser model"),
    meaning(4, "a row starts after the next one", "the row, counted from 0", "let the row starts rise"),
    meaning(5, "a column is n or more", "the column", "count columns from 0 to n - 1"),
    meaning(
        6,
        "an entry of the matrix, or the sum of two in a join, is infinite or not a number",
        "the entry or sum",
        "give finite entries, and to a join entries whose sum is finite",
    ),
    meaning(7, "the mass does not have one number for each row", "how many it has", "give n masses for a matrix of n rows"),
    meaning(8, "a mass is infinite, not a number, or not above 0", "the mass", "give finite masses above 0"),
    meaning(
        9,
        "there is a mass, or the matrix is transposed, and the first row start is not 0",
        "",
        "leave out the entries before the first row, and let the row starts begin with 0",
    ),
    meaning(
        10,
        "the sizes of a row's entries, divided by its mass, have no finite sum",
        "the sum",
        "take other units, in which the entries are lower or the masses higher",
    ),
    meaning(
        11,
        "the sizes of a row's entries have no finite sum, or transposed of a column's, each divided by its row's mass if there is one",
        "the sum",
        "take other units, in which the entries are lower or the masses higher",
    ),
    meaning(12, "there are not 1 to 4 vectors", "how many there are", "give w_0 and at most three more"),
    meaning(13, "the index of the phi-function is above 3", "the index", "ask for phi_0 to phi_3"),
    meaning(14, "tau is negative, infinite or not a number", "tau", "give a finite time of 0 or more"),
    meaning(15, "the output has the wrong length", "its length", "lend n numbers, for a batch (p + 1) * n"),
    meaning(
        16,
        "the vectors have the wrong length",
        "their length",
        "give n numbers in each vector for a matrix of n rows; to a paused run rows and vectors as at its start, to stages just those they count",
    ),
    meaning(17, "a number in a vector is infinite or not a number", "the number", "give finite vectors"),
    meaning(18, "tol is not strictly between 0 and 1", "tol", "take 1e-10, say"),
    meaning(19, "no substep is allowed", "", "allow at least one; 100,000 will do for most jobs"),
    meaning(
        20,
        "a substep has more than 128 columns, or more than 1,000,000 substeps are allowed",
        "",
        "take an m of at most 128 (40, say) and a limit of at most 1,000,000",
    ),
    meaning(
        21,
        "tau^k times the largest size in w_k, summed over k from 1, is not finite",
        "the sum",
        "shorten tau, or scale all vectors down: the answer scales with them",
    ),
    meaning(
        22,
        "tau^k, scaled for a w_k whose numbers are all close to 0, is not finite",
        "",
        "scale all vectors up (the answer scales with them), or give 0 for such numbers",
    ),
    meaning(24, "tau times the norm of the generator is not finite", "the schedule's argument", "shorten tau, or check its units"),
    meaning(
        25,
        "Taylor has no plan up to the highest degree: it would need more than 4,294,967,295 sweeps",
        "the schedule's argument",
        "raise the highest degree if it is low, shorten tau, check its units, or take the Krylov solver",
    ),
    meaning(
        26,
        "the working memory is too short, or the field of a paused run has the wrong length",
        "",
        "lend as many doubles as the size functions say",
    ),
    meaning(
        27,
        "the limit of substeps is used up before tau is reached",
        "estimated error so far, of the scaled start",
        "raise the limit or m (a higher m makes longer substeps), or take the Taylor solver, whose work is known beforehand",
    ),
    meaning(
        28,
        "eleven step lengths were rejected in one substep",
        "error allowed, of the scaled start",
        "take another m (60, say; a lower one may do too), or the Taylor solver; tol is seldom the reason",
    ),
    meaning(
        29,
        "the small exponential of a substep has no plan",
        "its argument",
        "shorten tau, check its units, or take the Taylor solver",
    ),
    meaning(
        30,
        "a buffer for the transposed matrix is too short",
        "",
        "lend n + 1 row starts, and a column and an entry for each entry of the matrix",
    ),
    meaning(
        31,
        "the paused run has ended, or no run waits on the unit",
        "",
        "take the field that the run left, or start another one",
    ),
    meaning(
        32,
        "the unit has sixteen unfinished runs",
        "",
        "let one of them end, or take a second unit",
    ),
    meaning(
        33,
        "the highest degree is not from 1 to 30",
        "",
        "take 30, or a lower one if high degrees lose digits: 25 costs about 1.2 times the products of 30, 20 about 1.6 times",
    ),
    meaning(
        34,
        "barrel and mount differ in their number of rows",
        "",
        "model both over the same rows, a row without entries for each that one lacks",
    ),
    meaning(
        35,
        "columns in a row do not rise strictly",
        "",
        "order the entries of each row by column, in barrel and mount, and add up those that repeat",
    ),
    meaning(
        36,
        "a slice for the result of a join is too short",
        "",
        "lend n + 1 row starts, and columns and entries for every place that barrel or mount holds",
    ),
    meaning(
        37,
        "the schedule does not have 1 to 64 stages, or its lists differ in length",
        "",
        "give 1 to 64 stages, and a number for each stage in every list; a longer schedule goes on from the field of the one before",
    ),
    meaning(
        38,
        "the window is not 1 to 1,024 records, or the node is not a row of the matrix",
        "",
        "take a window of 1 to 1,024 records, and for the node a row of the matrix",
    ),
    meaning(
        39,
        "the log does not have 1 to 100,000 records, or durations and levels differ in number",
        "",
        "give 1 to 100,000 records, each with a duration and a level; a longer log goes on from the field of the one before",
    ),
    meaning(
        40,
        "a slice for the results of a log has fewer places than there are records",
        "",
        "lend as many temperatures, largest and smallest as there are records",
    ),
];

/// The library is proved to answer no other number.
const UNKNOWN: Meaning = meaning(0, "a number that the library does not have", "", "check that header and library belong together");

impl Refusal {
    fn meaning(&self) -> &'static Meaning {
        MEANINGS.iter().find(|m| m.number == self.number).unwrap_or(&UNKNOWN)
    }

    /// What is wrong.
    pub fn wrong(&self) -> &'static str {
        self.meaning().wrong
    }

    /// Whether the library has this number.
    pub fn is_known(&self) -> bool {
        self.meaning().number != UNKNOWN.number
    }

    /// What the double is; nothing where it tells nothing.
    pub fn value_is(&self) -> Option<&'static str> {
        Some(self.meaning().value).filter(|is| !is.is_empty())
    }

    /// What the double is, and the double; nothing where it tells nothing.
    pub fn told(&self) -> Option<String> {
        self.value_is().map(|is| format!("{is}: {}", shortest(self.value)))
    }

    /// What to change.
    pub fn change(&self) -> &'static str {
        self.meaning().change
    }

    /// Whether a run was begun, so that the output holds the state after the last accepted substep (27 to 29).
    pub fn leaves_state(&self) -> bool {
        (27..=29).contains(&self.number)
    }
}

impl fmt::Display for Refusal {
    fn fmt(&self, f: &mut fmt::Formatter) -> fmt::Result {
        write!(f, "refused ({}): {}", self.number, self.wrong())?;
        if let Some(told) = self.told() {
            write!(f, " ({told})")?;
        }
        write!(f, "; {}", self.change())
    }
}

impl std::error::Error for Refusal {}

/// A call without a result.
#[derive(Clone, Debug)]
pub enum Error {
    /// `state` is what a run that was begun has left (27 to 29): the field after the last accepted substep.
    Refused { refusal: Refusal, state: Option<Vec<f64>> },
    /// The job is within the library's limits, but this many doubles are not to be had.
    OutOfMemory { doubles: usize },
}

impl Error {
    pub fn refusal(&self) -> Option<Refusal> {
        match self {
            Error::Refused { refusal, .. } => Some(*refusal),
            Error::OutOfMemory { .. } => None,
        }
    }

    /// The field after the last accepted substep of a run that was begun.
    pub fn state(&self) -> Option<&[f64]> {
        match self {
            Error::Refused { state, .. } => state.as_deref(),
            Error::OutOfMemory { .. } => None,
        }
    }
}

impl fmt::Display for Error {
    fn fmt(&self, f: &mut fmt::Formatter) -> fmt::Result {
        match self {
            Error::Refused { refusal, .. } => refusal.fmt(f),
            Error::OutOfMemory { doubles } => write!(f, "no memory for {doubles} doubles"),
        }
    }
}

impl std::error::Error for Error {}
