//! The matrix and its mass as the files hold them, and where in the files a refusal has its cause.

use crate::failure::Failure;
use crate::input::{Source, Vector};
use hazhendu::sizes::MAX_ROWS;
use hazhendu::{check, transposed, Csr, Error, Largest, Matrix, Refusal};

#[derive(Clone, Debug)]
pub struct Files {
    pub matrix: Source,
    pub mass: Option<Source>,
    /// Whether the generator is transposed.
    pub transposed: bool,
}

impl Files {
    pub fn sources(&self) -> impl Iterator<Item = &Source> {
        std::iter::once(&self.matrix).chain(&self.mass)
    }

    pub fn bare(matrix: Source) -> Self {
        Files { matrix, mass: None, transposed: false }
    }
}

pub struct Model<'a> {
    files: &'a Files,
    csr: Csr,
    mass: Option<Vector>,
}

impl<'a> Model<'a> {
    pub fn read(files: &'a Files) -> Result<Self, Failure> {
        let csr = files.matrix.matrix()?;
        let mass = files.mass.as_ref().map(Source::vector).transpose()?;
        Ok(Model { files, csr, mass })
    }

    pub fn matrix(&self) -> Matrix<'_> {
        let bare = self.csr.matrix();
        self.mass.as_ref().map_or(bare, |mass| bare.with_mass(&mass.numbers))
    }

    pub fn mass(&self) -> Option<&[f64]> {
        self.mass.as_ref().map(|mass| mass.numbers.as_slice())
    }

    pub fn check(&self) -> Result<Largest, Failure> {
        let check = if self.files.transposed { transposed::check } else { check };
        check(&self.matrix()).map_err(|error| self.failure(error, |refusal| self.place(refusal)))
    }

    pub fn failure(&self, error: Error, place: impl FnOnce(Refusal) -> Option<String>) -> Failure {
        match error {
            Error::Refused { refusal, state } => Failure::Refused { refusal, place: place(refusal), state },
            Error::OutOfMemory { doubles } => Failure::OutOfMemory { doubles },
        }
    }

    /// The sums of the sizes whose largest is the norm.
    pub fn sums(&self) -> Vec<f64> {
        self.sums_of(self.files.transposed)
    }

    /// The sum of the sizes in each row, or column, each divided by its row's mass, as the library adds them up. Of a matrix whose rows
    /// and columns the library has accepted.
    fn sums_of(&self, of_columns: bool) -> Vec<f64> {
        let Matrix { n, starts, columns, entries, mass } = self.matrix();
        let mut sums = vec![0.0; n];
        for row in 0..n {
            let divisor = mass.map_or(1.0, |mass| mass[row]);
            for k in starts[row] as usize..starts[row + 1] as usize {
                let line = if of_columns { columns[k] as usize } else { row };
                sums[line] += (entries[k] / divisor).abs();
            }
        }
        sums
    }

    /// What the norm is the largest sum of.
    pub fn line(&self) -> &'static str {
        if self.files.transposed {
            "column"
        } else {
            "row"
        }
    }

    /// Where a refusal of the matrix or its mass has its cause.
    pub fn place(&self, refusal: Refusal) -> Option<String> {
        match refusal.number {
            1 | 3..=6 => Some(format!("{}{}", self.files.matrix, self.infinite_entry())),
            10 | 11 => Some(format!("{}{}", self.files.matrix, self.infinite_sum())),
            7 | 8 => self.mass_place(refusal.number),
            _ => None,
        }
    }

    fn infinite_entry(&self) -> String {
        let place = self.csr.entries.iter().position(|entry| !entry.is_finite());
        place.map_or(String::new(), |place| format!(", {}", self.row_and_column(place)))
    }

    /// A row of the matrix itself is refused before a column of the transposed one.
    fn infinite_sum(&self) -> String {
        let first = |of_columns: bool| self.sums_of(of_columns).iter().position(|sum| !sum.is_finite());
        match (first(false), first(true)) {
            (Some(row), _) => format!(", row {}", row + 1),
            (None, Some(column)) => format!(", column {}", column + 1),
            (None, None) => String::new(),
        }
    }

    /// Of the entry at a place, as the file counts them.
    fn row_and_column(&self, place: usize) -> String {
        let Csr { n, starts, columns, .. } = &self.csr;
        let row = (0..*n).find(|i| place < starts[i + 1] as usize).map_or(0, |i| i + 1);
        format!("row {row}, column {}", u64::from(columns[place]) + 1)
    }

    /// The first entry of a row whose column does not rise above the one before it, in this file's words.
    pub fn first_not_rising(&self) -> Option<String> {
        let Csr { n, starts, columns, .. } = &self.csr;
        let mut behind_others = (0..*n).flat_map(|i| starts[i] as usize + 1..starts[i + 1] as usize);
        let place = behind_others.find(|k| columns[*k] <= columns[k - 1])?;
        let before = u64::from(columns[place - 1]) + 1;
        Some(format!("{}, {} behind column {before}", self.files.matrix, self.row_and_column(place)))
    }

    fn mass_place(&self, number: u32) -> Option<String> {
        let mass = self.mass.as_ref()?;
        match number {
            7 => Some(self.length_told(mass)),
            _ => mass.first(|x| !(x.is_finite() && x > 0.0)),
        }
    }

    pub fn length_told(&self, Vector { source, numbers, .. }: &Vector) -> String {
        let more = if numbers.len() > MAX_ROWS { " or more" } else { "" };
        format!("{source} has {}{more} numbers, {} has {} rows", numbers.len(), self.files.matrix, self.csr.n)
    }
}
