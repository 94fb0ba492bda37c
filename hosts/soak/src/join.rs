//! Barrel and mount as one matrix, and which file a refusal means.

use crate::failure::Failure;
use crate::model::{Files, Model};
use hazhendu::{join, Csr, Matrix, Refusal};
use std::path::PathBuf;

#[derive(Debug)]
pub struct Pair {
    pub barrel: Files,
    pub mount: Files,
    pub output: Option<PathBuf>,
}

pub struct Parts<'a> {
    pair: &'a Pair,
    barrel: Model<'a>,
    mount: Model<'a>,
}

impl<'a> Parts<'a> {
    /// A mount whose line of sizes is beyond the limits is refused as it is read; a barrel that is refused itself comes before it.
    pub fn read(pair: &'a Pair) -> Result<Self, Failure> {
        let barrel = Model::read(&pair.barrel)?;
        let mount = Model::read(&pair.mount).or_else(|failure| barrel.check().and(Err(failure)))?;
        Ok(Parts { pair, barrel, mount })
    }

    /// The library does not say which of the two a refusal means, so each is asked for its own answer, the barrel first.
    pub fn joined(&self) -> Result<Csr, Failure> {
        join(&self.barrel.matrix(), &self.mount.matrix()).or_else(|error| {
            self.barrel.check()?;
            self.mount.check()?;
            Err(self.barrel.failure(error, |refusal| self.place(refusal)))
        })
    }

    /// Where a refusal of the two together has its cause.
    fn place(&self, refusal: Refusal) -> Option<String> {
        let (barrel, mount) = (&self.pair.barrel.matrix, &self.pair.mount.matrix);
        match refusal.number {
            3 => Some(format!("{barrel} and {mount} together")),
            6 => self.infinite_sum().map(|(row, column)| format!("the sum of {barrel} and {mount}, row {row}, column {column}")),
            34 => Some(format!("{barrel} has {} rows, {mount} has {}", self.barrel.matrix().n, self.mount.matrix().n)),
            35 => self.barrel.first_not_rising().or_else(|| self.mount.first_not_rising()),
            _ => None,
        }
    }

    /// Row and column, from 1, of the first entry of both whose sum is not finite. Columns rise in each row.
    fn infinite_sum(&self) -> Option<(usize, u64)> {
        let (a, b) = (self.barrel.matrix(), self.mount.matrix());
        let row = |q: Matrix, i: usize| q.starts[i] as usize..q.starts[i + 1] as usize;
        (0..a.n).find_map(|i| {
            let of_mount = row(b, i);
            let infinite = |k: &usize| {
                let found = b.columns[of_mount.clone()].binary_search(&a.columns[*k]);
                found.is_ok_and(|place| !(a.entries[*k] + b.entries[of_mount.start + place]).is_finite())
            };
            row(a, i).find(infinite).map(|k| (i + 1, u64::from(a.columns[k]) + 1))
        })
    }

    pub fn cost_line(&self, joined: &Csr) -> String {
        let (barrel, mount) = (self.barrel.matrix().entries.len(), self.mount.matrix().entries.len());
        let entries = joined.entries.len();
        format!("join: rows {}, entries {entries}, {} of them sums", joined.n, barrel + mount - entries)
    }
}
