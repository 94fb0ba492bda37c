//! Tables with commas, a line a stage or a barrel, whose first line names the columns.

use crate::failure::Failure;
use crate::input::Source;
use std::path::{Path, PathBuf};
use std::str::FromStr;

pub struct Table {
    /// The columns that a first line may name, in any order.
    pub columns: &'static [&'static str],
    /// Those that it has to name.
    pub needed: &'static [&'static str],
    /// More lines than this are not read.
    pub most: usize,
    /// What is told then.
    pub too_many: &'static str,
}

/// Blank lines and lines that begin with # or % are skipped; the first other line names the columns.
pub fn read<T>(source: &Source, table: &Table, take: impl Fn(&Row) -> Result<T, Failure>) -> Result<Vec<T>, Failure> {
    let mut columns: Option<Vec<usize>> = None;
    let mut taken = Vec::new();
    source.each_line(|number, line| {
        if line.is_empty() || line.starts_with(['#', '%']) {
            return Ok(());
        }
        let place = format!("{source}:{number}");
        let wrong = |wrong: String| Failure::BadFile { place: place.clone(), wrong };
        let cells: Vec<&str> = line.split(',').map(str::trim).collect();
        match &columns {
            None => columns = Some(table.named(&cells).map_err(wrong)?),
            Some(_) if taken.len() == table.most => return Err(wrong(table.too_many.into())),
            Some(columns) if cells.len() != columns.len() => {
                return Err(wrong(format!("{} cells, and {} columns are named", cells.len(), columns.len())));
            }
            Some(columns) => taken.push(take(&Row { table, source, place: &place, columns, cells: &cells })?),
        }
        Ok(())
    })?;
    match columns {
        Some(_) => Ok(taken),
        None => {
            let wrong = format!("no line that names the columns: {}", table.columns.join(","));
            Err(Failure::BadFile { place: format!("{source}:1"), wrong })
        }
    }
}

impl Table {
    fn named(&self, cells: &[&str]) -> Result<Vec<usize>, String> {
        let place = |cell: &&str| {
            let found = self.columns.iter().position(|column| column == cell);
            found.ok_or_else(|| format!("{cell:?} is not a column; there are {}", self.columns.join(",")))
        };
        let columns: Vec<usize> = cells.iter().map(place).collect::<Result<_, _>>()?;
        if let Some(i) = (1..columns.len()).find(|i| columns[..*i].contains(&columns[*i])) {
            return Err(format!("the column {} is named twice", cells[i]));
        }
        match self.needed.iter().find(|needed| !cells.contains(needed)) {
            None => Ok(columns),
            Some(missing) => Err(format!("no column {missing}")),
        }
    }
}

/// A line of a table.
pub struct Row<'a> {
    table: &'a Table,
    source: &'a Source,
    /// Where it stands, as FILE:LINE.
    pub place: &'a str,
    columns: &'a [usize],
    cells: &'a [&'a str],
}

impl<'a> Row<'a> {
    /// An empty cell is as good as none.
    pub fn cell(&self, name: &str) -> Option<&'a str> {
        let column = self.columns.iter().position(|column| self.table.columns[*column] == name)?;
        Some(self.cells[column]).filter(|cell| !cell.is_empty())
    }

    pub fn needed(&self, name: &str) -> Result<&'a str, Failure> {
        self.cell(name).ok_or_else(|| self.wrong(format!("no {name}")))
    }

    pub fn number<T: FromStr>(&self, name: &str, kind: &str) -> Result<Option<T>, Failure> {
        let read = |cell: &str| cell.parse().map_err(|_| self.wrong(format!("{name} {cell:?}: not {kind}")));
        self.cell(name).map(read).transpose()
    }

    /// FILE;FILE, of which each is looked for in the table's own folder.
    pub fn files(&self, name: &str, cell: &str) -> Result<Vec<Source>, Failure> {
        let files = cell.split(';').map(str::trim);
        files
            .map(|file| match file {
                "" => Err(self.wrong(format!("{name} {cell:?}: nothing before or after a ;"))),
                "-" => Err(self.wrong(format!("{name} -: the standard input cannot be named in a table"))),
                _ => Ok(self.file(file)),
            })
            .collect()
    }

    pub fn file(&self, name: &str) -> Source {
        Source(self.folder().join(name))
    }

    fn folder(&self) -> PathBuf {
        self.source.0.parent().unwrap_or(Path::new("")).to_owned()
    }

    pub fn wrong(&self, wrong: String) -> Failure {
        Failure::BadFile { place: self.place.to_owned(), wrong }
    }
}

/// A file that cannot be read is told with the line that names it.
pub fn named_at(place: &str, failure: Failure) -> Failure {
    match failure {
        Failure::CannotRead { name, error } => Failure::CannotRead { name: format!("{name}, which {place} names"), error },
        other => other,
    }
}
