//! The records of a log: a table with commas, a line a record.

use crate::failure::Failure;
use crate::input::Source;
use hazhendu::sizes::MAX_RECORDS;
use hazhendu::Log;

/// The columns that the first line has to name, in any order; others are not looked at.
const COLUMNS: [&str; 2] = ["duration", "level"];

pub struct Records {
    source: Source,
    durations: Vec<f64>,
    levels: Vec<f64>,
    lines: Vec<usize>,
    /// How many the file has; those beyond one more than the library takes are not kept.
    pub count: usize,
}

impl Records {
    /// Blank lines and lines that begin with # or % are skipped; the first other line names the columns.
    pub fn read(source: &Source) -> Result<Records, Failure> {
        let mut columns: Option<Columns> = None;
        let mut read = Records { source: source.clone(), durations: vec![], levels: vec![], lines: vec![], count: 0 };
        source.each_line(|number, line| {
            if line.is_empty() || line.starts_with(['#', '%']) {
                return Ok(());
            }
            let wrong = |wrong: String| Failure::BadFile { place: format!("{source}:{number}"), wrong };
            let cells: Vec<&str> = line.split(',').map(str::trim).collect();
            let Some(columns) = &columns else {
                columns = Some(Columns::named(&cells).map_err(wrong)?);
                return Ok(());
            };
            let [duration, level] = columns.numbers(&cells).map_err(wrong)?;
            read.count += 1;
            if read.count <= MAX_RECORDS + 1 {
                read.durations.push(duration);
                read.levels.push(level);
                read.lines.push(number);
            }
            Ok(())
        })?;
        match columns {
            Some(_) => Ok(read),
            None => Err(Failure::BadFile {
                place: format!("{source}:1"),
                wrong: format!("no line that names the columns: {}", COLUMNS.join(",")),
            }),
        }
    }

    pub fn log(&self) -> Log<'_> {
        Log { durations: &self.durations, levels: &self.levels }
    }

    /// Some of them, from 0.
    pub fn part(&self, from: usize, to: usize) -> Log<'_> {
        Log { durations: &self.durations[from..to], levels: &self.levels[from..to] }
    }

    /// Where record i stands, from 0, as FILE:LINE.
    pub fn place(&self, i: usize) -> String {
        format!("{}:{}", self.source, self.lines[i])
    }
}

/// Where duration and level stand in a line, and how many cells it has.
struct Columns {
    places: [usize; 2],
    cells: usize,
}

impl Columns {
    fn named(cells: &[&str]) -> Result<Columns, String> {
        let mut places = [0; 2];
        for (name, place) in COLUMNS.iter().zip(&mut places) {
            let found: Vec<usize> = (0..cells.len()).filter(|i| cells[*i] == *name).collect();
            *place = match found[..] {
                [one] => one,
                [] => return Err(format!("no column {name}; the first line names {}", COLUMNS.join(" and "))),
                _ => return Err(format!("the column {name} is named twice")),
            };
        }
        Ok(Columns { places, cells: cells.len() })
    }

    fn numbers(&self, cells: &[&str]) -> Result<[f64; 2], String> {
        if cells.len() != self.cells {
            return Err(format!("{} cells, and {} columns are named", cells.len(), self.cells));
        }
        let mut numbers = [0.0; 2];
        for ((name, place), number) in COLUMNS.iter().zip(self.places).zip(&mut numbers) {
            *number = cells[place].parse().map_err(|_| format!("{name} {:?}: not a number", cells[place]))?;
        }
        Ok(numbers)
    }
}
