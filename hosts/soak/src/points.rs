//! The files of a geometry: a place for each row, and the parts to be outlined.

use crate::arguments::Drawing;
use crate::failure::Failure;
use crate::input::Source;
use crate::plot::geometry::{Cell, Part};
use crate::plot::Geometry;
use hazhendu::sizes::MAX_ROWS;

/// A line's numbers, and what stands behind them.
struct Line {
    number: usize,
    values: Vec<f64>,
    rest: String,
}

/// Of a drawing's files, if it has them.
pub fn of(drawing: &Drawing, rows: usize, matrix: &Source) -> Result<Option<Geometry>, Failure> {
    drawing.points.as_ref().map(|points| read(points, drawing.outline.as_ref(), rows, matrix)).transpose()
}

/// Across and up: of r and z, z lies across, as lenses are drawn.
fn read(points: &Source, outline: Option<&Source>, rows: usize, matrix: &Source) -> Result<Geometry, Failure> {
    let (names, lines) = table(points)?;
    let names = names.filter(|names| [2, 4].contains(&names.len())).unwrap_or_else(|| vec!["x".into(), "y".into()]);
    let (first, second) = (names[0].clone(), names[names.len() / 2].clone());
    let revolved = first.to_lowercase().starts_with('r') && second.to_lowercase().starts_with('z');
    let cells = lines.iter().map(|line| cell(points, line, revolved)).collect::<Result<Vec<_>, _>>()?;
    if cells.len() != rows {
        let wrong = format!("{} lines with places, {matrix} has {rows} rows", cells.len());
        return Err(Failure::BadFile { place: points.to_string(), wrong });
    }
    let parts = outline.map_or(Ok(vec![]), |source| parts(source, revolved))?;
    let (across, up) = if revolved { (second, first) } else { (first, second) };
    Ok(Geometry { across: plain(&across), up: plain(&up), revolved, cells, parts })
}

/// Of boxes, the names are of their beginnings: r0 is r.
fn plain(name: &str) -> String {
    name.replacen('0', "", 1).replace('/', ", ")
}

fn cell(source: &Source, line: &Line, revolved: bool) -> Result<Cell, Failure> {
    match line.values[..] {
        [a, b] if line.rest.is_empty() => Ok(Cell::Point(if revolved { [b, a] } else { [a, b] })),
        [a, b, c, d] if line.rest.is_empty() => Ok(Cell::Box(if revolved { [[c, d], [a, b]] } else { [[a, b], [c, d]] })),
        _ => Err(bad(source, line, "not two numbers (x y, or r z) or four (from and to of each)")),
    }
}

fn parts(source: &Source, revolved: bool) -> Result<Vec<Part>, Failure> {
    let (_, lines) = table(source)?;
    let part = |line: &Line| match line.values[..] {
        [a, b, c, d] => {
            let (across, up) = if revolved { ([c, d], [a, b]) } else { ([a, b], [c, d]) };
            Ok(Part { name: line.rest.clone(), across, up })
        }
        _ => Err(bad(source, line, "not four numbers (from and to of x and y, or of r and z) and a name")),
    };
    lines.iter().map(part).collect()
}

fn bad(source: &Source, line: &Line, wrong: &str) -> Failure {
    Failure::BadFile { place: format!("{source}:{}", line.number), wrong: wrong.into() }
}

/// The lines of numbers between blanks or commas, at most four in each, and what stands behind them; before them, perhaps as a comment, the
/// names of the columns.
fn table(source: &Source) -> Result<(Option<Vec<String>>, Vec<Line>), Failure> {
    let (mut names, mut lines) = (None, vec![]);
    source.each_line(|number, text| {
        let words: Vec<&str> = text.trim_start_matches(['#', '%']).split([' ', '\t', ',']).filter(|word| !word.is_empty()).collect();
        let values: Vec<f64> = words.iter().take(4).map_while(|word| word.parse().ok()).collect();
        let heading = text.starts_with(['#', '%']) || (values.is_empty() && lines.is_empty());
        if heading && lines.is_empty() && names.is_none() && !words.is_empty() {
            names = Some(words.into_iter().map(str::to_owned).collect());
        } else if !heading && !words.is_empty() {
            let line = Line { number, rest: words[values.len()..].join(" "), values };
            if lines.len() == MAX_ROWS {
                return Err(bad(source, &line, "more lines than a matrix may have rows"));
            }
            if line.values.is_empty() || line.values.iter().any(|value| !value.is_finite()) {
                return Err(bad(source, &line, "not finite numbers"));
            }
            lines.push(line);
        }
        Ok(())
    })?;
    Ok((names, lines))
}
