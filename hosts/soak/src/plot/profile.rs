//! A field over its rows.

use super::axis::{Frame, Scale};
use super::colour::NOT_FINITE;
use super::svg::{Anchor, Svg};
use super::Picture;
use std::fmt::Write;

pub const FRAME: Frame = Frame { left: 90.0, right: 740.0, top: 64.0, bottom: 340.0 };
/// Points that the curve has at most, two for each column of the picture.
const COLUMNS: usize = 640;
/// Up to so many rows each has a dot.
const DOTTED: usize = 60;

pub fn draw(picture: &Picture) -> String {
    let mut svg = Svg::new(760.0, 392.0, &picture.title, &picture.subtitle());
    let n = picture.field.len();
    let rows = Scale::rows(n);
    let scale = picture.scale().rounded();
    FRAME.across(&mut svg, &rows, "row");
    FRAME.up(&mut svg, &scale, &picture.label(), true);
    FRAME.border(&mut svg);
    gaps(&mut svg, picture.field, &rows);
    svg.path(
        &curve(picture.field, &rows, &scale),
        r##"stroke="#a50026" stroke-width="1.5" stroke-linecap="round" stroke-linejoin="round" fill="none""##,
    );
    if n <= DOTTED {
        svg.path(&dots(picture.field, &rows, &scale), r##"stroke="#a50026" stroke-width="5" stroke-linecap="round" fill="none""##);
    }
    if picture.summary.not_finite == n && n > 0 {
        let middle = (FRAME.top + FRAME.bottom) / 2.0 - 8.0;
        svg.label((FRAME.left + FRAME.right) / 2.0, middle, Anchor::Middle, "nothing to draw: no number is finite");
    }
    svg.end()
}

fn dots(field: &[f64], rows: &Scale, scale: &Scale) -> String {
    let finite = field.iter().enumerate().filter(|(_, value)| value.is_finite());
    finite.map(|(i, value)| format!("M{:.1} {:.1}h0", FRAME.x(rows, (i + 1) as f64), FRAME.y(scale, *value))).collect()
}

/// The blocks of rows that share a column of the picture.
fn blocks(field: &[f64]) -> impl Iterator<Item = (f64, &[f64])> {
    let width = field.len().div_ceil(COLUMNS).max(1);
    field.chunks(width).enumerate().map(move |(block, values)| ((block * width + 1) as f64, values))
}

/// What is not finite is a line from top to bottom, with a word on it.
fn gaps(svg: &mut Svg, field: &[f64], rows: &Scale) {
    let mut path = String::new();
    for (row, values) in blocks(field) {
        if values.iter().any(|value| !value.is_finite()) {
            let _ = write!(path, "M{:.1} {:.1}V{:.1}", FRAME.x(rows, row), FRAME.top, FRAME.bottom);
        }
    }
    if !path.is_empty() {
        let style = format!(r#"stroke="{NOT_FINITE}" stroke-opacity="0.6" stroke-width="2.5""#);
        svg.path(&path, &style);
        let (x, y) = (FRAME.right - 90.0, FRAME.bottom + 34.0);
        svg.path(&format!("M{x:.1} {:.1}v12", y - 6.0), &style);
        svg.label(x + 8.0, y + 4.0, Anchor::Start, "not finite");
    }
}

/// Of many values those of a column of the picture are shown by the least and the highest. What is not finite leaves a gap.
pub fn curve(field: &[f64], rows: &Scale, scale: &Scale) -> String {
    let mut path = String::new();
    let mut pen = 'M';
    for (row, values) in blocks(field) {
        if values.iter().any(|value| !value.is_finite()) {
            pen = 'M';
            continue;
        }
        let low = values.iter().copied().fold(f64::INFINITY, f64::min);
        let high = values.iter().copied().fold(f64::NEG_INFINITY, f64::max);
        let x = FRAME.x(rows, row);
        // With a round cap a line without length is a point: a value between two gaps is seen.
        let _ = write!(path, "{pen}{x:.1} {:.1}h0", FRAME.y(scale, low));
        pen = 'L';
        if high > low {
            let _ = write!(path, "L{x:.1} {:.1}", FRAME.y(scale, high));
        }
    }
    path
}
