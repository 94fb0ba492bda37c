//! A field as a coloured map, with a scale.

use super::axis::{Frame, Scale};
use super::colour::{colour, shade, NOT_FINITE, SHADES};
use super::geometry::Part;
use super::svg::{closed, Anchor, Svg};
use super::{Geometry, Picture};

const LEFT: f64 = 80.0;
const TOP: f64 = 62.0;
/// The most room that the map may take.
const ROOM: [f64; 2] = [620.0, 420.0];
const LEAST_HEIGHT: f64 = 150.0;
/// Above so many cells, patches of a grid are drawn, each with the mean of its rows, about ten to a patch.
const MOST_CELLS: usize = 20_000;

/// The width of a letter of a part's name.
const LETTER: f64 = 6.3;
/// The key of parts whose names have no room: letters of a line, and its height.
const KEY_WIDTH: usize = 100;
const KEY_LINE: f64 = 15.0;

/// One cell of the map: its corners, and the value it shows.
type Patch = (Vec<[f64; 2]>, f64);

pub fn draw(picture: &Picture, geometry: &Geometry) -> String {
    let polygons = if picture.field.len() > MOST_CELLS { vec![] } else { geometry.polygons() };
    let places = || polygons.iter().flatten().copied().chain(geometry.corners());
    let (across, up) = (Scale::of(places().map(|p| p[0])), Scale::of(places().map(|p| p[1])));
    let (frame, per_unit) = fitted(&across, &up);
    let page = |[x, y]: [f64; 2]| (frame.left + (x - across.low) * per_unit[0], frame.bottom - (y - up.low) * per_unit[1]);
    let key = key(&geometry.parts, page);
    let mut svg = Svg::new(frame.right + 130.0, frame.bottom + 52.0 + KEY_LINE * key.len() as f64, &picture.title, &picture.subtitle());
    let scale = picture.scale();

    let drawn = match polygons.is_empty() {
        true => patches(picture.field, geometry, &across, &up),
        false => polygons.into_iter().zip(picture.field.iter().copied()).filter(|(corners, _)| !corners.is_empty()).collect(),
    };
    cells(&mut svg, drawn, &scale, page);
    outlines(&mut svg, &geometry.parts, page);
    if geometry.revolved && up.low <= 0.0 {
        let (_, y) = page([across.low, 0.0]);
        svg.path(
            &format!("M{:.1} {y:.1}H{:.1}", frame.left - 6.0, frame.right + 6.0),
            r#"stroke="black" stroke-width="0.8" stroke-dasharray="12 3 2 3""#,
        );
    }
    extremes(&mut svg, picture, geometry, page);
    frame.across(&mut svg, &across, &geometry.across);
    frame.up(&mut svg, &up, &geometry.up, false);
    scale_bar(&mut svg, picture, &frame, &scale);
    for (i, line) in key.iter().enumerate() {
        svg.push(&format!(
            r#"<text x="20" y="{:.1}" font-size="11">{}</text>"#,
            frame.bottom + 54.0 + KEY_LINE * i as f64,
            super::escaped(line)
        ));
    }
    svg.end()
}

/// Both axes have the same scale, unless the map would be a thread.
fn fitted(across: &Scale, up: &Scale) -> (Frame, [f64; 2]) {
    let size = [across.high - across.low, up.high - up.low];
    let one = (ROOM[0] / size[0]).min(ROOM[1] / size[1]);
    let drawn = [(size[0] * one).max(LEAST_HEIGHT), (size[1] * one).max(LEAST_HEIGHT.min(ROOM[1]))];
    let frame = Frame { left: LEFT, right: LEFT + drawn[0], top: TOP, bottom: TOP + drawn[1] };
    (frame, [drawn[0] / size[0], drawn[1] / size[1]])
}

/// The means of the rows in each patch of a grid.
fn patches(field: &[f64], geometry: &Geometry, across: &Scale, up: &Scale) -> Vec<Patch> {
    let rows = ((field.len() as f64 / 20.0).sqrt() as usize).clamp(1, 100);
    let counts = [2 * rows, rows];
    let mut sums = vec![(0.0, 0.0); counts[0] * counts[1]];
    for (middle, value) in geometry.middles().zip(field) {
        let index = |part: f64, count: usize| ((part * count as f64) as usize).min(count - 1);
        let place = index(up.part(middle[1]), counts[1]) * counts[0] + index(across.part(middle[0]), counts[0]);
        sums[place] = (sums[place].0 + value, sums[place].1 + 1.0);
    }
    let corners = |place: usize| {
        let x = |k: usize| across.at(k as f64 / counts[0] as f64);
        let y = |k: usize| up.at(k as f64 / counts[1] as f64);
        let (column, row) = (place % counts[0], place / counts[0]);
        vec![[x(column), y(row)], [x(column + 1), y(row)], [x(column + 1), y(row + 1)], [x(column), y(row + 1)]]
    };
    let held = sums.into_iter().enumerate().filter(|(_, (_, count))| *count > 0.0);
    held.map(|(place, (sum, count))| (corners(place), sum / count)).collect()
}

/// One path for each shade; a thin line of the same shade closes the seams.
fn cells(svg: &mut Svg, patches: Vec<Patch>, scale: &Scale, page: impl Fn([f64; 2]) -> (f64, f64)) {
    let mut paths = vec![String::new(); SHADES + 1];
    for (corners, value) in patches {
        let place = if value.is_finite() { shade(scale.part(value)) } else { SHADES };
        paths[place] += &closed(corners.into_iter().map(&page));
    }
    for (place, path) in paths.iter().enumerate().filter(|(_, path)| !path.is_empty()) {
        let colour = if place == SHADES { NOT_FINITE.into() } else { colour(place) };
        svg.path(path, &format!(r#"fill="{colour}" stroke="{colour}" stroke-width="0.6""#));
    }
}

/// A part as it lies on the page.
struct Outline<'a> {
    name: &'a str,
    left: f64,
    right: f64,
    top: f64,
    bottom: f64,
}

impl<'a> Outline<'a> {
    fn of(part: &'a Part, page: impl Fn([f64; 2]) -> (f64, f64)) -> Self {
        let (left, bottom) = page([part.across[0], part.up[0]]);
        let (right, top) = page([part.across[1], part.up[1]]);
        Outline { name: &part.name, left, right, top, bottom }
    }

    fn length(&self) -> f64 {
        LETTER * self.name.chars().count() as f64
    }

    fn is_wide(&self) -> bool {
        self.right - self.left > self.length() && self.bottom - self.top > 12.0
    }

    fn is_high(&self) -> bool {
        self.bottom - self.top > self.length() && self.right - self.left > 12.0
    }

    fn has_no_room(&self) -> bool {
        !self.name.is_empty() && !self.is_wide() && !self.is_high()
    }

    fn middle(&self) -> (f64, f64) {
        ((self.left + self.right) / 2.0, (self.top + self.bottom) / 2.0)
    }
}

/// A part's name in its middle, across where it is wide enough, upwards where it is high enough, else a number that the key has.
fn outlines(svg: &mut Svg, parts: &[Part], page: impl Fn([f64; 2]) -> (f64, f64)) {
    let halo = r#"font-size="11" text-anchor="middle" stroke="white" stroke-width="2.5" stroke-opacity="0.75" paint-order="stroke""#;
    let mut number = 0;
    for part in parts.iter().map(|part| Outline::of(part, &page)) {
        let Outline { left, right, top, bottom, .. } = part;
        svg.path(&closed([(left, bottom), (right, bottom), (right, top), (left, top)]), r#"fill="none" stroke="black" stroke-width="0.8""#);
        let ((x, y), text) = (part.middle(), super::escaped(part.name));
        if part.has_no_room() {
            number += 1;
            svg.push(&format!(r#"<text x="{x:.1}" y="{:.1}" {halo}>{number}<title>{text}</title></text>"#, y + 4.0));
        } else if part.is_wide() {
            svg.push(&format!(r#"<text x="{x:.1}" y="{:.1}" {halo}>{text}</text>"#, y + 4.0));
        } else if part.is_high() {
            svg.push(&format!(r#"<text transform="translate({:.1} {y:.1})rotate(-90)" {halo}>{text}</text>"#, x + 4.0));
        }
    }
}

/// The names that have no room in their parts, numbered in order, in lines.
fn key(parts: &[Part], page: impl Fn([f64; 2]) -> (f64, f64)) -> Vec<String> {
    let names = parts.iter().map(|part| Outline::of(part, &page)).filter(Outline::has_no_room);
    let mut lines: Vec<String> = vec![];
    for (i, part) in names.enumerate() {
        let entry = format!("{}: {}", i + 1, part.name);
        match lines.last_mut() {
            Some(line) if line.chars().count() + entry.chars().count() < KEY_WIDTH => *line += &format!(", {entry}"),
            _ => lines.push(entry),
        }
    }
    lines
}

/// Marks at the hottest and the coldest row.
fn extremes(svg: &mut Svg, picture: &Picture, geometry: &Geometry, page: impl Fn([f64; 2]) -> (f64, f64)) {
    for (extreme, mark) in [(&picture.summary.hottest, "M0 -6L6 5H-6z"), (&picture.summary.coldest, "M0 6L6 -5H-6z")] {
        let Some(cell) = extreme.as_ref().and_then(|extreme| geometry.cells.get(extreme.row)) else { continue };
        let (x, y) = page(cell.middle());
        svg.push(&format!(r#"<path transform="translate({x:.1} {y:.1})" d="{mark}" fill="white" stroke="black"/>"#));
    }
}

fn scale_bar(svg: &mut Svg, picture: &Picture, frame: &Frame, scale: &Scale) {
    let bar = Frame { left: frame.right + 40.0, right: frame.right + 58.0, top: frame.top, bottom: frame.bottom };
    let height = (bar.bottom - bar.top) / SHADES as f64;
    for place in 0..SHADES {
        let y = bar.bottom - (place + 1) as f64 * height;
        svg.push(&format!(r#"<rect x="{:.1}" y="{y:.2}" width="18" height="{:.2}" fill="{}"/>"#, bar.left, height + 0.5, colour(place)));
    }
    for tick in scale.ticks() {
        let y = bar.y(scale, tick);
        svg.path(&format!("M{:.1} {y:.1}h5", bar.right), r#"stroke="black""#);
        svg.label(bar.right + 8.0, y + 4.0, Anchor::Start, &scale.label(tick));
    }
    svg.label_upwards(bar.left - 6.0, (bar.top + bar.bottom) / 2.0, &picture.label());
    if picture.summary.not_finite > 0 {
        svg.push(&format!(r#"<rect x="{:.1}" y="{:.1}" width="18" height="12" fill="{NOT_FINITE}"/>"#, bar.left, bar.bottom + 12.0));
        svg.label(bar.right + 6.0, bar.bottom + 22.0, Anchor::Start, "not finite");
    }
}
