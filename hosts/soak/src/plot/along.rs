//! A field along the axis across: of each slice the band from the coldest to the hottest row, and the mean.

use super::axis::{Frame, Scale};
use super::svg::{closed, Anchor, Svg};
use super::{Geometry, Picture};
use crate::summary::extremes;
use std::fmt::Write;

const FRAME: Frame = Frame { left: 90.0, right: 740.0, top: 64.0, bottom: 340.0 };
const SLICES: usize = 30;

#[derive(Clone, Copy)]
struct Slice {
    low: f64,
    high: f64,
    sum: f64,
    count: f64,
}

const EMPTY: Slice = Slice { low: f64::INFINITY, high: f64::NEG_INFINITY, sum: 0.0, count: 0.0 };

pub fn draw(picture: &Picture, geometry: &Geometry) -> String {
    let mut svg = Svg::new(760.0, 392.0, &picture.title, &picture.subtitle());
    let across = Scale::of(geometry.corners().map(|place| place[0]));
    let scale = picture.scale().rounded();
    let slices = sliced(picture.field, geometry, &across);
    FRAME.across(&mut svg, &across, &geometry.across);
    FRAME.up(&mut svg, &scale, &picture.label(), true);
    FRAME.border(&mut svg);
    let place = |(x, value): (f64, f64)| (FRAME.x(&across, x), FRAME.y(&scale, value));
    let upper = slices.iter().map(|(x, slice)| place((*x, slice.high)));
    let lower = slices.iter().rev().map(|(x, slice)| place((*x, slice.low)));
    if !slices.is_empty() {
        svg.path(&closed(upper.chain(lower)), r##"fill="#fdae61" fill-opacity="0.5" stroke="none""##);
    }
    let mut mean = String::new();
    for (x, y) in slices.iter().map(|(x, slice)| place((*x, slice.sum / slice.count))) {
        // With a round cap a line without length is a point.
        let _ = write!(mean, "{}{x:.1} {y:.1}h0", if mean.is_empty() { 'M' } else { 'L' });
    }
    svg.path(&mean, r##"stroke="#a50026" stroke-width="1.5" stroke-linecap="round" fill="none""##);
    let [most, least] = extremes(picture.quantity);
    svg.label(FRAME.right, FRAME.bottom + 38.0, Anchor::End, &format!("line: mean of the rows; band: {least} to {most}"));
    svg.end()
}

/// Slices that hold a finite value, with their middles.
fn sliced(field: &[f64], geometry: &Geometry, across: &Scale) -> Vec<(f64, Slice)> {
    let mut slices = [EMPTY; SLICES];
    for (value, middle) in field.iter().zip(geometry.middles()).filter(|(value, _)| value.is_finite()) {
        let slice = &mut slices[((across.part(middle[0]) * SLICES as f64) as usize).min(SLICES - 1)];
        slice.low = slice.low.min(*value);
        slice.high = slice.high.max(*value);
        slice.count += 1.0;
        slice.sum += *value;
    }
    let middle = |i: usize| across.at((i as f64 + 0.5) / SLICES as f64);
    let kept = slices.iter().enumerate().filter(|(_, slice)| slice.count > 0.0 && slice.sum.is_finite());
    kept.map(|(i, slice)| (middle(i), *slice)).collect()
}
