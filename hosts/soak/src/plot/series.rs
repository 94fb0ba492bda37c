//! A soak over its time: hottest, mean and coldest, and one row if it is asked for.

use super::axis::{Frame, Scale};
use super::log::{shown, Time};
use super::svg::{Anchor, Line, Svg};
use crate::series::{Moment, Series};
use crate::summary::{extremes, rounded, Extreme};
use std::fmt::Write;

const FRAME: Frame = Frame { left: 90.0, right: 740.0, top: 64.0, bottom: 340.0 };
/// Up to so many moments each has a dot, and the way between them, which is not computed, is broken.
const DOTTED: usize = 60;

type Curve<'a> = (String, &'static str, Box<dyn Fn(&Moment) -> Option<f64> + 'a>);

pub fn draw(series: &Series, title: &str, unit: &str) -> String {
    let curves = curves(series);
    let time = Time::at(series.moments.iter().map(|moment| moment.time));
    let mut svg = Svg::new(880.0, 392.0, title, &below(series, &time, unit));
    let values: Vec<f64> = curves.iter().flat_map(|(_, _, value)| series.moments.iter().filter_map(value)).collect();
    let scale = Scale::of(values.iter().copied()).rounded();
    FRAME.upright(&mut svg, &time.scale);
    FRAME.up(&mut svg, &scale, &format!("{}, {unit}", series.quantity), true);
    FRAME.across(&mut svg, &time.scale, &format!("time, {}", time.unit));
    FRAME.border(&mut svg);
    let dotted = series.moments.len() <= DOTTED;
    for (i, (name, colour, value)) in curves.iter().enumerate() {
        let points = points(series, &time, &scale, value);
        let stroke = stroke(colour, name, dotted);
        let dot = format!(r#"stroke="{colour}" stroke-width="5" stroke-linecap="round" fill="none""#);
        svg.path(&way(&points), &stroke);
        let (x, y) = (FRAME.right + 14.0, FRAME.top + 8.0 + 18.0 * i as f64);
        svg.path(&format!("M{x:.1} {y:.1}h18"), &stroke);
        if dotted && !is_node(name) {
            let dots: String = points.iter().flatten().map(|(x, y)| format!("M{x:.1} {y:.1}h0")).collect();
            svg.path(&format!("{dots}M{x:.1} {y:.1}h0M{:.1} {y:.1}h0", x + 18.0), &dot);
        }
        svg.label(x + 26.0, y + 4.0, Anchor::Start, name);
    }
    svg.end()
}

/// A row that is asked for lies wide and pale below the others: it may be the hottest or the coldest.
fn stroke(colour: &str, name: &str, dotted: bool) -> String {
    let kind = match (is_node(name), dotted) {
        (true, _) => r#" stroke-width="7" stroke-opacity="0.35""#,
        (false, true) => r#" stroke-width="1.5" stroke-dasharray="5 4" stroke-opacity="0.7""#,
        (false, false) => r#" stroke-width="1.5""#,
    };
    format!(r#"stroke="{colour}"{kind} stroke-linecap="round" stroke-linejoin="round" fill="none""#)
}

fn is_node(name: &str) -> bool {
    name.starts_with("row ")
}

fn curves(series: &Series) -> Vec<Curve<'_>> {
    let mut curves: Vec<Curve> = vec![];
    if let Some(node) = series.node {
        curves.push((format!("row {node}"), "#1b7837", Box::new(|moment| moment.value.filter(|value| value.is_finite()))));
    }
    let [most, least] = extremes(series.quantity).map(|name| format!("{name} row"));
    curves.extend::<[Curve; 3]>([
        (most, "#a50026", Box::new(|moment| moment.hottest.map(|extreme| extreme.value))),
        ("mean".into(), "#555555", Box::new(|moment| moment.mean)),
        (least, "#4575b4", Box::new(|moment| moment.coldest.map(|extreme| extreme.value))),
    ]);
    curves
}

/// Where the values lie; what is not finite leaves a gap.
fn points(series: &Series, time: &Time, scale: &Scale, value: impl Fn(&Moment) -> Option<f64>) -> Vec<Option<(f64, f64)>> {
    let place = |(i, moment): (usize, &Moment)| value(moment).map(|value| (time.x(i), FRAME.y(scale, value)));
    series.moments.iter().enumerate().map(place).collect()
}

fn way(points: &[Option<(f64, f64)>]) -> String {
    let mut path = String::new();
    let mut pen = 'M';
    for point in points {
        let Some((x, y)) = point else {
            pen = 'M';
            continue;
        };
        // Writing to a string does not fail.
        let _ = write!(path, "{pen}{x:.1} {y:.1}");
        pen = 'L';
    }
    path
}

/// The highest and the least of all moments.
fn below(series: &Series, time: &Time, unit: &str) -> Line {
    let told = |name: &str, found: Option<(usize, Extreme)>| match found {
        Some((i, Extreme { row, value })) => {
            format!("{name} {} {unit} in row {} at {} {}", rounded(value), row + 1, shown(time.ends[i]), time.unit)
        }
        None => format!("no {name} that is finite"),
    };
    let all = |extreme: fn(&Moment) -> Option<Extreme>| {
        series.moments.iter().enumerate().filter_map(move |(i, moment)| extreme(moment).map(|extreme| (i, extreme)))
    };
    let first = |best: Option<(usize, Extreme)>, next: (usize, Extreme), better: fn(f64, f64) -> bool| match best {
        Some(best) if !better(next.1.value, best.1.value) => Some(best),
        _ => Some(next),
    };
    let hottest = all(|moment| moment.hottest).fold(None, |best, next| first(best, next, |a, b| a > b));
    let coldest = all(|moment| moment.coldest).fold(None, |best, next| first(best, next, |a, b| a < b));
    let [most, least] = extremes(series.quantity);
    let count = series.moments.len().saturating_sub(1);
    let each = if count == 1 { series.each.to_owned() } else { format!("{}s", series.each) };
    Line::plain(format!("{count} {each}: {}, {}", told(most, hottest), told(least, coldest)))
}
