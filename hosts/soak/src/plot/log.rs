//! A node's temperature over the time of a log, the band of its windows, and the level below it.

use super::axis::{Frame, Scale};
use super::svg::{Anchor, Line, Svg};
use crate::summary::{rounded, Extreme, Summary};
use std::fmt::Write;

/// The records that have results, and how they are called.
pub struct Curves<'a> {
    pub title: String,
    /// What is said of a log that has not all its results.
    pub unfinished: Option<String>,
    pub unit: &'a str,
    /// From 1.
    pub row: usize,
    pub window: usize,
    /// The temperature before the first record.
    pub start: f64,
    pub durations: &'a [f64],
    pub levels: &'a [f64],
    pub temperatures: &'a [f64],
    pub largest: &'a [f64],
    pub smallest: &'a [f64],
}

const ABOVE: Frame = Frame { left: 90.0, right: 740.0, top: 64.0, bottom: 320.0 };
const BELOW: Frame = Frame { left: 90.0, right: 740.0, top: 344.0, bottom: 460.0 };
const TEMPERATURE: &str = r##"stroke="#a50026" stroke-width="1.5" stroke-linecap="round" stroke-linejoin="round" fill="none""##;
const DOT: &str = r##"stroke="#a50026" stroke-width="5" stroke-linecap="round" fill="none""##;
const BAND: &str = r##"fill="#f4a582" fill-opacity="0.5" stroke="#f4a582" stroke-width="0.5""##;
const LEVEL: &str = r##"stroke="#4575b4" stroke-width="1.5" stroke-linecap="round" stroke-linejoin="round" fill="none""##;
/// Up to so many records each has a dot, and the way between them, which is not computed, is broken.
const DOTTED: usize = 60;

pub fn draw(curves: &Curves) -> String {
    let time = Time::of(curves.durations);
    let mut svg = Svg::new(960.0, 512.0, &curves.title, &curves.below(&time));
    let shown = curves.temperatures.iter().chain(curves.largest).chain(curves.smallest).copied();
    let temperatures = Scale::of(std::iter::once(curves.start).chain(shown)).widened().rounded();
    let levels = Scale::of(curves.levels.iter().copied()).widened().coarse().rounded();
    ABOVE.upright(&mut svg, &time.scale);
    BELOW.upright(&mut svg, &time.scale);
    ABOVE.up(&mut svg, &temperatures, &format!("temperature, {}", curves.unit), true);
    BELOW.up(&mut svg, &levels, "level", true);
    BELOW.across(&mut svg, &time.scale, &format!("time, {}", time.unit));
    ABOVE.border(&mut svg);
    BELOW.border(&mut svg);
    if curves.window > 1 {
        svg.path(&curves.band(&time, &temperatures), BAND);
    }
    svg.path(&curves.line(&time, &temperatures), &curves.stroke());
    svg.path(&curves.steps(&time, &levels), LEVEL);
    if curves.is_dotted() {
        svg.path(&curves.dots(&time, &temperatures), DOT);
    }
    curves.legend(&mut svg);
    svg.end()
}

/// The end of each record, in a unit that suits the whole.
pub struct Time {
    pub ends: Vec<f64>,
    pub scale: Scale,
    pub unit: &'static str,
}

impl Time {
    /// Durations are seconds.
    fn of(durations: &[f64]) -> Time {
        let mut end = 0.0;
        Time::at(durations.iter().map(|duration| {
            end += duration;
            end
        }))
    }

    /// Moments in seconds, the last one last.
    pub fn at(moments: impl Iterator<Item = f64>) -> Time {
        let mut ends: Vec<f64> = moments.collect();
        let total = ends.last().copied().unwrap_or(0.0);
        let (unit, seconds, steps): (_, _, &[f64]) = match total {
            t if t > 7200.0 => ("h", 3600.0, &[0.25, 0.5, 1.0, 2.0, 3.0, 6.0, 12.0, 24.0, 48.0, 120.0, 240.0]),
            t if t > 300.0 => ("min", 60.0, &[1.0, 2.0, 5.0, 10.0, 15.0, 20.0, 30.0]),
            _ => ("s", 1.0, &[]),
        };
        ends.iter_mut().for_each(|end| *end /= seconds);
        Time { scale: Scale::of([0.0, total / seconds].into_iter()).stepped(steps), ends, unit }
    }

    pub fn x(&self, i: usize) -> f64 {
        ABOVE.x(&self.scale, self.ends[i])
    }

    /// Records that share a column of the picture, and where that is.
    fn columns(&self) -> Vec<(f64, std::ops::Range<usize>)> {
        let mut columns: Vec<(f64, std::ops::Range<usize>)> = Vec::new();
        for i in 0..self.ends.len() {
            let x = self.x(i);
            match columns.last_mut() {
                Some((_, records)) if self.ends.len() > DOTTED && self.x(records.start).floor() == x.floor() => records.end = i + 1,
                _ => columns.push((x, i..i + 1)),
            }
        }
        columns
    }
}

impl Curves<'_> {
    fn is_dotted(&self) -> bool {
        self.temperatures.len() <= DOTTED
    }

    fn stroke(&self) -> String {
        let broken = if self.is_dotted() { r##" stroke-dasharray="5 4" stroke-opacity="0.7""## } else { "" };
        format!("{TEMPERATURE}{broken}")
    }

    fn below(&self, time: &Time) -> Line {
        if let Some(told) = &self.unfinished {
            return Line::warning(told.clone());
        }
        let Summary { hottest, coldest, .. } = Summary::of(self.temperatures, None);
        let place = |name: &str, extreme: Option<Extreme>| match extreme {
            Some(Extreme { row, value }) => {
                format!("{name} {} {} at {} {}", rounded(value), self.unit, shown(time.ends[row]), time.unit)
            }
            None => format!("no {name} that is finite"),
        };
        let last = self.temperatures.last().map_or("none".into(), |x| format!("{} {}", rounded(*x), self.unit));
        let over = time.ends.last().map_or(0.0, |end| *end);
        let records = if self.durations.len() == 1 { "record" } else { "records" };
        Line::plain(format!(
            "{} {records} over {} {}: {}, {}, at the end {last}",
            self.durations.len(),
            shown(over),
            time.unit,
            place("largest", hottest),
            place("smallest", coldest)
        ))
    }

    /// Of each column the first, the least, the highest and the last value. What is not finite leaves a gap.
    fn line(&self, time: &Time, scale: &Scale) -> String {
        let mut path = String::new();
        let mut pen = 'M';
        if self.start.is_finite() {
            let _ = write!(path, "M{:.1} {:.1}", ABOVE.left, ABOVE.y(scale, self.start));
            pen = 'L';
        }
        for (x, records) in time.columns() {
            let values = &self.temperatures[records];
            if values.iter().any(|value| !value.is_finite()) {
                pen = 'M';
                continue;
            }
            let _ = write!(path, "{pen}{x:.1} {:.1}", ABOVE.y(scale, values[0]));
            pen = 'L';
            extent(&mut path, values, |value| ABOVE.y(scale, value));
        }
        path
    }

    fn dots(&self, time: &Time, scale: &Scale) -> String {
        let mut path = String::new();
        if self.start.is_finite() {
            let _ = write!(path, "M{:.1} {:.1}h0", ABOVE.left, ABOVE.y(scale, self.start));
        }
        for (i, value) in self.temperatures.iter().enumerate().filter(|(_, value)| value.is_finite()) {
            let _ = write!(path, "M{:.1} {:.1}h0", time.x(i), ABOVE.y(scale, *value));
        }
        path
    }

    /// Between the largest and the smallest of the windows; a piece for each run of finite ones.
    fn band(&self, time: &Time, scale: &Scale) -> String {
        let mut path = String::new();
        let columns = time.columns();
        let most = |records: &std::ops::Range<usize>| self.largest[records.clone()].iter().copied().fold(f64::NEG_INFINITY, f64::max);
        let least = |records: &std::ops::Range<usize>| self.smallest[records.clone()].iter().copied().fold(f64::INFINITY, f64::min);
        for piece in
            columns.split(|(_, records)| !(most(records).is_finite() && least(records).is_finite())).filter(|piece| !piece.is_empty())
        {
            let there = piece.iter().map(|(x, records)| (*x, ABOVE.y(scale, most(records))));
            let back = piece.iter().rev().map(|(x, records)| (*x, ABOVE.y(scale, least(records))));
            path.push_str(&super::svg::closed(there.chain(back)));
        }
        path
    }

    /// A level holds from the end of the record before to its own.
    fn steps(&self, time: &Time, scale: &Scale) -> String {
        let mut path = String::new();
        let mut from = BELOW.left;
        for (x, records) in time.columns() {
            let values = &self.levels[records];
            if values.iter().all(|value| value.is_finite()) {
                let pen = if path.is_empty() { 'M' } else { 'L' };
                let _ = write!(path, "{pen}{from:.1} {:.1}", BELOW.y(scale, values[0]));
                extent(&mut path, values, |value| BELOW.y(scale, value));
                let _ = write!(path, "H{x:.1}");
            }
            from = x;
        }
        path
    }

    fn legend(&self, svg: &mut Svg) {
        let x = ABOVE.right + 14.0;
        let y = ABOVE.top + 8.0;
        svg.path(&format!("M{x:.1} {y:.1}h18"), &self.stroke());
        if self.is_dotted() {
            svg.path(&format!("M{x:.1} {y:.1}h0M{:.1} {y:.1}h0", x + 18.0), DOT);
        }
        svg.label(x + 26.0, ABOVE.top + 12.0, Anchor::Start, &format!("temperature of row {}", self.row));
        if self.window > 1 {
            svg.path(&format!("M{x:.1} {:.1}h18v12h-18z", ABOVE.top + 24.0), BAND);
            svg.label(x + 26.0, ABOVE.top + 34.0, Anchor::Start, "smallest to largest of");
            svg.label(x + 26.0, ABOVE.top + 50.0, Anchor::Start, &format!("the last {} records", self.window));
        }
        svg.path(&format!("M{x:.1} {:.1}h18", BELOW.top + 8.0), LEVEL);
        svg.label(x + 26.0, BELOW.top + 12.0, Anchor::Start, "ambient level");
    }
}

/// The way from the first of several values over the least and the highest to the last.
fn extent(path: &mut String, values: &[f64], y: impl Fn(f64) -> f64) {
    if values.len() > 1 {
        let low = values.iter().copied().fold(f64::INFINITY, f64::min);
        let high = values.iter().copied().fold(f64::NEG_INFINITY, f64::max);
        let _ = write!(path, "V{:.1}V{:.1}V{:.1}", y(low), y(high), y(values[values.len() - 1]));
    }
}

/// A time, to four digits.
pub fn shown(time: f64) -> String {
    hazhendu::shortest(format!("{time:.3e}").parse().unwrap_or(time))
}
