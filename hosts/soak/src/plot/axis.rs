//! Axes with round ticks.

use super::svg::{Anchor, Svg};

/// Ticks that an axis has about.
const WANTED: f64 = 7.0;
const COARSE: f64 = 4.0;

/// The values of an axis's ends, and its round ticks between them.
pub struct Scale {
    pub low: f64,
    pub high: f64,
    step: f64,
}

impl Scale {
    /// From the least finite value to the highest; flat values get some room.
    pub fn of(values: impl Iterator<Item = f64> + Clone) -> Scale {
        let finite = || values.clone().filter(|x| x.is_finite());
        let low = finite().fold(f64::INFINITY, f64::min);
        let high = finite().fold(f64::NEG_INFINITY, f64::max);
        if high / 2.0 - low / 2.0 > f64::MIN_POSITIVE && high - low > 1e-13 * high.abs().max(low.abs()) {
            return Scale::between(low, high);
        }
        let middle = if low.is_finite() { low } else { 0.0 };
        let room = if middle.abs() < 1e-300 { 1.0 } else { middle.abs() / 20.0 };
        Scale::between((middle - room).max(f64::MIN), (middle + room).min(f64::MAX))
    }

    /// The rows of a field, from 1: ticks are whole.
    pub fn rows(count: usize) -> Scale {
        match count {
            0 | 1 => Scale { low: 0.0, high: 2.0, step: 1.0 },
            _ => {
                let scale = Scale::between(1.0, count as f64);
                Scale { step: scale.step.max(1.0), ..scale }
            }
        }
    }

    /// With fewer ticks, for an axis that is short.
    pub fn coarse(self) -> Scale {
        Scale::with_ticks(self.low, self.high, COARSE)
    }

    fn between(low: f64, high: f64) -> Scale {
        Scale::with_ticks(low, high, WANTED)
    }

    /// Halves, since the whole range may be too large for a double.
    fn with_ticks(low: f64, high: f64, wanted: f64) -> Scale {
        let raw = (high / 2.0 - low / 2.0) / wanted * 2.0;
        let power = 10f64.powf(raw.log10().floor());
        let step = [1.0, 2.0, 5.0, 10.0].map(|factor| factor * power).into_iter().find(|step| *step >= raw).unwrap_or(raw);
        Scale { low, high, step: if step > 0.0 && step.is_finite() { step } else { raw } }
    }

    /// The same, with room up to the next ticks.
    pub fn rounded(self) -> Scale {
        let low = (self.low / self.step).floor() * self.step;
        let high = (self.high / self.step).ceil() * self.step;
        match low.is_finite() && high.is_finite() {
            true => Scale { low, high, step: self.step },
            false => self,
        }
    }

    /// With some room at both ends, so that no curve lies on the frame.
    pub fn widened(self) -> Scale {
        let room = (self.high / 2.0 - self.low / 2.0) * 0.04;
        let (low, high) = (self.low - room, self.high + room);
        match low.is_finite() && high.is_finite() {
            true => Scale { low, high, step: self.step },
            false => self,
        }
    }

    /// The same with the first of these steps that gives at most ten ticks, if one does.
    pub fn stepped(self, steps: &[f64]) -> Scale {
        let range = self.high / 2.0 - self.low / 2.0;
        let step = steps.iter().copied().find(|step| range <= *step * 9.0 / 2.0).unwrap_or(self.step);
        Scale { step, ..self }
    }

    /// The part of the way from the low end to the high end, 0 to 1.
    pub fn part(&self, value: f64) -> f64 {
        let part = (value / 2.0 - self.low / 2.0) / (self.high / 2.0 - self.low / 2.0);
        part.clamp(0.0, 1.0)
    }

    pub fn at(&self, part: f64) -> f64 {
        self.low + (self.high / 2.0 - self.low / 2.0) * part * 2.0
    }

    pub fn ticks(&self) -> Vec<f64> {
        let first = (self.low / self.step - 1e-9).ceil();
        let count = ((self.high / self.step - first) + 1e-9).floor().clamp(0.0, 20.0) as usize;
        // A tick of -0 is 0.
        (0..=count).map(|k| (first + k as f64) * self.step + 0.0).collect()
    }

    /// As many decimals as the step has; powers of ten for what is very large or very small.
    pub fn label(&self, value: f64) -> String {
        let largest = self.low.abs().max(self.high.abs());
        if !(1e-4..1e7).contains(&largest) {
            return if value == 0.0 { "0".into() } else { format!("{value:.2e}") };
        }
        let decimals = (1e-9 - self.step.log10().floor()).clamp(0.0, 12.0);
        format!("{value:.*}", decimals as usize)
    }
}

/// Where an axis lies in the picture.
pub struct Frame {
    pub left: f64,
    pub right: f64,
    pub top: f64,
    pub bottom: f64,
}

impl Frame {
    pub fn x(&self, scale: &Scale, value: f64) -> f64 {
        self.left + (self.right - self.left) * scale.part(value)
    }

    pub fn y(&self, scale: &Scale, value: f64) -> f64 {
        self.bottom - (self.bottom - self.top) * scale.part(value)
    }

    /// Ticks and a name below the frame.
    pub fn across(&self, svg: &mut Svg, scale: &Scale, name: &str) {
        for tick in scale.ticks() {
            let x = self.x(scale, tick);
            svg.path(&format!("M{x:.1} {:.1}v5", self.bottom), r#"stroke="black""#);
            svg.label(x, self.bottom + 19.0, Anchor::Middle, &scale.label(tick));
        }
        svg.label((self.left + self.right) / 2.0, self.bottom + 38.0, Anchor::Middle, name);
    }

    /// Ticks and a name to the left of the frame; with lines across if wanted.
    pub fn up(&self, svg: &mut Svg, scale: &Scale, name: &str, lines: bool) {
        let mut widest = 0;
        for tick in scale.ticks() {
            let y = self.y(scale, tick);
            svg.path(&format!("M{:.1} {y:.1}h-5", self.left), r#"stroke="black""#);
            if lines {
                svg.path(&format!("M{:.1} {y:.1}H{:.1}", self.left, self.right), r##"stroke="#ddd""##);
            }
            let label = scale.label(tick);
            widest = widest.max(label.len());
            svg.label(self.left - 8.0, y + 4.0, Anchor::End, &label);
        }
        svg.label_upwards(self.left - 20.0 - 7.0 * widest as f64, (self.top + self.bottom) / 2.0, name);
    }

    /// Lines upright at the ticks of the axis below.
    pub fn upright(&self, svg: &mut Svg, scale: &Scale) {
        for tick in scale.ticks() {
            svg.path(&format!("M{:.1} {:.1}V{:.1}", self.x(scale, tick), self.bottom, self.top), r##"stroke="#ddd""##);
        }
    }

    pub fn border(&self, svg: &mut Svg) {
        let Frame { left, right, top, bottom } = self;
        svg.path(&format!("M{left:.1} {top:.1}V{bottom:.1}H{right:.1}"), r#"stroke="black" fill="none""#);
    }
}

#[cfg(test)]
mod tests {
    use super::Scale;

    fn labels(low: f64, high: f64) -> Vec<String> {
        let scale = Scale::of([low, high].into_iter());
        scale.ticks().into_iter().map(|tick| scale.label(tick)).collect()
    }

    #[test]
    fn ticks_are_round() {
        assert_eq!(labels(2.98, 16.76), ["4", "6", "8", "10", "12", "14", "16"]);
        assert_eq!(labels(-3.87, 2.75), ["-3", "-2", "-1", "0", "1", "2"]);
        assert_eq!(labels(0.0, 1.0), ["0.0", "0.2", "0.4", "0.6", "0.8", "1.0"]);
        assert_eq!(labels(293.15, 293.16), ["293.150", "293.152", "293.154", "293.156", "293.158", "293.160"]);
        assert_eq!(labels(0.0, 3e16), ["0", "5.00e15", "1.00e16", "1.50e16", "2.00e16", "2.50e16", "3.00e16"]);
        let day = Scale::of([0.0, 24.0].into_iter()).stepped(&[1.0, 3.0, 6.0]);
        assert_eq!(day.ticks(), [0.0, 3.0, 6.0, 9.0, 12.0, 15.0, 18.0, 21.0, 24.0]);
        assert_eq!(labels(1.0, 8.0), ["1", "2", "3", "4", "5", "6", "7", "8"]);
        assert_eq!(Scale::of([17.4, 21.6].into_iter()).coarse().ticks(), [18.0, 20.0]);
    }

    #[test]
    fn rows_are_whole() {
        let labels = |count| {
            let scale = Scale::rows(count);
            scale.ticks().into_iter().map(|tick| scale.label(tick)).collect::<Vec<_>>()
        };
        assert_eq!(labels(1), ["0", "1", "2"]);
        assert_eq!(labels(2), ["1", "2"]);
        assert_eq!(labels(3), ["1", "2", "3"]);
        assert_eq!(labels(60), ["10", "20", "30", "40", "50", "60"]);
    }
}
