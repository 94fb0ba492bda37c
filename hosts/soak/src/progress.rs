//! How far a run is: one line on the terminal, written over.

use hazhendu::Report;
use std::io::{self, IsTerminal, Write};
use std::sync::mpsc::{self, RecvTimeoutError};
use std::thread;
use std::time::{Duration, Instant};

const BETWEEN: Duration = Duration::from_millis(100);

pub struct Progress(Paced);

impl Progress {
    pub fn new() -> Self {
        Progress(Paced::new())
    }

    /// After a substep.
    pub fn tell(&mut self, time: f64, report: &Report, ended: bool) {
        self.0.tell(ended, || line(time, report));
    }
}

/// A line that is written not more often than can be read, but the first time and the last.
pub struct Paced {
    line: Line,
    /// When it was last written.
    last: Option<Instant>,
}

impl Paced {
    pub fn new() -> Self {
        Paced { line: Line::new(), last: None }
    }

    pub fn tell(&mut self, ended: bool, text: impl FnOnce() -> String) {
        if self.line.told && (ended || self.last.map_or(true, |last| last.elapsed() >= BETWEEN)) {
            self.line.write(&text());
            self.last = Some(Instant::now());
        }
    }

    /// As [`Line::during`].
    pub fn during<T>(&mut self, text: impl Fn(Duration) -> String + Send, call: impl FnOnce() -> T) -> T {
        self.line.during(text, call)
    }
}

/// A line on the terminal that is written over.
pub struct Line {
    /// Whether there is a terminal to tell.
    told: bool,
    length: usize,
}

impl Line {
    pub fn new() -> Self {
        Line { told: io::stderr().is_terminal(), length: 0 }
    }

    /// Runs a call that tells nothing until its end; meanwhile the line has what `text` makes of the time gone by.
    pub fn during<T>(&mut self, text: impl Fn(Duration) -> String + Send, call: impl FnOnce() -> T) -> T {
        if !self.told {
            return call();
        }
        let (running, ended) = mpsc::channel::<()>();
        thread::scope(|scope| {
            scope.spawn(move || {
                let begun = Instant::now();
                while ended.recv_timeout(BETWEEN) == Err(RecvTimeoutError::Timeout) {
                    self.write(&text(begun.elapsed()));
                }
            });
            let answer = call();
            drop(running);
            answer
        })
    }

    pub fn write(&mut self, line: &str) {
        if !self.told {
            return;
        }
        let length = line.chars().count();
        let blanks = " ".repeat(self.length.saturating_sub(length));
        let back = if line.is_empty() { "\r" } else { "" };
        // Where even this cannot be written, there is nobody to tell.
        let _ = write!(io::stderr(), "\r{line}{blanks}{back}").and_then(|()| io::stderr().flush());
        self.length = length;
    }
}

/// Lines on the terminal that are written over all together, not more often than can be read.
pub struct Block {
    told: bool,
    last: Option<Instant>,
}

/// Longer lines would be broken, and the next block would not stand over this one.
const WIDTH: usize = 79;

impl Block {
    pub fn new() -> Self {
        Block { told: io::stderr().is_terminal(), last: None }
    }

    /// Each line wipes out the rest of what stood there; then the cursor goes back to the first.
    pub fn tell(&mut self, lines: impl FnOnce() -> Vec<String>) {
        if !self.told || self.last.is_some_and(|last| last.elapsed() < BETWEEN) {
            return;
        }
        let lines = lines();
        let text: String = lines.iter().map(|line| format!("\r{}\x1b[K\n", line.chars().take(WIDTH).collect::<String>())).collect();
        // Where even this cannot be written, there is nobody to tell.
        let _ = write!(io::stderr(), "{text}\x1b[J\x1b[{}A", lines.len().max(1)).and_then(|()| io::stderr().flush());
        self.last = Some(Instant::now());
    }

    /// Room for what is told next.
    pub fn clear(&mut self) {
        if self.last.take().is_some() {
            let _ = write!(io::stderr(), "\r\x1b[J").and_then(|()| io::stderr().flush());
        }
    }
}

/// Room for what is told next.
impl Drop for Line {
    fn drop(&mut self) {
        if self.length > 0 {
            self.write("");
        }
    }
}

/// In a unit that suits it, for people.
pub fn lasting(time: Duration) -> String {
    match time.as_secs_f64() {
        s if s < 100.0 => format!("{s:.1} s"),
        s if s < 6000.0 => format!("{:.1} min", s / 60.0),
        s => format!("{:.1} h", s / 3600.0),
    }
}

/// 100 % only at the end itself.
pub fn percent(time: f64) -> u32 {
    let percent = (time * 100.0).floor().clamp(0.0, 100.0) as u32;
    if time < 1.0 {
        percent.min(99)
    } else {
        percent
    }
}

pub fn line(time: f64, report: &Report) -> String {
    format!(
        "{} % of tau, {} substeps, {} applications, step {}, error {}",
        percent(time),
        report.substeps,
        report.matvecs,
        exponent(report.last_step, 1),
        exponent(report.estimated_error, 0)
    )
}

/// With a sign and two digits in the exponent, so that the line keeps its length.
fn exponent(value: f64, digits: usize) -> String {
    let text = format!("{value:.digits$e}");
    match text.split_once('e') {
        Some((digits, power)) => {
            let (sign, power) = power.strip_prefix('-').map_or(('+', power), |power| ('-', power));
            format!("{digits}e{sign}{power:0>2}")
        }
        None => text,
    }
}

#[cfg(test)]
mod tests {
    use super::{exponent, lasting, line, percent};
    use hazhendu::Report;
    use std::time::Duration;

    #[test]
    fn a_line_says_how_far_it_is() {
        let report = Report { substeps: 31, matvecs: 1271, rejected: 0, estimated_error: 3.2e-10, shortest_step: 1e-3, last_step: 0.0123 };
        assert_eq!(line(0.4321, &report), "43 % of tau, 31 substeps, 1271 applications, step 1.2e-02, error 3e-10");
    }

    #[test]
    fn times_are_short() {
        let shown = [0.04, 3.21, 99.96, 100.0, 5999.0, 6000.0, 90_000.0].map(|s| lasting(Duration::from_secs_f64(s)));
        assert_eq!(shown, ["0.0 s", "3.2 s", "100.0 s", "1.7 min", "100.0 min", "1.7 h", "25.0 h"]);
    }

    #[test]
    fn numbers_of_the_line() {
        assert_eq!([0.0, 0.999, 0.9999999999999999, 1.0, f64::NAN].map(percent), [0, 99, 99, 100, 0]);
        assert_eq!([0.0123, 1.0, 0.0, 1e-300, f64::NAN].map(|x| exponent(x, 1)), ["1.2e-02", "1.0e+00", "0.0e+00", "1.0e-300", "NaN"]);
    }
}
