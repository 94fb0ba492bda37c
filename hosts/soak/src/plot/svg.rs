//! Pieces of SVG.

use std::fmt::Write;

/// A line of text below a title.
pub struct Line {
    pub text: String,
    pub colour: &'static str,
}

impl Line {
    pub fn plain(text: String) -> Self {
        Line { text, colour: "#555" }
    }

    pub fn warning(text: String) -> Self {
        Line { text, colour: "#b00020" }
    }
}

pub enum Anchor {
    Start,
    Middle,
    End,
}

pub struct Svg {
    text: String,
}

impl Svg {
    /// A white page with a title.
    pub fn new(width: f64, height: f64, title: &str, below: &Line) -> Self {
        let mut svg = Svg { text: String::new() };
        svg.push(&format!(
            r#"<svg xmlns="http://www.w3.org/2000/svg" viewBox="0 0 {width:.0} {height:.0}" width="{width:.0}" height="{height:.0}" font-family="sans-serif" font-size="12">"#
        ));
        svg.push(r#"<rect width="100%" height="100%" fill="white"/>"#);
        svg.push(&format!(r#"<text x="20" y="24" font-size="15" font-weight="bold">{}</text>"#, escaped(title)));
        svg.push(&format!(r#"<text x="20" y="43" fill="{}">{}</text>"#, below.colour, escaped(&below.text)));
        svg
    }

    pub fn push(&mut self, line: &str) {
        self.text.push_str(line);
        self.text.push('\n');
    }

    pub fn path(&mut self, d: &str, style: &str) {
        self.push(&format!(r#"<path d="{d}" {style}/>"#));
    }

    pub fn label(&mut self, x: f64, y: f64, anchor: Anchor, text: &str) {
        let anchor = match anchor {
            Anchor::Start => "start",
            Anchor::Middle => "middle",
            Anchor::End => "end",
        };
        self.push(&format!(r#"<text x="{x:.1}" y="{y:.1}" text-anchor="{anchor}">{}</text>"#, escaped(text)));
    }

    /// Upwards, along an axis.
    pub fn label_upwards(&mut self, x: f64, y: f64, text: &str) {
        self.push(&format!(r#"<text transform="translate({x:.1} {y:.1})rotate(-90)" text-anchor="middle">{}</text>"#, escaped(text)));
    }

    pub fn end(mut self) -> String {
        self.push("</svg>");
        self.text
    }
}

/// A closed line through places.
pub fn closed(places: impl IntoIterator<Item = (f64, f64)>) -> String {
    let mut path = String::new();
    for (x, y) in places {
        let pen = if path.is_empty() { 'M' } else { 'L' };
        // Writing to a string does not fail.
        let _ = write!(path, "{pen}{x:.1} {y:.1}");
    }
    path + "z"
}

pub fn escaped(text: &str) -> String {
    text.replace('&', "&amp;").replace('<', "&lt;").replace('>', "&gt;").replace('"', "&quot;")
}
