//! Several fields over their rows, one curve each.

use super::axis::Scale;
use super::colour::of_curve;
use super::profile::{curve, FRAME};
use super::svg::{Anchor, Svg};
use super::Picture;

/// Names that stand beside the curves at most.
const NAMED: usize = 16;

/// The first in grey, the others in the order of their colours; the picture's own field, which is the last, gives title and words.
pub fn draw(picture: &Picture, curves: &[(String, &[f64])]) -> String {
    let mut below = picture.subtitle();
    below.text = curves.last().map_or(String::new(), |(name, _)| format!("after {name}: ")) + &below.text;
    let mut svg = Svg::new(900.0, 392.0, &picture.title, &below);
    let rows = Scale::rows(picture.field.len());
    let scale = Scale::of(curves.iter().flat_map(|(_, field)| field.iter().copied())).rounded();
    FRAME.across(&mut svg, &rows, "row");
    FRAME.up(&mut svg, &scale, &picture.label(), true);
    FRAME.border(&mut svg);
    for (i, (name, field)) in curves.iter().enumerate() {
        let stroke = of_curve(i, curves.len());
        let style = format!(r##"stroke="{stroke}" stroke-width="1.5" stroke-linecap="round" stroke-linejoin="round" fill="none""##);
        svg.path(&curve(field, &rows, &scale), &style);
        if let Some(place) = named(curves.len()).iter().position(|named| *named == i) {
            let y = FRAME.top + 17.0 * place as f64;
            svg.path(&format!("M{:.1} {y:.1}h18", FRAME.right + 12.0), &style);
            svg.label(FRAME.right + 36.0, y + 4.0, Anchor::Start, name);
        }
    }
    svg.end()
}

/// Which curves have a name: all, or of too many as many as have room, the first and the last among them.
fn named(count: usize) -> Vec<usize> {
    match count {
        0..=NAMED => (0..count).collect(),
        _ => (0..NAMED).map(|k| k * (count - 1) / (NAMED - 1)).collect(),
    }
}

#[cfg(test)]
mod tests {
    use super::named;

    #[test]
    fn the_first_and_the_last_curve_have_a_name() {
        assert_eq!(named(3), [0, 1, 2]);
        assert_eq!(named(65), [0, 4, 8, 12, 17, 21, 25, 29, 34, 38, 42, 46, 51, 55, 59, 64]);
    }
}
