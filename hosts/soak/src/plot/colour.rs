//! Colours of a field, from blue for cold over yellow to red for hot; told apart by the colour-blind too (ColorBrewer's RdYlBu).

const COLOURS: [[f64; 3]; 11] = [
    [49.0, 54.0, 149.0],
    [69.0, 117.0, 180.0],
    [116.0, 173.0, 209.0],
    [171.0, 217.0, 233.0],
    [224.0, 243.0, 248.0],
    [255.0, 255.0, 191.0],
    [254.0, 224.0, 144.0],
    [253.0, 174.0, 97.0],
    [244.0, 109.0, 67.0],
    [215.0, 48.0, 39.0],
    [165.0, 0.0, 38.0],
];

/// Told apart by the colour-blind too, by their lightness.
const LINES: [[f64; 3]; 4] = [[68.0, 1.0, 84.0], [49.0, 104.0, 142.0], [31.0, 158.0, 137.0], [230.0, 110.0, 0.0]];

/// Shades of a map.
pub const SHADES: usize = 128;
/// Of what is not finite.
pub const NOT_FINITE: &str = "#ff00ff";

/// The shade of a part from 0 to 1.
pub fn shade(part: f64) -> usize {
    ((part * SHADES as f64) as usize).min(SHADES - 1)
}

pub fn colour(shade: usize) -> String {
    mixed(&COLOURS, shade as f64 / (SHADES - 1) as f64)
}

/// Of the curves in one picture: grey for the first, then from dark violet over green to orange, each dark enough on white.
pub fn of_curve(place: usize, count: usize) -> String {
    match place {
        0 => "#888888".into(),
        _ => mixed(&LINES, (place - 1) as f64 / count.saturating_sub(2).max(1) as f64),
    }
}

/// The colour at a part from 0 to 1 of the way through a list.
fn mixed(list: &[[f64; 3]], part: f64) -> String {
    let place = part * (list.len() - 1) as f64;
    let lower = (place as usize).min(list.len() - 2);
    let mixed = [0, 1, 2].map(|i| list[lower][i] + (list[lower + 1][i] - list[lower][i]) * (place - lower as f64));
    format!("#{:02x}{:02x}{:02x}", mixed[0].round() as u8, mixed[1].round() as u8, mixed[2].round() as u8)
}

#[cfg(test)]
mod tests {
    use super::{colour, of_curve, shade, SHADES};

    #[test]
    fn both_ends_have_their_colours() {
        assert_eq!((shade(0.0), shade(0.999_999), shade(1.0)), (0, SHADES - 1, SHADES - 1));
        assert_eq!((colour(0).as_str(), colour(SHADES - 1).as_str()), ("#313695", "#a50026"));
    }

    #[test]
    fn curves_have_colours_of_their_own() {
        assert_eq!([0, 1, 2, 3, 4].map(|i| of_curve(i, 5)), ["#888888", "#440154", "#31688e", "#1f9e89", "#e66e00"]);
        assert_eq!([of_curve(0, 1), of_curve(1, 2)], ["#888888", "#440154"]);
    }
}
