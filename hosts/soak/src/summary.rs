//! What a field comes to: its hottest and its coldest row, and the mean.

use hazhendu::shortest;

#[derive(Clone, Copy, Debug, PartialEq)]
pub struct Extreme {
    /// From 0.
    pub row: usize,
    pub value: f64,
}

/// Of the finite numbers of a field.
#[derive(Clone, Debug, PartialEq)]
pub struct Summary {
    /// The first of equal ones.
    pub hottest: Option<Extreme>,
    pub coldest: Option<Extreme>,
    /// Weighed by the mass if there is one.
    pub mean: Option<f64>,
    pub by_mass: bool,
    /// How many numbers are not finite, and the first of them.
    pub not_finite: usize,
    pub first_not_finite: Option<Extreme>,
}

impl Summary {
    pub fn of(field: &[f64], mass: Option<&[f64]>) -> Summary {
        let finite = || field.iter().copied().enumerate().filter(|(_, value)| value.is_finite());
        let best = |better: fn(f64, f64) -> bool| {
            finite().fold(None, |best: Option<Extreme>, (row, value)| match best {
                Some(extreme) if !better(value, extreme.value) => Some(extreme),
                _ => Some(Extreme { row, value }),
            })
        };
        let not_finite = || field.iter().copied().enumerate().filter(|(_, value)| !value.is_finite());
        let weight = |row: usize| mass.and_then(|mass| mass.get(row)).copied().unwrap_or(1.0);
        let whole: f64 = finite().map(|(row, _)| weight(row)).sum();
        let mean: f64 = finite().map(|(row, value)| weight(row) / whole * value).sum();
        Summary {
            hottest: best(|a, b| a > b),
            coldest: best(|a, b| a < b),
            mean: Some(mean).filter(|mean| mean.is_finite() && finite().next().is_some()),
            by_mass: mass.is_some(),
            not_finite: not_finite().count(),
            first_not_finite: not_finite().next().map(|(row, value)| Extreme { row, value }),
        }
    }

    /// In one line, rows from 1, of a temperature or a sensitivity.
    pub fn line(&self, quantity: &str, unit: &str) -> String {
        let extreme = |name: &str, extreme: &Option<Extreme>| match extreme {
            Some(Extreme { row, value }) => format!("{name} {} {unit} in row {}", rounded(*value), row + 1),
            None => format!("no {name} row"),
        };
        let weighed = if self.by_mass { " (by mass)" } else { "" };
        let mean = self.mean.map_or("no mean".into(), |mean| format!("mean{weighed} {} {unit}", rounded(mean)));
        let [most, least] = extremes(quantity);
        format!("{}, {}, {mean}", extreme(most, &self.hottest), extreme(least, &self.coldest))
    }
}

/// What the extremes of a quantity are called.
pub fn extremes(quantity: &str) -> [&'static str; 2] {
    match quantity {
        "temperature" => ["hottest", "coldest"],
        _ => ["largest", "smallest"],
    }
}

/// To six digits, for people.
pub fn rounded(value: f64) -> String {
    shortest(format!("{value:.5e}").parse().unwrap_or(value))
}

#[cfg(test)]
mod tests {
    use super::{rounded, Summary};

    #[test]
    fn extremes_are_the_first_and_means_are_weighed() {
        let summary = Summary::of(&[1.0, 3.0, f64::NAN, 3.0, 1.0], None);
        assert_eq!(summary.line("temperature", "K"), "hottest 3 K in row 2, coldest 1 K in row 1, mean 2 K");
        assert_eq!(summary.line("sensitivity", "K/K"), "largest 3 K/K in row 2, smallest 1 K/K in row 1, mean 2 K/K");
        assert_eq!((summary.not_finite, summary.first_not_finite.map(|first| first.row)), (1, Some(2)));
        assert_eq!(Summary::of(&[1.0, 3.0], Some(&[3.0, 1.0])).mean, Some(1.5));
        assert_eq!(Summary::of(&[f64::NAN], None).mean, None);
        assert_eq!(Summary::of(&[f64::MAX, f64::MAX], None).mean, Some(f64::MAX));
    }

    #[test]
    fn numbers_for_people_are_short() {
        assert_eq!([16.755_812_3, 0.0, -1.0 / 3.0, 1e16, 300.0].map(rounded), ["16.7558", "0", "-0.333333", "1e16", "300"]);
    }
}
