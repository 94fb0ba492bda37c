//! Pictures of a field, as SVG: a coloured map where the places of the rows are known, and a profile over the rows where they are not.

mod along;
mod axis;
mod colour;
mod curves;
pub mod geometry;
mod log;
mod map;
mod profile;
mod series;
mod svg;
mod voronoi;

use crate::series::Series;
use crate::summary::Summary;
use axis::Scale;
pub use geometry::Geometry;
pub use log::Curves;
pub use svg::escaped;

/// What is drawn, and how it is called.
pub struct Picture<'a> {
    pub title: String,
    /// What the field is: temperature or sensitivity.
    pub quantity: &'a str,
    pub unit: &'a str,
    pub field: &'a [f64],
    pub summary: &'a Summary,
    pub geometry: Option<&'a Geometry>,
}

impl Picture<'_> {
    /// The map, or without places the profile.
    pub fn main(&self) -> String {
        match self.geometry {
            Some(geometry) => map::draw(self, geometry),
            None => profile::draw(self),
        }
    }

    /// All pictures, each with a word on what it shows.
    pub fn all(&self) -> Vec<(String, String)> {
        let mut pictures = self.placed();
        pictures.push((format!("{} over the rows", self.quantity), profile::draw(self)));
        pictures
    }

    /// Those that need places.
    pub fn placed(&self) -> Vec<(String, String)> {
        let Some(geometry) = self.geometry else { return vec![] };
        let (across, up) = (bare(&geometry.across), bare(&geometry.up));
        vec![
            (format!("{} over {across} and {up}", self.quantity), map::draw(self, geometry)),
            (format!("{} along {across}", self.quantity), along::draw(self, geometry)),
        ]
    }

    fn label(&self) -> String {
        format!("{}, {}", self.quantity, self.unit)
    }

    /// From the least finite value to the highest.
    fn scale(&self) -> Scale {
        Scale::of(self.field.iter().copied())
    }

    /// One line below the title; what is not finite is said first.
    fn subtitle(&self) -> svg::Line {
        match self.summary.not_finite {
            0 => svg::Line::plain(self.summary.line(self.quantity, self.unit)),
            count if count == self.field.len() => svg::Line::warning("no number of the field is finite".into()),
            count => svg::Line::warning(format!(
                "{count} of {} rows are not finite; of the others: {}",
                self.field.len(),
                self.summary.line(self.quantity, self.unit)
            )),
        }
    }
}

/// Several fields over their rows in one picture, each with its name.
pub fn curves(picture: &Picture, curves: &[(String, &[f64])]) -> String {
    curves::draw(picture, curves)
}

/// A node's temperature over the time of a log, with the band of its windows and the level.
pub fn log(curves: &Curves) -> String {
    log::draw(curves)
}

/// A soak over its time.
pub fn series(series: &Series, title: &str, unit: &str) -> String {
    series::draw(series, title, unit)
}

/// An axis's name without its unit.
fn bare(name: &str) -> &str {
    name.split(',').next().unwrap_or(name)
}

#[cfg(test)]
mod tests {
    use super::{Geometry, Picture};
    use crate::summary::Summary;

    fn pictures(field: &[f64], geometry: Option<&Geometry>) -> Vec<String> {
        let summary = Summary::of(field, None);
        let picture = Picture { title: "a < b & c".into(), quantity: "temperature", unit: "K", field, summary: &summary, geometry };
        picture.all().into_iter().map(|(_, svg)| svg).collect()
    }

    fn drawable(svg: &str) {
        let drawing: String = svg.lines().filter(|line| !line.starts_with("<text")).collect();
        assert!(!drawing.contains("NaN") && !drawing.contains("inf"), "{svg}");
        assert!(svg.contains("a &lt; b &amp; c"));
        assert!(svg.starts_with("<svg ") && svg.ends_with("</svg>\n"));
        assert!(svg.len() < 3_000_000);
    }

    #[test]
    fn every_field_has_pictures_of_finite_places() {
        let long: Vec<f64> = (0..100_000).map(|i| f64::from(i % 17)).collect();
        let fields: [&[f64]; 11] = [
            &[],
            &[1.0],
            &[0.0, 0.0],
            &[20.0, 20.0, 20.0],
            &[f64::MAX, f64::MAX],
            &[f64::MIN, f64::MAX],
            &[5e-324, 0.0],
            &[1.0, f64::NAN, 2.0, f64::INFINITY],
            &[f64::NAN],
            &[293.15, 293.1500001],
            &long,
        ];
        for field in fields {
            pictures(field, None).iter().for_each(|svg| drawable(svg));
            let square = |i: usize| [(i % 300) as f64, (i / 300) as f64];
            let line = |i: usize| [i as f64, 0.0];
            let heap = |_: usize| [1.0, 1.0];
            for place in [&square as &dyn Fn(usize) -> [f64; 2], &line, &heap] {
                let geometry = Geometry::of_points((0..field.len()).map(place).collect());
                pictures(field, Some(&geometry)).iter().for_each(|svg| drawable(svg));
            }
        }
    }

    #[test]
    fn several_fields_are_curves() {
        let (field, infinite) = ([1.0, 2.0, 3.0], [f64::INFINITY, 1.0, f64::NAN]);
        let summary = Summary::of(&field, None);
        let picture =
            Picture { title: "a < b & c".into(), quantity: "temperature", unit: "K", field: &field, summary: &summary, geometry: None };
        for count in [0, 1, 2, 65] {
            let curves: Vec<(String, &[f64])> =
                (0..count).map(|i| (format!("stage {i}"), if i == 1 { &infinite[..] } else { &field })).collect();
            let svg = super::curves(&picture, &curves);
            drawable(&svg);
            assert_eq!(svg.matches("stroke-linejoin").count(), count + count.min(16));
        }
    }

    #[test]
    fn every_log_has_a_picture_of_finite_places() {
        let many: Vec<f64> = (0..100_000).map(|i| f64::from(i % 977) / 31.0).collect();
        let odd = [f64::MAX, f64::INFINITY, -0.0, f64::MIN, 5e-324, f64::NEG_INFINITY, 1.0];
        let durations = [0.0, 1e308, 5e-324, 1e308, 1.0, 3600.0, 1e308];
        for (times, values) in [(&[][..], &[][..]), (&[0.0], &[1.0]), (&durations, &odd), (&many, &many), (&[600.0; 3], &[2.0; 3])] {
            for window in [1, 2, 1024] {
                let curves = super::Curves {
                    title: "a < b & c".into(),
                    unfinished: (window == 2).then(|| "record 2 is refused by 14".into()),
                    unit: "K",
                    row: 1,
                    window,
                    start: 20.0,
                    durations: times,
                    levels: values,
                    temperatures: values,
                    largest: values,
                    smallest: values,
                };
                let svg = super::log(&curves);
                drawable(&svg);
                assert_eq!(svg.contains("is refused by 14"), window == 2);
                assert_eq!(svg.contains("the last 1024 records"), window == 1024);
            }
        }
    }

    #[test]
    fn what_is_not_finite_is_said() {
        assert!(pictures(&[f64::NAN, f64::NAN], None)[0].contains("no number of the field is finite"));
        assert!(pictures(&[f64::NAN, 1.0], None)[0].contains("1 of 2 rows are not finite"));
        let geometry = Geometry::of_points(vec![[0.0, 0.0], [1.0, 0.0]]);
        assert!(pictures(&[f64::NAN, 1.0], Some(&geometry))[0].contains(">not finite</text>"));
    }
}
