//! Fields row by row, with places where they are known.

use crate::plot::{Geometry, Picture};
use hazhendu::shortest;

pub fn text(picture: &Picture) -> String {
    fields(&[(picture.quantity.to_owned(), picture.field)], picture.geometry)
}

/// A column for each field, under its name.
pub fn fields(named: &[(String, &[f64])], geometry: Option<&Geometry>) -> String {
    let mut head = vec!["row".to_owned()];
    head.extend(geometry.iter().flat_map(|geometry| [word(&geometry.across), word(&geometry.up)]));
    head.extend(named.iter().map(|(name, _)| word(name)));
    let mut text = head.join(",") + "\n";
    for row in 0..named.first().map_or(0, |(_, field)| field.len()) {
        let place = geometry.and_then(|geometry| geometry.cells.get(row)).map(|cell| cell.middle().map(shortest));
        let mut cells = vec![(row + 1).to_string()];
        cells.extend(place.into_iter().flatten());
        cells.extend(named.iter().map(|(_, field)| field.get(row).map_or(String::new(), |value| shortest(*value))));
        text += &(cells.join(",") + "\n");
    }
    text
}

/// A name without commas.
fn word(name: &str) -> String {
    name.replace(", ", "/").replace(',', ";")
}
