//! Where the rows of a field lie, and the parts to be outlined.

use super::voronoi;

/// What a row fills.
#[derive(Clone, Copy, Debug, PartialEq)]
pub enum Cell {
    /// Across and up.
    Point([f64; 2]),
    /// From and to, across and up.
    Box([[f64; 2]; 2]),
}

impl Cell {
    pub fn middle(&self) -> [f64; 2] {
        match self {
            Cell::Point(place) => *place,
            Cell::Box([across, up]) => [across[0] / 2.0 + across[1] / 2.0, up[0] / 2.0 + up[1] / 2.0],
        }
    }
}

#[derive(Clone, Debug, PartialEq)]
pub struct Part {
    pub name: String,
    pub across: [f64; 2],
    pub up: [f64; 2],
}

#[derive(Clone, Debug, PartialEq)]
pub struct Geometry {
    /// The names of the axes.
    pub across: String,
    pub up: String,
    /// Whether up is the distance from an axis of revolution.
    pub revolved: bool,
    pub cells: Vec<Cell>,
    pub parts: Vec<Part>,
}

impl Geometry {
    #[cfg(test)]
    pub fn of_points(places: Vec<[f64; 2]>) -> Self {
        let cells = places.into_iter().map(Cell::Point).collect();
        Geometry { across: "x".into(), up: "y".into(), revolved: false, cells, parts: vec![] }
    }

    pub fn middles(&self) -> impl Iterator<Item = [f64; 2]> + Clone + '_ {
        self.cells.iter().map(Cell::middle)
    }

    /// The places of all points, and the corners of boxes and parts.
    pub fn corners(&self) -> impl Iterator<Item = [f64; 2]> + Clone + '_ {
        let of_cells = self.cells.iter().flat_map(|cell| match cell {
            Cell::Point(place) => [*place, *place],
            Cell::Box([across, up]) => [[across[0], up[0]], [across[1], up[1]]],
        });
        of_cells.chain(self.parts.iter().flat_map(|part| [[part.across[0], part.up[0]], [part.across[1], part.up[1]]]))
    }

    /// What each row fills, as corners: boxes as they are, around points what is nearest to them.
    pub fn polygons(&self) -> Vec<Vec<[f64; 2]>> {
        let nearest = voronoi::polygons(&self.points(), self.revolved.then_some(0.0));
        let mut nearest = nearest.into_iter();
        let corners = |cell: &Cell| match cell {
            Cell::Point(_) => nearest.next().unwrap_or_default(),
            Cell::Box([[a, b], [c, d]]) => vec![[*a, *c], [*b, *c], [*b, *d], [*a, *d]],
        };
        self.cells.iter().map(corners).collect()
    }

    fn points(&self) -> Vec<[f64; 2]> {
        self.cells.iter().filter_map(|cell| if let Cell::Point(place) = cell { Some(*place) } else { None }).collect()
    }
}
