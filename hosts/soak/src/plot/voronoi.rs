//! What is nearest to each of many points, but not far from it: the picture of a field that is known at points.

type Point = [f64; 2];

/// Points of a neighbourhood that decide how far its middle reaches.
const NEIGHBOURS: usize = 12;

/// For each point the corners of the region that is nearer to it than to any other, cut off at the distance of its twelfth neighbour, a little
/// around all points, and below `floor`.
pub fn polygons(points: &[Point], floor: Option<f64>) -> Vec<Vec<Point>> {
    let Some(mut grid) = Grid::new(points) else {
        return vec![vec![]; points.len()];
    };
    let room = grid.side / 2.0;
    grid.edge = [[grid.low[0] - room, grid.low[1] - room], [grid.high[0] + room, grid.high[1] + room]];
    grid.edge[0][1] = floor.filter(|floor| *floor <= grid.low[1]).map_or(grid.edge[0][1], |floor| floor.max(grid.edge[0][1]));
    points.iter().map(|point| region(points, &grid, *point)).collect()
}

fn region(points: &[Point], grid: &Grid, [x, y]: Point) -> Vec<Point> {
    let reach = grid.reach(points, [x, y]);
    let [low, high] = grid.edge;
    let (left, right) = ((x - reach).max(low[0]), (x + reach).min(high[0]));
    let (lower, upper) = ((y - reach).max(low[1]), (y + reach).min(high[1]));
    let mut corners = vec![[left, lower], [right, lower], [right, upper], [left, upper]];
    for other in grid.around([x, y], 2.0 * reach).map(|i| points[i]).filter(|other| *other != [x, y]) {
        corners = nearer(&corners, [x, y], other);
    }
    corners
}

fn squared([a, b]: Point, [c, d]: Point) -> f64 {
    (a - c) * (a - c) + (b - d) * (b - d)
}

/// The part of a convex polygon that is nearer to one point than to another.
fn nearer(corners: &[Point], one: Point, other: Point) -> Vec<Point> {
    let excess = |p: Point| squared(p, one) - squared(p, other);
    let mut kept = Vec::with_capacity(corners.len() + 1);
    for (i, p) in corners.iter().enumerate() {
        let q = corners[(i + 1) % corners.len()];
        let (here, there) = (excess(*p), excess(q));
        if here <= 0.0 {
            kept.push(*p);
        }
        if (here < 0.0 && there > 0.0) || (here > 0.0 && there < 0.0) {
            let part = here / (here - there);
            kept.push([p[0] + (q[0] - p[0]) * part, p[1] + (q[1] - p[1]) * part]);
        }
    }
    kept
}

/// Points by the square of a grid in which they lie, about two in each.
struct Grid {
    low: Point,
    high: Point,
    /// The corners of what may be filled.
    edge: [Point; 2],
    side: f64,
    counts: [usize; 2],
    squares: Vec<Vec<usize>>,
}

impl Grid {
    fn new(points: &[Point]) -> Option<Grid> {
        let bounds = |axis: usize| {
            let values = || points.iter().map(|point| point[axis]);
            (values().fold(f64::INFINITY, f64::min), values().fold(f64::NEG_INFINITY, f64::max))
        };
        let ((left, right), (lower, upper)) = (bounds(0), bounds(1));
        let longest = (right - left).max(upper - lower);
        if !longest.is_finite() || longest <= 0.0 {
            return None;
        }
        let area = (right - left).max(longest / points.len() as f64) * (upper - lower).max(longest / points.len() as f64);
        let side = (2.0 * area / points.len() as f64).sqrt().max(longest / 2000.0);
        let counts = [((right - left) / side) as usize + 1, ((upper - lower) / side) as usize + 1];
        let (low, high) = ([left, lower], [right, upper]);
        let mut grid = Grid { low, high, edge: [low, high], side, counts, squares: vec![vec![]; counts[0] * counts[1]] };
        for (i, point) in points.iter().enumerate() {
            let [column, row] = grid.square(*point);
            grid.squares[row * counts[0] + column].push(i);
        }
        Some(grid)
    }

    fn square(&self, point: Point) -> [usize; 2] {
        [0, 1].map(|axis| (((point[axis] - self.low[axis]) / self.side) as usize).min(self.counts[axis] - 1))
    }

    /// The points in the squares within a distance.
    fn around(&self, point: Point, distance: f64) -> impl Iterator<Item = usize> + '_ {
        let [column, row] = self.square(point);
        let steps = (distance / self.side).ceil() as usize;
        let range = |middle: usize, count: usize| middle.saturating_sub(steps)..(middle + steps + 1).min(count);
        let columns = range(column, self.counts[0]);
        range(row, self.counts[1])
            .flat_map(move |row| columns.clone().flat_map(move |column| &self.squares[row * self.counts[0] + column]))
            .copied()
    }

    /// The distance of the twelfth nearest other point, looked for in a growing neighbourhood.
    fn reach(&self, points: &[Point], point: Point) -> f64 {
        let longest = self.counts[0].max(self.counts[1]) as f64 * self.side;
        let mut distance = 2.0 * self.side;
        loop {
            let mut found: Vec<f64> = self.around(point, distance).map(|i| squared(points[i], point)).filter(|d| *d > 0.0).collect();
            found.sort_by(f64::total_cmp);
            let within = found.get(NEIGHBOURS - 1).copied().filter(|d| *d <= distance * distance);
            match within.or_else(|| found.last().copied().filter(|_| distance > longest)) {
                Some(squared) => return squared.sqrt(),
                None if distance > longest => return longest / 2.0,
                None => distance *= 2.0,
            }
        }
    }
}

#[cfg(test)]
mod tests {
    use super::polygons;

    #[test]
    fn regions_of_a_square_grid_are_its_squares() {
        let points: Vec<[f64; 2]> = (0..25).map(|i| [f64::from(i % 5), f64::from(i / 5)]).collect();
        let regions = polygons(&points, None);
        let mut corners = regions[12].clone();
        corners.sort_by(|a, b| a[0].total_cmp(&b[0]).then(a[1].total_cmp(&b[1])));
        corners.dedup();
        assert_eq!(corners, [[1.5, 1.5], [1.5, 2.5], [2.5, 1.5], [2.5, 2.5]]);
    }

    #[test]
    fn points_on_a_line_or_on_each_other_have_regions() {
        assert!(polygons(&[[1.0, 1.0]], None)[0].is_empty());
        assert!(polygons(&[[0.0, 0.0], [1.0, 0.0], [1.0, 0.0]], Some(0.0)).iter().all(|corners| corners.len() >= 3));
    }
}
