//! A unit of paused runs (document 02, N6) as the exports lay it out, and what a call on it leaves.

use crate::paused::{Left, Run, COUNTS, NUMBERS};
use crate::{double, same};

/// Places, and the number of none.
pub const PLACES: usize = 16;

/// The unit between two calls. Its slices have another length only where that is tried.
#[derive(Clone, Debug)]
pub struct Unit {
    pub numbers: Vec<f64>,
    pub counts: Vec<usize>,
}

impl Unit {
    /// The runs by place, and the places that wait.
    pub fn of(places: &[Run], waiting: impl IntoIterator<Item = usize>) -> Unit {
        let mut counts: Vec<usize> = places.iter().flat_map(|run| run.counts.iter().copied()).collect();
        counts.extend(waiting.into_iter().chain(std::iter::repeat(PLACES)).take(PLACES));
        Unit { numbers: places.iter().flat_map(|run| run.numbers.iter().copied()).collect(), counts }
    }

    /// A place that was never taken.
    pub fn vacant() -> Run {
        let mut run = Run { numbers: vec![0.0; NUMBERS], counts: vec![0; COUNTS], field: vec![] };
        run.numbers[5..8].fill(1.0);
        run.counts[7] = 1;
        run
    }

    pub fn print(&self) -> String {
        let numbers: Vec<String> = self.numbers.iter().map(double).collect();
        let counts: Vec<String> = self.counts.iter().map(usize::to_string).collect();
        format!("units={} queues={}", numbers.join(","), counts.join(","))
    }
}

/// What a join or a turn leaves: of the run as a start or a step, the place and the unit.
#[derive(Clone, Debug)]
pub struct UnitLeft {
    pub run: Left,
    pub place: usize,
    pub unit: Unit,
}

impl UnitLeft {
    pub fn print(&self) -> String {
        format!("{} place={} {}", self.run.print(), self.place, self.unit.print())
    }

    /// Which parts differ, bit for bit.
    pub fn differs(&self, other: &UnitLeft) -> Vec<&'static str> {
        let mut parts = self.run.differs(&other.run);
        let own = [
            ("place", self.place == other.place),
            ("units", same(&self.unit.numbers, &other.unit.numbers)),
            ("queues", self.unit.counts == other.unit.counts),
        ];
        parts.extend(own.into_iter().filter(|(_, same)| !same).map(|(part, _)| part));
        parts
    }
}
