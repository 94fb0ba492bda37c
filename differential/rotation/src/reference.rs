//! What a unit has to answer (document 02, N6): a queue, and each run alone by the exported start and step.

use std::collections::VecDeque;

use jobs::paused::{Left, Run};
use jobs::rotation::{Unit, UnitLeft, PLACES};
use jobs::Job;

/// What is put wrong into the reference on trial, to see that it is found.
#[derive(Clone, Copy, Debug, PartialEq)]
pub enum Fault {
    LowestPlaceNext,
    JoinsAtTheHead,
    EarlyRefusalKeepsTheTurn,
    EarlyRefusalLeaves,
    EndedRunPutBack,
    HighestFreePlace,
    FullBeforeTheChecks,
    ZeroStartTakesAPlace,
    FifteenPlaces,
    NewTolForOneTurn,
}

pub const FAULTS: [Fault; 10] = [
    Fault::LowestPlaceNext,
    Fault::JoinsAtTheHead,
    Fault::EarlyRefusalKeepsTheTurn,
    Fault::EarlyRefusalLeaves,
    Fault::EndedRunPutBack,
    Fault::HighestFreePlace,
    Fault::FullBeforeTheChecks,
    Fault::ZeroStartTakesAPlace,
    Fault::FifteenPlaces,
    Fault::NewTolForOneTurn,
];

/// A call on the unit.
pub struct Asked<'a> {
    pub job: &'a Job,
    /// The slices of the state, as lent, and the field.
    pub lent: Run,
    /// Whether the slices of the unit have its lengths.
    pub fits: bool,
}

pub struct Queue {
    /// The last state of the run in each place.
    pub places: Vec<Run>,
    pub waiting: VecDeque<usize>,
    pub fault: Option<Fault>,
}

impl Queue {
    /// "The unit, empty at first"
    pub fn new(fault: Option<Fault>) -> Queue {
        Queue { places: vec![Unit::vacant(); PLACES], waiting: VecDeque::new(), fault }
    }

    fn is(&self, fault: Fault) -> bool {
        self.fault == Some(fault)
    }

    pub fn unit(&self) -> Unit {
        Unit::of(&self.places, self.waiting.iter().copied())
    }

    /// "Asked, the unit names the place whose turn is next, or 16 if no run waits"
    pub fn next(&self) -> usize {
        let first = if self.is(Fault::LowestPlaceNext) { self.waiting.iter().min() } else { self.waiting.front() };
        first.copied().unwrap_or(PLACES)
    }

    fn free(&self) -> Option<usize> {
        let mut free = (0..if self.is(Fault::FifteenPlaces) { 15 } else { PLACES }).filter(|p| !self.waiting.contains(p));
        if self.is(Fault::HighestFreePlace) {
            free.last()
        } else {
            free.next()
        }
    }

    fn left(&self, run: Left, place: usize, given: &Unit) -> UnitLeft {
        UnitLeft { run, place, unit: if place < PLACES { self.unit() } else { given.clone() } }
    }

    pub fn join(&mut self, asked: Asked, given: &Unit) -> UnitLeft {
        let Asked { job, lent, fits } = asked;
        let free = self.free().filter(|_| fits);
        let full = Left::refused(job, &lent, 32, f64::NAN);
        if self.is(Fault::FullBeforeTheChecks) && free.is_none() {
            return self.left(full, PLACES, given);
        }
        let started = library::paused::start(job, lent);
        // "one ended at its start takes none"
        if started.number != 0 || (started.run.ended() && !self.is(Fault::ZeroStartTakesAPlace)) {
            return self.left(started, PLACES, given);
        }
        // "It refuses with 32, after all checks of the job itself, a seventeenth unfinished run"
        let Some(place) = free else { return self.left(full, PLACES, given) };
        // "A new run joins the end in the lowest free place of 0 to 15"
        self.places[place] = Run { field: vec![], ..started.run.clone() };
        if self.is(Fault::JoinsAtTheHead) {
            self.waiting.push_front(place);
        } else {
            self.waiting.push_back(place);
        }
        self.left(started, place, given)
    }

    pub fn turn(&mut self, asked: Asked, tol: Option<f64>, given: &Unit) -> UnitLeft {
        let Asked { job, lent, fits } = asked;
        let place = self.next();
        // "a turn is then refused with 31"
        if !fits || place == PLACES {
            return self.left(Left::refused(job, &lent, 31, f64::NAN), PLACES, given);
        }
        let before = self.places[place].clone();
        let mut stepped = library::paused::step(job, tol, Run { field: lent.field, ..before.clone() });
        let early = !matches!(stepped.number, 0 | 27..=29);
        self.places[place] = Run { field: vec![], ..stepped.run.clone() };
        if self.is(Fault::NewTolForOneTurn) && tol.is_some() {
            self.places[place].numbers[jobs::paused::TOL] = before.numbers[jobs::paused::TOL];
        }
        // "an ended run leaves, and its place can be taken again"; "A turn refused early counts and passes on"
        if !(early && self.is(Fault::EarlyRefusalKeepsTheTurn)) {
            self.waiting.retain(|p| *p != place);
            let ended = stepped.run.ended() && !self.is(Fault::EndedRunPutBack);
            if !ended && !(early && self.is(Fault::EarlyRefusalLeaves)) {
                self.waiting.push_back(place);
            }
        }
        // the state is told to slices that fit it
        if early || (lent.numbers.len(), lent.counts.len()) != (stepped.run.numbers.len(), stepped.run.counts.len()) {
            (stepped.run.numbers, stepped.run.counts) = (lent.numbers, lent.counts);
        }
        self.left(stepped, place, given)
    }
}
