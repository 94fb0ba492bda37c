//! Several barrels on one unit: up to sixteen paused runs in rotation, one substep at a time.

use crate::lent::paused::State;
use crate::lent::rotation as lent;
use crate::{sizes, zeros, Error, KrylovOptions, Matrix, Refusal, Report, Soaked};

/// Up to sixteen paused runs in rotation. Each has a key, by which the caller finds the matrix, tau and vectors that come again at each of its
/// turns; its field is kept here. Field, report and refusals of a run are to the bit those of [`crate::Paused`] alone, whatever the others are.
///
/// ```
/// use hazhendu::{KrylovOptions, Matrix, Turned, Unit};
///
/// // Two barrels of two bodies each; the second loses more heat to the room.
/// let slow = Matrix::new(2, &[0, 2, 4], &[0, 1, 0, 1], &[0.5, -0.5, -0.5, 0.6]).with_mass(&[8.0, 8.0]);
/// let fast = Matrix::new(2, &[0, 2, 4], &[0, 1, 0, 1], &[0.5, -0.5, -0.5, 0.9]).with_mass(&[8.0, 8.0]);
/// let jobs = [("slow", slow), ("fast", fast)];
/// let w = [20.0, 20.0];
/// let mut unit = Unit::new();
/// for (i, (_, a)) in jobs.iter().enumerate() {
///     unit.join(i, a, 60.0, 1, &w, KrylovOptions::default())?;
/// }
/// while let Some((_, &i)) = unit.next() {
///     if let Turned::Ended { key, soaked, .. } = unit.turn(&jobs[i].1, 60.0, 1, &w, None)? {
///         println!("{}: {:?}", jobs[key].0, soaked?.field);
///     }
/// }
/// # Ok::<(), hazhendu::Error>(())
/// ```
#[derive(Clone, Debug)]
pub struct Unit<K> {
    unit: lent::Unit,
    /// By place; none where the place is free.
    barrels: [Option<Barrel<K>>; sizes::MAX_RUNS],
    /// One working memory for all.
    work: Vec<f64>,
}

/// An unfinished run on a unit.
#[derive(Clone, Debug)]
pub struct Barrel<K> {
    key: K,
    state: State,
    /// Scaled, with the few numbers that stand for the further vectors.
    scaled: Vec<f64>,
    field: Vec<f64>,
}

impl<K> Barrel<K> {
    pub fn key(&self) -> &K {
        &self.key
    }

    /// The field so far.
    pub fn field(&self) -> &[f64] {
        &self.field
    }

    /// How far the run is, as a part of tau.
    pub fn time(&self) -> f64 {
        self.state.time()
    }

    /// What the run has cost so far; the estimated error is relative to the norm of the start.
    pub fn report(&self) -> Report {
        let report = self.state.report();
        Report { estimated_error: report.estimated_error / self.state.norm(), ..report }
    }

    /// The tolerance in force.
    pub fn tol(&self) -> f64 {
        self.state.tol()
    }

    /// The state as the library keeps it.
    pub fn state(&self) -> &State {
        &self.state
    }
}

/// A run that was accepted.
#[derive(Clone, Debug, PartialEq)]
pub enum Joined<K> {
    /// It waits in this place.
    Waits { place: usize },
    /// Its start is all zeros: it has ended, and takes no place.
    Ended { key: K, soaked: Soaked<Report> },
}

/// A turn that was not refused early.
#[derive(Clone, Debug)]
pub enum Turned<K> {
    /// One substep was made; the run waits again.
    Waits { place: usize },
    /// The run has ended, and its place is free: the soak, or the refusal by 27 to 29, as [`crate::Paused::finish`] gives it.
    Ended { place: usize, key: K, soaked: Result<Soaked<Report>, Error> },
}

impl<K> Default for Unit<K> {
    fn default() -> Self {
        Unit::new()
    }
}

impl<K> Unit<K> {
    /// The empty unit.
    pub fn new() -> Self {
        Unit { unit: lent::Unit::default(), barrels: std::array::from_fn(|_| None), work: Vec::new() }
    }

    /// Makes every check of a Krylov job and no substep, and puts the run behind those that wait, in the lowest free place. 32, after all checks
    /// of the job, of a seventeenth unfinished run. A refused join changes nothing, and the key is dropped.
    pub fn join(&mut self, key: K, a: &Matrix, tau: f64, count: usize, w: &[f64], options: KrylovOptions) -> Result<Joined<K>, Error> {
        let mut field = zeros(sizes::output(a.n, 0))?;
        let mut scaled = zeros(sizes::field(a.n, count))?;
        self.lend(sizes::krylov_work(a.n, a.entries.len(), a.mass.is_some(), count, options.m))?;
        match self.unit.join(a, tau, count, w, options, &mut field, &mut self.work, &mut scaled) {
            Ok((Some(place), state)) => {
                self.barrels[place] = Some(Barrel { key, state, scaled, field });
                Ok(Joined::Waits { place })
            }
            Ok((None, state)) => Ok(Joined::Ended { key, soaked: Soaked { cost: state.report(), field } }),
            Err(refusal) => Err(Error::Refused { refusal, state: None }),
        }
    }

    /// The place whose turn is next, and the key of the run there.
    pub fn next(&self) -> Option<(usize, &K)> {
        let place = self.unit.next()?;
        self.barrels[place].as_ref().map(|barrel| (place, &barrel.key))
    }

    /// One substep of the run whose turn is next, with a new tolerance for it and its later ones if there is one. 31 if no run waits. A turn that
    /// is refused by 1 to 26 leaves its run as it was, and passes on to the next.
    pub fn turn(&mut self, a: &Matrix, tau: f64, count: usize, w: &[f64], tol: Option<f64>) -> Result<Turned<K>, Error> {
        let next = self.unit.next();
        let (n, m) = next.and_then(|place| self.unit.run(place)).map_or((0, 0), |run| (run.n(), run.m()));
        self.lend(sizes::krylov_work(a.n, a.entries.len(), a.mass.is_some(), count, m))?;
        // An output of the job's own length, so that another n is told by 16.
        let mut others = zeros(if a.n == n { 0 } else { sizes::output(a.n, 0) })?;
        let (mut no_field, mut no_scaled) = (Vec::new(), Vec::new());
        let (field, scaled) = match next.and_then(|place| self.barrels[place].as_mut()) {
            Some(barrel) => (&mut barrel.field, &mut barrel.scaled),
            None => (&mut no_field, &mut no_scaled),
        };
        let out = if a.n == n { field } else { &mut others };
        let (place, answer) = self.unit.turn(a, tau, count, w, tol, out, &mut self.work, scaled);
        self.told(place, answer)
    }

    fn told(&mut self, place: Option<usize>, answer: Result<State, Refusal>) -> Result<Turned<K>, Error> {
        let refused = |refusal, state| Error::Refused { refusal, state };
        let Some((place, barrel)) = place.and_then(|place| Some((place, self.barrels[place].take()?))) else {
            let no_run = Refusal { number: 31, value: f64::NAN };
            return Err(refused(answer.err().unwrap_or(no_run), None));
        };
        match answer {
            Ok(state) if state.ended() => {
                let soaked = Ok(Soaked { field: barrel.field, cost: state.report() });
                Ok(Turned::Ended { place, key: barrel.key, soaked })
            }
            Ok(state) => {
                self.barrels[place] = Some(Barrel { state, ..barrel });
                Ok(Turned::Waits { place })
            }
            Err(refusal) if refusal.leaves_state() => {
                Ok(Turned::Ended { place, key: barrel.key, soaked: Err(refused(refusal, Some(barrel.field))) })
            }
            Err(refusal) => {
                self.barrels[place] = Some(barrel);
                Err(refused(refusal, None))
            }
        }
    }

    /// The unfinished run in a place.
    pub fn barrel(&self, place: usize) -> Option<&Barrel<K>> {
        self.barrels.get(place)?.as_ref()
    }

    /// All unfinished runs, with their places.
    pub fn barrels(&self) -> impl Iterator<Item = (usize, &Barrel<K>)> {
        self.barrels.iter().enumerate().filter_map(|(place, barrel)| Some((place, barrel.as_ref()?)))
    }

    /// How many runs are unfinished.
    pub fn len(&self) -> usize {
        self.barrels().count()
    }

    pub fn is_empty(&self) -> bool {
        self.len() == 0
    }

    /// The unit as the library keeps it.
    pub fn state(&self) -> &lent::Unit {
        &self.unit
    }

    fn lend(&mut self, need: usize) -> Result<(), Error> {
        if self.work.len() < need {
            self.work = zeros(need)?;
        }
        Ok(())
    }
}
