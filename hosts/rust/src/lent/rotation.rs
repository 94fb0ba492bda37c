//! Up to sixteen paused runs in rotation, one substep at a time, over a unit and fields that the caller keeps.
//!
//! A join is [`super::paused::start`] and a turn [`super::paused::step`], and they leave `out`, `work` and `field` as these do. The unit names
//! the place whose turn is next; the caller lends the field of the run there. A turn that is refused early (1 to 26) counts and passes on. A
//! join refused by 32 and a turn of a unit where no run waits (31) change nothing.

use super::paused::State;
use super::{call, unless_refused};
use crate::sizes::MAX_RUNS;
use crate::{environment, sys, KrylovOptions, Matrix, Refusal};

/// The lengths of a run's two lists.
const NUMBERS: usize = 10;
const COUNTS: usize = 8;

/// A unit between two calls, in the order of hosts/c/hazhendu.h.
#[derive(Clone, Debug, PartialEq)]
pub struct Unit {
    /// Those of the run in place 0, in place 1, .. in place 15.
    pub numbers: [f64; MAX_RUNS * NUMBERS],
    /// So too; then the places that wait, in the order of their turns, up to the first number above 15.
    pub counts: [usize; MAX_RUNS * COUNTS + MAX_RUNS],
}

impl Default for Unit {
    /// The empty unit.
    fn default() -> Self {
        let mut unit = Unit { numbers: [0.0; MAX_RUNS * NUMBERS], counts: [0; MAX_RUNS * COUNTS + MAX_RUNS] };
        // SAFETY: both pointers come from lists of the lengths handed in, borrowed exclusively. Of these lengths it is never refused.
        environment::usual(|| unsafe {
            sys::hazhendu_rotation_clear(unit.numbers.as_mut_ptr(), unit.numbers.len(), unit.counts.as_mut_ptr(), unit.counts.len())
        });
        unit
    }
}

/// 16 is none.
fn taken(place: usize) -> Option<usize> {
    Some(place).filter(|place| *place < MAX_RUNS)
}

impl Unit {
    /// The place whose turn is next, if a run waits.
    pub fn next(&self) -> Option<usize> {
        // SAFETY: the pointer comes from a list of the length handed in.
        taken(environment::usual(|| unsafe { sys::hazhendu_rotation_next(self.counts.as_ptr(), self.counts.len()) }))
    }

    /// The run in a place of 0 to 15: one that has ended if the place is free.
    pub fn run(&self, place: usize) -> Option<State> {
        let numbers = self.numbers.chunks_exact(NUMBERS).nth(place)?;
        let counts = self.counts.chunks_exact(COUNTS).take(MAX_RUNS).nth(place)?;
        Some(State { numbers: numbers.try_into().ok()?, counts: counts.try_into().ok()? })
    }

    /// Starts a run, and puts it behind those that wait, in the lowest free place; none if it has ended at its start. 32 of a unit with sixteen
    /// unfinished runs.
    #[allow(clippy::too_many_arguments)]
    pub fn join(
        &mut self,
        a: &Matrix,
        tau: f64,
        count: usize,
        w: &[f64],
        options: KrylovOptions,
        out: &mut [f64],
        work: &mut [f64],
        field: &mut [f64],
    ) -> Result<(Option<usize>, State), Refusal> {
        let KrylovOptions { tol, m, max_substeps } = options;
        let mut state = State { numbers: [0.0; NUMBERS], counts: [0; COUNTS] };
        let (mut place, mut value) = (MAX_RUNS, 0.0);
        let number = call!(
            hazhendu_rotation_join,
            a,
            tau,
            count,
            w.as_ptr(),
            w.len(),
            tol,
            m,
            max_substeps,
            out.as_mut_ptr(),
            out.len(),
            work.as_mut_ptr(),
            work.len(),
            field.as_mut_ptr(),
            field.len(),
            self.numbers.as_mut_ptr(),
            self.numbers.len(),
            self.counts.as_mut_ptr(),
            self.counts.len(),
            state.numbers.as_mut_ptr(),
            state.numbers.len(),
            state.counts.as_mut_ptr(),
            state.counts.len(),
            &mut place,
            &mut value,
        );
        unless_refused(number, value, (taken(place), state))
    }

    /// One substep of the run whose turn is next, with a new tolerance for it and its later ones if there is one. The place whose turn it was,
    /// if a run waits; and the run after it, or the refusal. [`Unit::run`] has the state that 27 to 29 leave.
    #[allow(clippy::too_many_arguments)]
    pub fn turn(
        &mut self,
        a: &Matrix,
        tau: f64,
        count: usize,
        w: &[f64],
        tol: Option<f64>,
        out: &mut [f64],
        work: &mut [f64],
        field: &mut [f64],
    ) -> (Option<usize>, Result<State, Refusal>) {
        let mut state = State { numbers: [0.0; NUMBERS], counts: [0; COUNTS] };
        let (mut place, mut value) = (MAX_RUNS, 0.0);
        let number = call!(
            hazhendu_rotation_turn,
            a,
            tau,
            count,
            w.as_ptr(),
            w.len(),
            tol.is_some(),
            tol.unwrap_or(0.0),
            out.as_mut_ptr(),
            out.len(),
            work.as_mut_ptr(),
            work.len(),
            field.as_mut_ptr(),
            field.len(),
            self.numbers.as_mut_ptr(),
            self.numbers.len(),
            self.counts.as_mut_ptr(),
            self.counts.len(),
            state.numbers.as_mut_ptr(),
            state.numbers.len(),
            state.counts.as_mut_ptr(),
            state.counts.len(),
            &mut place,
            &mut value,
        );
        (taken(place), unless_refused(number, value, state))
    }
}
