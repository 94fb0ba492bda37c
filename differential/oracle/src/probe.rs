//! What a run of the transcribed Rust does: paths taken, cost and accepted steps; and the highest degree of a plan, which it
//! is given.

use std::cell::{Cell, RefCell};
use std::collections::BTreeMap;

thread_local! {
    static HITS: RefCell<BTreeMap<&'static str, u64>> = const { RefCell::new(BTreeMap::new()) };
    static STEPS: RefCell<Vec<f64>> = const { RefCell::new(vec![]) };
    static FIRST: Cell<f64> = const { Cell::new(f64::NAN) };
    static LEFT: Cell<u64> = const { Cell::new(u64::MAX) };
    static DEGREE: Cell<u32> = const { Cell::new(jobs::DEGREE) };
}

/// The payload of the unwinding that ends a run above its cost.
pub struct Costly;

pub fn hit(path: &'static str) {
    HITS.with(|h| *h.borrow_mut().entry(path).or_default() += 1);
}

/// The paths taken since the last call of this function.
pub fn take_hits() -> BTreeMap<&'static str, u64> {
    HITS.take()
}

/// An accepted step.
pub fn step(t: f64) {
    STEPS.with(|s| s.borrow_mut().push(t));
}

/// The steps accepted since the last call of this function.
pub fn take_steps() -> Vec<f64> {
    STEPS.take()
}

/// Sets what a run may cost.
pub fn allow(cost: u64) {
    LEFT.with(|l| l.set(cost));
}

/// Ends the run where its cost is spent.
pub fn spend(cost: u64) {
    LEFT.with(|l| match l.get().checked_sub(cost) {
        Some(rest) => l.set(rest),
        None => std::panic::resume_unwind(Box::new(Costly)),
    });
}

/// Sets the highest degree of a plan.
pub fn set_degree(degree: u32) {
    DEGREE.with(|d| d.set(degree));
}

/// What stands for `M_MAX` in expmv.rs.
pub fn degree() -> u32 {
    DEGREE.with(Cell::get)
}

pub fn first(x: f64) -> f64 {
    let t = crate::transcribed::round2(x);
    if t.is_nan() {
        hit("first length NaN");
    }
    FIRST.with(|f| f.set(t));
    t
}

/// The first length of the last run.
pub fn first_length() -> f64 {
    FIRST.with(Cell::get)
}

pub fn proposal(t: f64) -> f64 {
    if t.is_nan() {
        hit("proposal NaN");
    }
    t
}

pub fn retry(t: f64) -> f64 {
    if t.is_nan() {
        hit("retry NaN");
    }
    t
}
