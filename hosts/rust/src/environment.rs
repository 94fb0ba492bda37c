//! The floating-point environment that the calls assume: rounding to nearest, subnormal numbers taken and given as they are, and no
//! exception that stops the program. Code built with `-ffast-math`, or a library built so, changes it for the whole thread.

use std::arch::asm;

/// MXCSR as a program begins with it: all exceptions masked, rounding to nearest, neither flush to zero nor denormals as zero.
const USUAL: u32 = 0x1f80;
/// The exceptions that have occurred are no part of it.
const FLAGS: u32 = 0x3f;

fn get() -> u32 {
    let mut state = 0u32;
    // SAFETY: stores four bytes at the place given, which is a local.
    unsafe { asm!("stmxcsr [{}]", in(reg) &mut state, options(nostack, preserves_flags)) };
    state
}

fn set(state: u32) {
    // SAFETY: `state` came from `get` or is USUAL, so that no reserved bit is set.
    unsafe { asm!("ldmxcsr [{}]", in(reg) &state, options(nostack, preserves_flags, readonly)) };
}

/// Whether this thread has the environment that the calls assume.
pub fn is_usual() -> bool {
    get() & !FLAGS == USUAL
}

struct Restored(u32);

impl Drop for Restored {
    fn drop(&mut self) {
        set(self.0);
    }
}

/// Runs a call in the environment that it assumes, and puts back what was there. Every call of this crate goes through it.
pub fn usual<T>(call: impl FnOnce() -> T) -> T {
    let _restored = Restored(get());
    set(USUAL);
    call()
}

#[cfg(test)]
mod tests {
    use super::{get, is_usual, set, usual};
    use crate::{check, phi_action, Matrix, TaylorOptions};

    const UPWARD: u32 = 0x5f80;
    const FLUSHED: u32 = 0x9fc0;

    fn in_environment<T>(state: u32, call: impl FnOnce() -> T) -> T {
        let before = get();
        set(state);
        let told = call();
        assert_eq!(get() & !super::FLAGS, state, "the caller's environment is back");
        set(before);
        told
    }

    #[test]
    fn calls_have_the_usual_environment_whatever_the_callers_is() {
        let a = Matrix::new(2, &[0, 2, 4], &[0, 1, 0, 1], &[0.5, -0.5, -0.5, 0.6]);
        let soaked = || phi_action(&a, 0.7, 1, &[0.1, 0.3], TaylorOptions::default()).unwrap().field;
        let tiny = [5e-324, 1.0];
        let norm = || check(&Matrix::new(2, &[0, 0, 0], &[], &[]).with_mass(&tiny)).unwrap().norm;
        assert!(is_usual());
        let (field, zero) = (soaked(), norm());
        for state in [UPWARD, FLUSHED] {
            assert_eq!(in_environment(state, soaked), field);
            // A mass that is subnormal is above 0.
            assert_eq!(in_environment(state, norm), zero);
            assert!(!in_environment(state, is_usual));
            assert!(in_environment(state, || usual(is_usual)));
        }
    }
}
