//! Ctrl-C, heard between two substeps.

#![allow(unsafe_code)]

use std::sync::atomic::{AtomicBool, Ordering};

static HEARD: AtomicBool = AtomicBool::new(false);

const SIGINT: i32 = 2;
/// Of `signal`: what a program begins with, and a signal that is ignored.
const USUAL: usize = 0;
const IGNORED: usize = 1;

extern "C" {
    fn signal(number: i32, handler: usize) -> usize;
}

/// The first one is noted, and the next one ends the process.
extern "C" fn note(number: i32) {
    HEARD.store(true, Ordering::Relaxed);
    // SAFETY: a handler may call `signal`; the usual one is always there.
    unsafe { signal(number, USUAL) };
}

/// Until this is gone a first Ctrl-C is noted instead of ending the process. Where it was ignored it stays so.
pub struct Listening {
    before: usize,
}

impl Listening {
    pub fn new() -> Self {
        // SAFETY: `note` stores to an atomic and calls `signal`, both of which a handler may do.
        let before = unsafe { signal(SIGINT, note as extern "C" fn(i32) as usize) };
        if before == IGNORED {
            // SAFETY: puts back what was there.
            unsafe { signal(SIGINT, IGNORED) };
        }
        Listening { before }
    }

    pub fn heard(&self) -> bool {
        HEARD.load(Ordering::Relaxed)
    }
}

impl Drop for Listening {
    fn drop(&mut self) {
        // SAFETY: puts back what was there.
        unsafe { signal(SIGINT, self.before) };
    }
}
