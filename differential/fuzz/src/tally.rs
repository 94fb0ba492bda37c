//! What the executions were, printed when libFuzzer ends the process.

use std::ffi::c_int;
use std::sync::atomic::{AtomicU64, Ordering::Relaxed};

use compare::paused::Seen;

static COSTLY: AtomicU64 = AtomicU64::new(0);
static LARGE: AtomicU64 = AtomicU64::new(0);
/// Of paused runs: undivided ones, steps that changes came with, and steps from forged states.
const PAUSED: [&str; 4] = ["undivided: runs", "changed: steps made", "changed: steps refused", "forged: steps"];
static RUNS: [AtomicU64; 4] = [const { AtomicU64::new(0) }; 4];
/// By the number of the answer, which is below 64.
static COMPARED: [AtomicU64; 64] = [const { AtomicU64::new(0) }; 64];

extern "C" {
    fn atexit(last: extern "C" fn()) -> c_int;
}

pub fn print_at_exit() {
    // SAFETY: `print` reads statics only
    unsafe { atexit(print) };
}

/// A job that was too costly to be compared.
pub fn costly() {
    COSTLY.fetch_add(1, Relaxed);
}

/// A job that the Rust answers by this number; `large` if the functions on bytes answer by 255.
pub fn compared(number: u32, large: bool) {
    COMPARED[number as usize].fetch_add(1, Relaxed);
    LARGE.fetch_add(u64::from(large), Relaxed);
}

pub fn paused(seen: &Seen) {
    for (what, runs) in PAUSED.iter().zip(&RUNS) {
        runs.fetch_add(seen.hits.get(*what).copied().unwrap_or(0), Relaxed);
    }
}

extern "C" fn print() {
    let hits: Vec<u64> = COMPARED.iter().map(|c| c.load(Relaxed)).collect();
    let numbers: Vec<String> = hits.iter().enumerate().filter(|(_, h)| **h > 0).map(|(number, h)| format!("{number}: {h}")).collect();
    eprintln!("compared: {}, above the cost: {}", hits.iter().sum::<u64>(), COSTLY.load(Relaxed));
    eprintln!("answered by 255 on bytes: {}", LARGE.load(Relaxed));
    let runs: Vec<String> = PAUSED.iter().zip(&RUNS).map(|(what, runs)| format!("{what} {}", runs.load(Relaxed))).collect();
    eprintln!("answers to paused runs, {}", runs.join(", "));
    eprintln!("answers by number: {}", numbers.join(", "));
}
