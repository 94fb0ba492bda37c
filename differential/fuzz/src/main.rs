//! The comparison of one job under libFuzzer: a job that one side answers otherwise ends the run. See ../README.md.

#[path = "../../src/change.rs"]
mod change;
mod code;
#[allow(dead_code)]
#[path = "../../src/generate.rs"]
mod generate;
#[path = "../../src/paused.rs"]
mod paused;
#[allow(dead_code)]
#[path = "../../src/random.rs"]
mod random;
mod tally;

use std::ffi::{c_char, c_int, CString};
use std::panic::catch_unwind;
use std::process::ExitCode;
use std::{fs, slice};

use compare::paused::Seen;
use jobs::Job;
use random::Random;

const USAGE: &str = "usage:
  fuzz seeds FOLDER FILE...        writes the jobs of the files into the folder, one byte string each
  fuzz show FILE...                prints the jobs of byte strings in the text form
  fuzz [FOLDER] [-option=value]... libFuzzer's own command line (-help=1)";

/// Jobs whose run takes more operations than this are not compared.
const COST: u64 = 600_000;

extern "C" {
    fn LLVMFuzzerRunDriver(count: *mut c_int, words: *mut *mut *mut c_char, one: extern "C" fn(*const u8, usize) -> c_int) -> c_int;
}

fn main() -> ExitCode {
    let words: Vec<String> = std::env::args().collect();
    let done = match words.get(1).map(String::as_str) {
        Some("seeds") if words.len() > 3 => seeds(&words[2], &words[3..]),
        Some("show") => words[2..].iter().try_for_each(|file| show(file)),
        Some("seeds") | None => Err(USAGE.into()),
        _ => return ExitCode::from(fuzz(words) as u8),
    };
    match done {
        Ok(()) => ExitCode::SUCCESS,
        Err(e) => {
            eprintln!("{e}");
            ExitCode::from(2)
        }
    }
}

fn fuzz(words: Vec<String>) -> c_int {
    tally::print_at_exit();
    let words: Vec<CString> = words.into_iter().map(|w| CString::new(w).expect("words hold no 0")).collect();
    let mut pointers: Vec<*mut c_char> = words.iter().map(|w| w.as_ptr().cast_mut()).chain([std::ptr::null_mut()]).collect();
    let (mut count, mut first) = (words.len() as c_int, pointers.as_mut_ptr());
    // SAFETY: `count` words as `main` of C gets them; they are kept until the driver returns
    unsafe { LLVMFuzzerRunDriver(&mut count, &mut first, one) }
}

/// One execution.
extern "C" fn one(data: *const u8, size: usize) -> c_int {
    // SAFETY: libFuzzer lends `size` bytes for the time of the call
    let bytes = if size == 0 { &[] } else { unsafe { slice::from_raw_parts(data, size) } };
    let (job, tail) = code::decode(bytes);
    match catch_unwind(|| compared(&job, tail)) {
        Ok(differences) if differences.is_empty() => return 0,
        Ok(differences) => differences.iter().for_each(|d| eprintln!("{d}")),
        Err(_) => eprintln!("the comparison panics:\n  job  {}", job.print()),
    }
    std::process::abort()
}

fn compared(job: &Job, tail: usize) -> Vec<String> {
    let Some(expected) = compare::expected(job, COST) else {
        tally::costly();
        return vec![];
    };
    tally::compared(expected.answer.number, job.is_large());
    let matrix = compare::matrix(job, &compare::reference::matrix(job));
    let differences = compare::library(job, &expected.answer, tail).into_iter().chain(matrix);
    let mut seen = Seen::default();
    if paused::has_steps(job) {
        let mut r = Random(tail as u64);
        compare::paused::undivided(job, &expected.answer, COST, |n| r.below(n), &mut seen);
        paused::changes(job, &expected.answer, paused::COST, &mut r, &mut seen);
    }
    tally::paused(&seen);
    differences.map(|d| d.print(job)).chain(seen.differences).collect()
}

fn seeds(folder: &str, files: &[String]) -> Result<(), String> {
    fs::create_dir_all(folder).map_err(|e| format!("{folder}: {e}"))?;
    let (mut written, mut left_out) = (0, 0);
    for file in files {
        let text = fs::read_to_string(file).map_err(|e| format!("{file}: {e}"))?;
        for line in text.lines().filter(|l| !l.trim().is_empty() && !l.starts_with('#')) {
            let Some(bytes) = code::encode(&Job::parse(line)?) else {
                left_out += 1;
                continue;
            };
            written += 1;
            let name = format!("{folder}/seed{written:03}");
            fs::write(&name, bytes).map_err(|e| format!("{name}: {e}"))?;
        }
    }
    println!("seeds: {written} written, {left_out} without a byte string");
    Ok(())
}

fn show(file: &str) -> Result<(), String> {
    let bytes = fs::read(file).map_err(|e| format!("{file}: {e}"))?;
    println!("{}", code::decode(&bytes).0.print());
    Ok(())
}
