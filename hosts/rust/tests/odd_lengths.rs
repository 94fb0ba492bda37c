//! No combination of lengths and sizes panics, and none allocates beyond the library's limits.

use hazhendu::{ambient, check, combine, join, phi_action, phi_action_batched, sizes, stages};
use hazhendu::{AmbientError, Error, KrylovOptions, Log, Matrix, Paused, Solver, Stage, StageError, TaylorOptions, Unit};

const ODD: [usize; 10] = [0, 1, 2, 3, 5, 129, 1_000_001, usize::MAX / 8, usize::MAX - 1, usize::MAX];

fn told<T>(answer: Result<T, Error>) {
    match answer {
        Ok(_) => {}
        Err(Error::Refused { refusal, .. }) => {
            assert!((1..=29).contains(&refusal.number) && refusal.number != 23 || [34, 35, 38, 39].contains(&refusal.number))
        }
        Err(Error::OutOfMemory { doubles }) => panic!("{doubles} doubles asked for"),
    }
}

fn plain(error: StageError) -> Error {
    match error {
        StageError::Refused { refusal, field, .. } => Error::Refused { refusal, state: field },
        StageError::OutOfMemory { doubles } => Error::OutOfMemory { doubles },
    }
}

fn plain_log(error: AmbientError) -> Error {
    match error {
        AmbientError::Refused { refusal, field, .. } => Error::Refused { refusal, state: field },
        AmbientError::OutOfMemory { doubles } => Error::OutOfMemory { doubles },
    }
}

#[test]
fn every_odd_size_is_answered() {
    let starts = [0, 1, 2, 3, 4, 5];
    let numbers = [0.5; 6];
    for n in ODD {
        for starts_len in [0, 1, 2, 3, 6] {
            for len in [0, 1, 2, 3, 6] {
                let bare = Matrix::new(n, &starts[..starts_len], &starts[..len], &numbers[..len]);
                for a in [bare, bare.with_mass(&numbers[..len]), bare.with_mass(&[])] {
                    told(check(&a));
                    told(join(&a, &bare));
                    told(join(&Matrix::new(2, &starts[..3], &starts[..2], &numbers[..2]), &a));
                    for count in ODD {
                        told(combine(Solver::default(), &a, 1.0, count, &numbers[..len]));
                        told(phi_action(&a, 1.0, count, &numbers[..len], TaylorOptions::default()));
                        told(phi_action_batched(&a, 1.0, count, &numbers[..len], TaylorOptions::default()));
                        let options = KrylovOptions { tol: 1e-6, m: count, max_substeps: n };
                        told(combine(Solver::Krylov(options), &a, 1.0, len, &numbers[..len]));
                        let stage = Stage { tau: 1.0, further: &[&numbers[..len]], solver: Solver::Krylov(options) };
                        told(stages(&a, &[stage; 2], &numbers[..len]).map_err(plain));
                        let log = Log { durations: &numbers[..len], levels: &numbers[..len.min(2)] };
                        told(ambient(&a, &log, &numbers[..len], &numbers[..len], count, n.wrapping_sub(1)).map_err(plain_log));
                        told(Paused::start(&a, 1.0, count, &numbers[..len], KrylovOptions { m: len, ..options }));
                        told(Unit::new().join((), &a, 1.0, count, &numbers[..len], KrylovOptions { m: len, ..options }));
                    }
                }
            }
        }
    }
}

#[test]
fn sizes_never_overflow() {
    let most = sizes::krylov_work(sizes::MAX_ROWS, sizes::MAX_ENTRIES, true, sizes::MAX_VECTORS, sizes::MAX_DIMENSION);
    for n in ODD {
        for entries in ODD {
            for count in ODD {
                for m in ODD {
                    assert!(sizes::krylov_work(n, entries, true, count, m) <= most);
                    assert!(sizes::dimension(n, count, m) >= 2);
                }
                assert!(sizes::taylor_work(n, entries, true, count) <= most);
                assert!(sizes::output(n, count) <= most && sizes::field(n, count) <= most);
                assert!(sizes::starts(n) <= sizes::MAX_ROWS + 1 && sizes::joined(entries, count) <= 2 * sizes::MAX_ENTRIES);
            }
        }
    }
}
