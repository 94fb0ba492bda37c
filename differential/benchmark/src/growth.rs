//! How the time of a product grows with the rows and with the entries of a row: a rod, a plate and a block.

use jobs::{Call, Job};

use crate::{plate, seconds, KRYLOV};

/// A name, and the cells along each of three directions: neighbours along all, with the corners of a block.
const BODIES: [(&str, bool, [[usize; 3]; 5]); 3] = [
    ("rod, 3", false, [[1, 1, 64], [1, 1, 1000], [1, 1, 10_000], [1, 1, 100_000], [1, 1, 1_000_000]]),
    ("plate, 5", false, [[1, 8, 8], [1, 25, 40], [1, 100, 100], [1, 250, 400], [1, 1000, 1000]]),
    ("block, 27", true, [[4, 4, 4], [10, 10, 10], [20, 20, 25], [40, 50, 50], [84, 85, 85]]),
];
const ROUNDS: usize = 3;

pub fn table() {
    println!("| body, entries a row | rows | entries | Taylor, us a product | ns an entry | Krylov, us a product | ns a row |");
    println!("|---|---|---|---|---|---|---|");
    for (name, corners, sizes) in BODIES {
        for size in sizes {
            let (taylor, krylov) = (plate::block(size, corners, Call::Combination), plate::block(size, corners, KRYLOV));
            let (a, b) = (a_product(&taylor), a_product(&krylov));
            let (n, entries) = (taylor.n, taylor.vals.len());
            println!(
                "| {name} | {n} | {entries} | {:.3} | {:.2} | {:.3} | {:.1} |",
                a * 1e6,
                a * 1e9 / entries as f64,
                b * 1e6,
                b * 1e9 / n as f64
            );
        }
    }
}

/// Seconds of a call, divided by its products: the best of some rounds.
fn a_product(job: &Job) -> f64 {
    let (mut out, mut work) = (vec![0.0; job.out], vec![0.0; job.work]);
    let told = library::call(job, &mut out, &mut work);
    assert_eq!(told.number, 0);
    let products = if matches!(job.call, Call::Krylov { .. }) { told.counts[0] } else { told.counts[2] };
    let best = (0..ROUNDS).map(|_| seconds(|| assert_eq!(library::call(job, &mut out, &mut work).number, 0))).fold(f64::INFINITY, f64::min);
    best / products as f64
}
