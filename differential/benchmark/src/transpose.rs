//! The check of a transposed job, which writes the transposed quotients, beside one product with the generator. No exported
//! function gives one product alone: the time of a Taylor call is divided by its applications, its checks included.

use jobs::{Buffers, Call};

use crate::{best_of_rounds, best_seconds, plate};

const SIZES: [(usize, usize); 4] = [(25, 40), (100, 100), (250, 400), (1000, 1000)];

/// Some dozens of applications, so that a call on the largest plate takes about a second.
const TAU: f64 = 0.25;

pub fn table() {
    println!(
        "| rows | entries | mass | check_generator, ms | check_transposed, ms | one application, ms | check_transposed / application |"
    );
    println!("|---|---|---|---|---|---|---|");
    for size in SIZES {
        for with_mass in [false, true] {
            let mut job = plate::job(size, with_mass, Call::Combination, 1);
            job.tau = TAU;
            let mut buffers = Buffers::marked(job.lent_need());
            let (mut out, mut work) = (vec![0.0; job.out], vec![0.0; job.work]);
            let forward = best_of_rounds(|| assert_eq!(library::check(&job).0, 0));
            let transposed = best_of_rounds(|| assert_eq!(library::check_transposed(&job, &mut buffers).0, 0));
            let applications = library::call(&job, &mut out, &mut work).counts[2];
            let application = best_seconds(&job) / applications as f64;
            let ms = |s: f64| s * 1e3;
            println!(
                "| {} | {} | {} | {:.4} | {:.4} | {:.4} | {:.1} |",
                job.n,
                job.vals.len(),
                if with_mass { "yes" } else { "no" },
                ms(forward),
                ms(transposed),
                ms(application),
                transposed / application,
            );
        }
    }
}
