//! Two matrices of five entries a row joined, beside SciPy's sum of them (join.py), in a process of its own that times itself.

use jobs::{Call, Job};

use crate::peers::{lines, put_to};
use crate::{plate, seconds, ROUNDS};

/// The plate's rows in other columns: each row's own and its neighbours', and two far away.
fn mount(barrel: &Job) -> Job {
    let n = barrel.n;
    let mut mount = barrel.clone();
    (mount.starts, mount.cols, mount.vals) = (vec![0], vec![], vec![]);
    for i in 0..n {
        let mut columns = [i, (i + 1) % n, (i + n - 1) % n, (i + n / 2) % n, (i + n / 3) % n];
        columns.sort_unstable();
        mount.cols.extend(columns.iter().map(|c| *c as u32));
        mount.vals.extend(columns.iter().map(|c| if *c == i { 4.0 } else { -1.0 + 0.1 * (c % 7) as f64 / 7.0 }));
        mount.starts.push(mount.vals.len() as u32);
    }
    mount
}

pub fn table() {
    println!("| rows | entries of the barrel | of the mount | of the result | join, ms | SciPy's sum, ms | join / SciPy | difference |");
    println!("|---|---|---|---|---|---|---|---|");
    let barrel = plate::job((250, 400), false, Call::Action, 0);
    let mount = mount(&barrel);
    let most = barrel.vals.len() + mount.vals.len();
    let (mut starts, mut cols, mut vals) = (vec![0; barrel.n + 1], vec![0; most], vec![0.0; most]);
    let mut entries = 0;
    let mut best = f64::INFINITY;
    for _ in 0..ROUNDS {
        best = best.min(seconds(|| {
            let (number, _, count) = library::join(&barrel, &mount, &mut starts, &mut cols, &mut vals);
            assert_eq!(number, 0);
            entries = count;
        }));
    }
    let mut files = vec![];
    for (name, q) in [("barrel", &barrel), ("mount", &mount)] {
        files.push((format!("{name}_starts"), lines(&q.starts)));
        files.push((format!("{name}_columns"), lines(&q.cols)));
        files.push((format!("{name}_entries"), lines(&q.vals)));
    }
    files.push(("starts".into(), lines(&starts)));
    files.push(("columns".into(), lines(&cols[..entries])));
    files.push(("entries".into(), lines(&vals[..entries])));
    let words: Vec<f64> = put_to("join.py", &files).concat().iter().filter_map(|word| word.parse().ok()).collect();
    let [scipy, difference] = words[..] else { return };
    println!(
        "| {} | {} | {} | {entries} | {:.2} | {:.2} | {:.2} | {difference:.1e} |",
        barrel.n,
        barrel.vals.len(),
        mount.vals.len(),
        best * 1e3,
        scipy * 1e3,
        best / scipy
    );
}
