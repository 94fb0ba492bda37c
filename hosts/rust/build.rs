//! Links the proved code, an archive in target/staticlib for each static library that exports functions on slices; hosts/library writes those
//! that are missing or older than their sources.

use std::path::{Path, PathBuf};
use std::process::{exit, Command};

/// The archives with functions on slices, as `scripts/exports slices` tells them of crates.txt.
fn exports(root: &Path) -> Vec<String> {
    let list = std::fs::read_to_string(root.join("crates.txt")).expect("crates.txt");
    let crates = list.lines().filter_map(|line| line.split_once(" staticlib:")).map(|(name, _)| name);
    let names = crates.map(|name| name.strip_suffix("_c").unwrap_or(name));
    names.filter(|name| name.starts_with("exports") && !name.ends_with("_bytes")).map(str::to_string).collect()
}

/// What lies in the crates' folders, but for their out/, in which rt keeps its work.
fn sources(root: &Path) -> Vec<PathBuf> {
    let within = |folder: &Path| -> Vec<PathBuf> {
        let entries = std::fs::read_dir(folder).into_iter().flatten();
        entries.filter_map(|entry| entry.ok()).map(|entry| entry.path()).collect()
    };
    let crates = within(&root.join("crates"));
    crates.iter().flat_map(|one| within(one)).filter(|path| !path.ends_with("out")).collect()
}

fn main() {
    let root = Path::new(env!("CARGO_MANIFEST_DIR")).join("../..");
    let folder = root.join("target/staticlib");
    let names = exports(&root);
    println!("cargo:rerun-if-changed={}", root.join("crates.txt").display());
    for source in sources(&root) {
        println!("cargo:rerun-if-changed={}", source.display());
    }
    if !Command::new("sh").arg(root.join("hosts/library")).status().is_ok_and(|status| status.success()) {
        eprintln!("the proved library could not be built: see hosts/library");
        exit(1);
    }
    println!("cargo:rustc-link-search=native={}", folder.display());
    for name in names {
        println!("cargo:rerun-if-changed={}", folder.join(format!("lib{name}.a")).display());
        println!("cargo:rustc-link-lib=static={name}");
    }
}
