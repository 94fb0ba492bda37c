//! Links the archives that hosts/library has written: those with functions on slices and, with the feature `bytes`, those on bytes too.

use std::path::Path;

fn main() {
    let root = Path::new(env!("CARGO_MANIFEST_DIR")).join("../..");
    let folder = root.join("target/staticlib");
    println!("cargo:rustc-link-search=native={}", folder.display());
    let list = std::fs::read_to_string(root.join("crates.txt")).expect("crates.txt");
    let on_bytes = std::env::var_os("CARGO_FEATURE_BYTES").is_some();
    let crates = list.lines().filter_map(|line| line.split_once(" staticlib:")).map(|(name, _)| name);
    let names = crates.map(|name| name.strip_suffix("_c").unwrap_or(name));
    for name in names.filter(|name| name.starts_with("exports") && (on_bytes || !name.ends_with("_bytes"))) {
        println!("cargo:rerun-if-changed={}", folder.join(format!("lib{name}.a")).display());
        println!("cargo:rustc-link-lib=static={name}");
    }
}
