//! The texts of the C header are the crate's.

#[path = "../examples/refusals_header.rs"]
#[allow(dead_code)]
mod refusals_header;

#[test]
fn the_header_has_the_crates_texts() {
    let written = include_str!("../../c/hazhendu_refusals.h");
    assert_eq!(written, refusals_header::header(), "write it anew: cargo run --example refusals_header >c/hazhendu_refusals.h in hosts/");
    assert!(!written.contains('\\'), "no text needs an escape");
}
