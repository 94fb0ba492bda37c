//! Links the libFuzzer that comes with clang (Debian's libclang-rt-14-dev).

use std::process::Command;

fn main() {
    let told = Command::new("clang").arg("-print-resource-dir").output().expect("clang on the PATH");
    let folder = String::from_utf8(told.stdout).expect("a folder's name");
    println!("cargo:rustc-link-search=native={}/lib/linux", folder.trim());
    println!("cargo:rustc-link-lib=static:+whole-archive=clang_rt.fuzzer_no_main-x86_64");
    println!("cargo:rustc-link-lib=stdc++");
    println!("cargo:rerun-if-changed=build.rs");
}
