//! Finds the proved library, which `rt lib` writes in the folder of the crate `bag`.
use std::path::Path;

fn main() {
    let folder = Path::new(env!("CARGO_MANIFEST_DIR")).join("../crates/bag/out");
    let archive = folder.join("libbag.a");
    println!("cargo::rerun-if-changed={}", archive.display());
    println!("cargo::rustc-link-search=native={}", folder.display());
    if !archive.exists() {
        println!("cargo::error={} is missing: run `rt lib` in crates/bag", archive.display());
    }
}
