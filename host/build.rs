//! Links the library that tools/archive builds.

use std::path::Path;
use std::process;

fn main() {
    let folder = Path::new(env!("CARGO_MANIFEST_DIR")).join("../build");
    println!("cargo:rustc-link-search=native={}", folder.display());
    let archive = folder.join("librietknoest.a");
    println!("cargo:rerun-if-changed={}", archive.display());
    if !archive.is_file() {
        eprintln!("build/librietknoest.a is not there: run tools/archive first, which proves and builds it");
        process::exit(1);
    }
    println!("cargo:rustc-link-lib=static=rietknoest");
}
