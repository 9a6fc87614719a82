//! Finds the library that `scripts/library` builds, which is for x86-64, and has
//! it linked.

use std::path::{Path, PathBuf};
use std::{env, process};

fn main() {
    let package = PathBuf::from(env::var_os("CARGO_MANIFEST_DIR").unwrap_or_default());
    let archive = package.join("../target/staticlib/libclearing.a");
    println!("cargo:rerun-if-changed={}", archive.display());
    if !archive.is_file() {
        let missing = archive.display();
        eprintln!("{missing} is not there; build it with: scripts/library");
        process::exit(1)
    }
    let folder = archive.parent().unwrap_or(Path::new("."));
    println!("cargo:rustc-link-search=native={}", folder.display());
    println!("cargo:rustc-link-lib=static=clearing");
    println!("cargo:rustc-env=CLEARING_ARCHIVE={}", archive.display());
    // What build scripts of packages above this one read.
    println!("cargo:archive={}", archive.display());
}
