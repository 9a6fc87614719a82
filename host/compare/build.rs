//! Finds the archive that the wrapper links, and the worker that
//! `scripts/library` builds beside it.

use std::path::PathBuf;
use std::{env, process};

fn main() {
    let archive = env::var("DEP_CLEARING_ARCHIVE").unwrap_or_default();
    println!("cargo:rustc-env=CLEARING_ARCHIVE={archive}");
    let package = PathBuf::from(env::var_os("CARGO_MANIFEST_DIR").unwrap_or_default());
    let worker = package.join("../../target/native/worker");
    println!("cargo:rerun-if-changed={}", worker.display());
    if !worker.is_file() {
        let missing = worker.display();
        eprintln!("{missing} is not there; build it with: scripts/library");
        process::exit(1)
    }
    println!("cargo:rustc-env=CLEARING_WORKER={}", worker.display());
}
