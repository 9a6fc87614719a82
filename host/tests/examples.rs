//! The examples of an evening in C, Rust and Python, run on Case E and on a day
//! with refusals.

use std::fs;
use std::io::Write;
use std::path::{Path, PathBuf};
use std::process::{Command, Output, Stdio};

/// Where the record's lots and the settlement price stand in the day
/// file of Case E (`docs/FORMAT.md`).
const LOTS: usize = 300;
const PRICE: usize = 308;

fn package() -> &'static Path {
    Path::new(env!("CARGO_MANIFEST_DIR"))
}

fn case_e(name: &str) -> Vec<u8> {
    let path = package().join("../crates/evening").join(name);
    fs::read(&path).expect("the day file and the sheet of Case E")
}

fn run(command: &mut Command, day: &[u8]) -> Output {
    let mut child = command
        .stdin(Stdio::piped())
        .stdout(Stdio::piped())
        .stderr(Stdio::piped())
        .spawn()
        .expect("the example");
    let mut input = child.stdin.take().expect("a pipe that was asked for");
    // An example may end before it has read all.
    let _ = input.write_all(day);
    drop(input);
    child.wait_with_output().expect("the example's output")
}

/// Runs an example on Case E, on that day with one byte changed, and on a part
/// of it.
fn stands(mut command: Command) {
    let day = case_e("stdin");
    let ran = run(&mut command, &day);
    assert_eq!(ran.stdout, case_e("stdout"), "{ran:?}");
    assert_eq!(ran.status.code(), Some(0));
    let mut refused = day.clone();
    refused[LOTS] = 11;
    let ran = run(&mut command, &refused);
    assert!(ran.stdout.starts_with(b"refused 0 4\nmember "), "{ran:?}");
    let mut unsettled = day.clone();
    unsettled[PRICE..PRICE + 4].fill(0);
    let ran = run(&mut command, &unsettled);
    assert_eq!(ran.stdout, b"settlement refused 8\n", "{ran:?}");
    let ran = run(&mut command, &day[..290]);
    assert!(!ran.status.success() && !ran.stderr.is_empty(), "{ran:?}");
}

fn built(name: &str) -> PathBuf {
    Path::new(env!("CARGO_TARGET_TMPDIR")).join(name)
}

#[test]
fn the_evening_in_c() {
    let program = built("evening");
    let warnings = ["-Wall", "-Wextra", "-Wpedantic", "-Werror"];
    let status = Command::new("cc")
        .args(["-std=c99", "-O2"])
        .args(warnings)
        .arg("-I")
        .arg(package().join("../include"))
        .arg(package().join("examples/evening.c"))
        .arg(env!("CLEARING_ARCHIVE"))
        .arg("-o")
        .arg(&program)
        .status()
        .expect("a C compiler named cc");
    assert!(status.success(), "cc: {status}");
    stands(Command::new(program));
}

#[test]
fn the_evening_in_rust() {
    let test = std::env::current_exe().expect("the path of this test");
    let profile = test.ancestors().nth(2).expect("the folder of the build");
    stands(Command::new(profile.join("examples/evening")));
}

/// Skipped where there is no Python, or where the archive does not make a shared
/// object.
#[test]
fn the_evening_in_python() {
    let shared = built("libclearing.so");
    let linked = Command::new("cc")
        .args(["-shared", "-nostdlib", "-Wl,-z,text,--no-undefined"])
        .arg("-Wl,--whole-archive")
        .arg(env!("CLEARING_ARCHIVE"))
        .args(["-Wl,--no-whole-archive", "-o"])
        .arg(&shared)
        .output()
        .expect("a C compiler named cc");
    if !linked.status.success() {
        let why = String::from_utf8_lossy(&linked.stderr).into_owned();
        eprintln!("skipped: no shared object of the archive: {why}");
        return;
    }
    if Command::new("python3").arg("--version").output().is_err() {
        eprintln!("skipped: no python3");
        return;
    }
    let mut command = Command::new("python3");
    command.arg(package().join("examples/evening.py"));
    command.arg(shared);
    stands(command);
}
