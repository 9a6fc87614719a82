//! The example in C that checks a book, compiled with the header and run on books at every bound.

use std::io::Write;
use std::path::{Path, PathBuf};
use std::process::{Command, Output, Stdio};

use second::generate::case_e;
use second::generate::edges::edge_books;

fn package() -> &'static Path {
    Path::new(env!("CARGO_MANIFEST_DIR"))
}

/// Compiles the example as a C program, all warnings being errors.
fn compile() -> PathBuf {
    let program = Path::new(env!("CARGO_TARGET_TMPDIR")).join("check");
    let status = Command::new("cc")
        .args([
            "-std=c99",
            "-O2",
            "-Wall",
            "-Wextra",
            "-Wpedantic",
            "-Werror",
        ])
        .arg("-I")
        .arg(package().join("../../include"))
        .arg(package().join("../examples/check.c"))
        .arg(env!("CLEARING_ARCHIVE"))
        .arg("-o")
        .arg(&program)
        .status()
        .expect("a C compiler named cc");
    assert!(status.success(), "cc: {status}");
    program
}

fn run(program: &Path, book: &[u8]) -> Output {
    let mut child = Command::new(program)
        .stdin(Stdio::piped())
        .stdout(Stdio::piped())
        .spawn()
        .expect("the compiled example");
    let mut input = child.stdin.take().expect("a pipe that was asked for");
    // It reads no more than the longest book can have and one byte.
    let _ = input.write_all(book);
    drop(input);
    child.wait_with_output().expect("the example's output")
}

#[test]
fn the_example_in_c_checks_a_book() {
    let program = compile();
    let book = case_e::book().encode();
    let valid = run(&program, &book);
    assert_eq!(valid.stdout, b"valid\n");
    assert_eq!(valid.status.code(), Some(0));
    let short = run(&program, &book[1..]);
    assert_eq!(short.stdout, b"not valid\n");
    assert_eq!(short.status.code(), Some(10));
    for case in edge_books().iter().step_by(17) {
        let expected = if case.valid { 0 } else { 10 };
        let answered = run(&program, &case.bytes).status.code();
        assert_eq!(answered, Some(expected), "{}", case.name);
    }
}
