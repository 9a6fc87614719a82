//! The comparison agrees with an equal program and catches a wrong one.

use std::process::{Command, Output};

const SECOND: &str = env!("CARGO_BIN_EXE_second");
const WRONG: &str = env!("CARGO_BIN_EXE_wrong");

fn compare(arguments: &[&str]) -> Output {
    Command::new(env!("CARGO_BIN_EXE_compare"))
        .args(arguments)
        .output()
        .unwrap()
}

/// Compares the program that has a fault.
fn compare_wrong(fault: &str, arguments: &[&str]) -> Output {
    Command::new(env!("CARGO_BIN_EXE_compare"))
        .args(arguments)
        .env("FAULT", fault)
        .output()
        .unwrap()
}

/// The one line on standard error.
fn complaint(output: &Output) -> String {
    let text = String::from_utf8(output.stderr.clone()).unwrap();
    assert_eq!(text.lines().count(), 1, "{text}");
    text
}

fn text(output: &Output) -> String {
    String::from_utf8(output.stdout.clone()).unwrap()
}

#[test]
fn the_program_agrees_with_itself() {
    let output = compare(&[SECOND, "0", "299"]);
    assert_eq!(output.status.code(), Some(0));
    let text = text(&output);
    assert!(text.starts_with("days 300\n"), "{text}");
    assert!(text.ends_with("differences 0\n"), "{text}");
    assert!(!text.contains("differs"));
}

#[test]
fn prefixes_and_edges_agree() {
    for way in ["--prefixes", "--edges", "--pieces"] {
        let output = compare(&[way, SECOND]);
        assert_eq!(output.status.code(), Some(0));
        assert!(text(&output).ends_with("differences 0\n"));
    }
}

#[test]
fn wrong_programs_are_caught() {
    // One prints its input, one reads nothing, one fails.
    for program in ["/bin/cat", "/bin/true", "/bin/false"] {
        for arguments in [&[program, "10", "12"][..], &["--prefixes", program]] {
            let output = compare(arguments);
            assert_eq!(output.status.code(), Some(1));
            assert!(text(&output).contains("differs at "));
        }
        let output = compare(&[program, "10", "12"]);
        for seed in 10..=12 {
            assert!(text(&output).contains(&format!("differs at seed {seed}\n")));
        }
    }
}

#[test]
fn a_fault_from_piece_to_piece_is_caught() {
    for fault in [
        "places",
        "places one on",
        "first of a piece",
        "last of a piece",
    ] {
        let output = compare_wrong(fault, &["--pieces", WRONG]);
        assert_eq!(output.status.code(), Some(1), "{fault}");
        assert!(text(&output).contains("differs at the day of "), "{fault}");
        complaint(&output);
        // The days of seeds are too short to show it.
        let output = compare_wrong(fault, &[WRONG, "0", "99"]);
        assert_eq!(output.status.code(), Some(0), "{fault}");
    }
    // Without the fault it is the second program.
    let output = compare(&["--pieces", WRONG]);
    assert_eq!(output.status.code(), Some(0));
    assert!(output.stderr.is_empty());
}

#[test]
fn places_counted_anew_are_caught_on_every_longer_day() {
    let text = text(&compare_wrong("places", &["--pieces", WRONG]));
    for records in [2_731, 5_460, 5_461, 9_000] {
        let line = format!("differs at the day of {records} records\n");
        assert!(text.contains(&line), "{text}");
    }
}

#[test]
fn a_status_or_a_word_on_standard_error_is_a_difference() {
    for (fault, what) in [
        ("status", "ended with exit status: 3"),
        ("standard error", "on standard error: a day"),
    ] {
        for arguments in [&[WRONG, "10", "12"][..], &["--prefixes", WRONG]] {
            let output = compare_wrong(fault, arguments);
            assert_eq!(output.status.code(), Some(1));
            assert!(text(&output).contains(what), "{}", text(&output));
            assert!(complaint(&output).ends_with(" days differ\n"));
        }
    }
}

#[test]
fn a_comparison_of_nothing_is_not_one_without_a_difference() {
    let output = compare(&[SECOND, "12", "10"]);
    assert_eq!(output.status.code(), Some(2));
    assert!(output.stdout.is_empty());
    assert_eq!(
        complaint(&output),
        "compare: no seeds to compare from 12 to 10\n"
    );
}

#[test]
fn a_table_for_a_page_is_among_what_is_printed() {
    let text = text(&compare(&["--prefixes", SECOND]));
    let table: Vec<&str> = text.lines().filter(|line| line.starts_with('|')).collect();
    let columns = |line: &str| line.matches('|').count();
    assert_eq!(table.len(), 3);
    assert!(table.iter().all(|line| columns(line) == columns(table[0])));
    assert!(table[0].starts_with("| comparison | days | bytes compared | 0 | 1 |"));
    let row = format!("| `--prefixes {SECOND}` | 317 | 7,351 | 1 | 23 |  |");
    assert!(table[2].starts_with(&row), "{text}");
}

#[test]
fn a_program_that_cannot_be_run_is_not_a_difference() {
    let output = compare(&["/no/such/program", "0", "1"]);
    assert_eq!(output.status.code(), Some(2));
    assert_eq!(compare(&[]).status.code(), Some(2));
    assert_eq!(compare(&[SECOND, "x", "1"]).status.code(), Some(2));
}

#[test]
fn the_day_of_a_seed_is_written_out() {
    let day = |argument: &str| {
        let mut command = Command::new(env!("CARGO_BIN_EXE_day"));
        command.args(argument.split(' ')).output().unwrap()
    };
    assert!(day("17").stdout == second::generate::day(17).file);
    assert!(day("case-e").stdout == second::generate::case_e::file());
    assert!(day("pieces 2731").stdout == second::generate::pieces::file(2_731));
    assert_eq!(day("x").status.code(), Some(2));
}
