//! Running another evening program and comparing what it prints.

use std::collections::BTreeMap;
use std::io::{self, Write};
use std::path::Path;
use std::process::{Command, Output, Stdio};
use std::thread;

use super::Tally;
use crate::evening::evening;

/// Runs a program on an input. The input is written from a thread of its own,
/// so a program that stops reading, or prints before it has read, is no
/// trouble.
pub fn run(program: &Path, input: &[u8]) -> io::Result<Output> {
    let mut child = Command::new(program)
        .stdin(Stdio::piped())
        .stdout(Stdio::piped())
        .stderr(Stdio::piped())
        .spawn()?;
    let standard_input = child.stdin.take();
    thread::scope(|scope| {
        scope.spawn(move || {
            // A program may end without reading all of its input.
            let _ = standard_input.map(|mut pipe| pipe.write_all(input));
        });
        child.wait_with_output()
    })
}

/// Runs the program on one day file and takes in what it printed, against what
/// this library prints. The records are those of the day as it was made.
pub fn compare(
    tally: &mut Tally,
    program: &Path,
    name: impl FnOnce() -> String,
    file: &[u8],
    records: usize,
) -> Result<(), String> {
    let expected = evening(file);
    let ran = run(program, file).map_err(|error| format!("{}: {error}", program.display()))?;
    count_answers(&ran.stdout, &mut tally.other);
    count_answers(&expected, &mut tally.second);
    tally.sort("records", records as u64);
    tally.take(name, difference(&ran, &expected), expected.len());
    Ok(())
}

/// What is wrong with a run, if anything is: a program has to print what this
/// library does, nothing on standard error, and to end with status 0.
fn difference(ran: &Output, expected: &[u8]) -> Option<String> {
    if !ran.status.success() {
        return Some(format!("the program ended with {}", ran.status));
    }
    if !ran.stderr.is_empty() {
        let said = String::from_utf8_lossy(&ran.stderr);
        let first = said.lines().next().unwrap_or_default();
        return Some(format!("the program says on standard error: {first}"));
    }
    if ran.stdout == expected {
        return None;
    }
    let pairs = ran.stdout.iter().zip(expected);
    let alike = pairs.take_while(|(ours, theirs)| ours == theirs).count();
    Some(format!("the output differs from byte {alike} on"))
}

/// Counts the refusals that an output tells, and 0 where it has a sheet.
fn count_answers(output: &[u8], answers: &mut BTreeMap<u8, u64>) {
    for line in String::from_utf8_lossy(output).lines() {
        let words: Vec<&str> = line.split(' ').collect();
        let number = match words[..] {
            ["refused", _, number] | ["settlement", "refused", number] => number.parse().ok(),
            ["member", ..] => Some(0),
            _ => None,
        };
        if let Some(number) = number {
            *answers.entry(number).or_default() += 1;
        }
    }
}
