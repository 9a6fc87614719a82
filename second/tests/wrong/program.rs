//! The second program with a fault, to try the comparison with: the word in
//! `FAULT` says which. Without one it is the second program.

use std::io::{self, Read, Write};
use std::process::ExitCode;

use second::generate::pieces::PIECE;

fn main() -> ExitCode {
    let mut input = Vec::new();
    io::stdin().lock().read_to_end(&mut input).expect("a day");
    let mut output = second::evening(&input);
    let mut status = ExitCode::SUCCESS;
    match std::env::var("FAULT").as_deref() {
        Ok("places") => output = with_places(&output, |place| place % PIECE),
        Ok("places one on") => {
            output = with_places(&output, |place| place + place / PIECE);
        }
        Ok("first of a piece") => output = without(&output, |place| place % PIECE == 0),
        Ok("last of a piece") => output = without(&output, |place| place % PIECE == PIECE - 1),
        Ok("status") => status = ExitCode::from(3),
        Ok("standard error") => eprintln!("a day"),
        Ok(other) => panic!("no such fault: {other}"),
        Err(_) => {}
    }
    io::stdout().lock().write_all(&output).expect("a reader");
    status
}

/// The place of a line of a refused record.
fn place(line: &str) -> Option<(usize, &str)> {
    let (place, number) = line.strip_prefix("refused ")?.split_once(' ')?;
    Some((place.parse().ok()?, number))
}

/// The output with other places of the refused records.
fn with_places(output: &[u8], change: fn(usize) -> usize) -> Vec<u8> {
    let text = String::from_utf8_lossy(output);
    let lines = text.lines().map(|line| match place(line) {
        Some((place, number)) => format!("refused {} {number}\n", change(place)),
        None => format!("{line}\n"),
    });
    lines.collect::<String>().into_bytes()
}

/// The output without the lines of some refused records after the first piece's
/// first.
fn without(output: &[u8], left_out: fn(usize) -> bool) -> Vec<u8> {
    let text = String::from_utf8_lossy(output);
    let stays = |line: &&str| !place(line).is_some_and(|(place, _)| place > 0 && left_out(place));
    let lines = text.lines().filter(stays).map(|line| format!("{line}\n"));
    lines.collect::<String>().into_bytes()
}
