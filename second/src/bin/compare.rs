//! Compares another evening program with this library, byte for byte.

use std::ops::RangeInclusive;
use std::path::Path;
use std::process::ExitCode;
use std::time::Instant;

use second::comparison::{self, Compared, Tally};
use second::generate::{case_e, day, edges, pieces};

const USAGE: &str = "usage: compare PROGRAM FIRST LAST
       compare --prefixes PROGRAM
       compare --edges PROGRAM
       compare --pieces PROGRAM";

fn main() -> ExitCode {
    let began = Instant::now();
    let arguments: Vec<String> = std::env::args().skip(1).collect();
    let words: Vec<&str> = arguments.iter().map(String::as_str).collect();
    comparison::end("compare", &words.join(" "), began, compare(&words))
}

fn compare(words: &[&str]) -> Result<Tally, String> {
    match *words {
        ["--prefixes", program] => prefixes(Path::new(program)),
        ["--edges", program] => edge_books(Path::new(program)),
        ["--pieces", program] => days_of_pieces(Path::new(program)),
        [program, first, last] => of_seeds(Path::new(program), comparison::seeds(first, last)?),
        _ => Err(USAGE.into()),
    }
}

/// The days of all seeds.
fn of_seeds(program: &Path, seeds: RangeInclusive<u64>) -> Result<Tally, String> {
    let mut tally = Tally::of(Compared::Days);
    for seed in seeds {
        let day = day(seed);
        let name = || format!("seed {seed}");
        comparison::compare(&mut tally, program, name, &day.file, day.records.len())?;
    }
    Ok(tally)
}

/// Every prefix of Case E's day, the whole included.
fn prefixes(program: &Path) -> Result<Tally, String> {
    let mut tally = Tally::of(Compared::Days);
    let file = case_e::file();
    for length in 0..=file.len() {
        let name = || format!("the prefix of {length} bytes");
        comparison::compare(&mut tally, program, name, &file[..length], 1)?;
    }
    Ok(tally)
}

/// Every book at or beside a bound, settled without records.
fn edge_books(program: &Path) -> Result<Tally, String> {
    let mut tally = Tally::of(Compared::Days);
    for book in edges::edge_books() {
        let name = || format!("the book: {}", book.name);
        comparison::compare(&mut tally, program, name, &edges::evening_of(&book), 0)?;
    }
    Ok(tally)
}

/// The days at and beside the length of a piece.
fn days_of_pieces(program: &Path) -> Result<Tally, String> {
    let mut tally = Tally::of(Compared::Days);
    for day in pieces::days() {
        let name = || day.name.clone();
        comparison::compare(&mut tally, program, name, &day.file, day.records)?;
    }
    Ok(tally)
}
