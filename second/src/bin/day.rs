//! Writes a day file to standard output: that of a seed, of Case E, of the
//! fullest day, with so many records of each member if it is not to be whole, or
//! of a day of so many records, refused at both ends of every piece.

use std::io::{self, Write};
use std::process::ExitCode;

use second::generate::{case_e, day, full_day, pieces};

const USAGE: &str = "usage: day SEED | day case-e | day full [RECORDS] | day pieces RECORDS";

fn main() -> ExitCode {
    let arguments: Vec<String> = std::env::args().skip(1).collect();
    let words: Vec<&str> = arguments.iter().map(String::as_str).collect();
    let Some(file) = file(&words) else {
        eprintln!("{USAGE}");
        return ExitCode::from(2);
    };
    match io::stdout().lock().write_all(&file) {
        Ok(()) => ExitCode::SUCCESS,
        Err(_) => ExitCode::FAILURE,
    }
}

/// None if the words ask for no day.
fn file(words: &[&str]) -> Option<Vec<u8>> {
    match words {
        ["case-e"] => Some(case_e::file()),
        ["full"] => Some(full_day::day(full_day::RECORDS).file),
        ["full", records] => {
            let records = records.parse().ok()?;
            (records <= full_day::RECORDS).then(|| full_day::day(records).file)
        }
        ["pieces", records] => records.parse().ok().map(pieces::file),
        [seed] => seed.parse().ok().map(|seed| day(seed).file),
        _ => None,
    }
}
