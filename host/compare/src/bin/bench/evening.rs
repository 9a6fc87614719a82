//! The whole evening program against the second program's, on the fullest day.

use std::fs::{self, File};
use std::path::{Path, PathBuf};
use std::process::{self, Command, Stdio};
use std::{env, io};

use second::generate::full_day;

use crate::counts::{self, instructions, Run};
use crate::processor;
use crate::ratio;

/// Runs of each side, of which the best counts.
const RUNS: usize = 7;
/// Instructions are counted over so many records of each member, a tenth of the
/// day: the count of a whole one takes minutes.
const COUNTED: usize = full_day::RECORDS / 10;

/// Prints the row. Fails unless both programs print the same bytes in every run
/// and refuse nothing.
pub fn row(library: &str, second: &str) -> io::Result<()> {
    let programs = [library, second, second];
    let whole = DayFile::new(full_day::RECORDS)?;
    let mut best = [f64::INFINITY; 3];
    for run in 0..RUNS {
        let mut printed = Vec::new();
        for turn in 0..programs.len() {
            let side = (run + turn) % programs.len();
            let (seconds, text) = time(programs[side], &whole)?;
            best[side] = best[side].min(seconds);
            printed.push(text);
        }
        stands(&printed)?;
    }
    let part = DayFile::new(COUNTED)?;
    let count = |program: &str| {
        instructions(&mut Run {
            words: vec![program.into()],
            function: None,
            input: part.open().ok(),
        })
    };
    let [ours, theirs, again] = best;
    let [ours_counted, theirs_counted, counted_ratio] =
        counts::fields([count(library), count(second)]);
    let fields = [
        "evening program, 320,000 trades".into(),
        format!("{ours:.3} s"),
        format!("{theirs:.3} s"),
        ratio(ours, theirs),
        ratio(theirs, again),
        ours_counted,
        theirs_counted,
        counted_ratio,
    ];
    println!("| {} |", fields.join(" | "));
    Ok(())
}

/// A day file, there as long as this is.
struct DayFile(PathBuf);

impl DayFile {
    fn new(records: usize) -> io::Result<DayFile> {
        let name = format!("full-day-{records}-{}", process::id());
        let file = DayFile(env::temp_dir().join(name));
        fs::write(&file.0, full_day::day(records).file)?;
        Ok(file)
    }

    fn open(&self) -> io::Result<Stdio> {
        Ok(File::open(&self.0)?.into())
    }
}

impl Drop for DayFile {
    fn drop(&mut self) {
        // It may be gone already.
        let _ = fs::remove_file(&self.0);
    }
}

/// Seconds of processor time of a program's run, and what it printed.
fn time(program: &str, day: &DayFile) -> io::Result<(f64, Vec<u8>)> {
    let input = day.open()?;
    let before = processor::of_children();
    let ran = Command::new(Path::new(program)).stdin(input).output()?;
    let seconds = processor::of_children() - before;
    if !ran.status.success() {
        return Err(io::Error::other(format!("{program}: {}", ran.status)));
    }
    Ok((seconds, ran.stdout))
}

/// An error unless all printed the same sheet and no refusal.
fn stands(printed: &[Vec<u8>]) -> io::Result<()> {
    if printed.iter().any(|text| *text != printed[0]) {
        return Err(io::Error::other("the evening programs print other bytes"));
    }
    let text = String::from_utf8_lossy(&printed[0]).into_owned();
    match text.lines().find(|line| line.contains("refused")) {
        Some(line) => Err(io::Error::other(format!("the day is not accepted: {line}"))),
        None => Ok(()),
    }
}
