//! How a comparison is asked for and how it ends, whatever it compares.

use std::fmt;
use std::ops::RangeInclusive;
use std::process::ExitCode;
use std::time::{Duration, Instant};

use super::tally::{times, Tally, NUMBERS};

/// The seeds from the first to the last. There has to be one: a comparison of
/// nothing is not to look like one that finds no difference.
pub fn seeds(first: &str, last: &str) -> Result<RangeInclusive<u64>, String> {
    let seed = |word: &str| {
        let number = word.parse::<u64>();
        number.map_err(|_| format!("no number of a seed: {word}"))
    };
    let seeds = seed(first)?..=seed(last)?;
    if seeds.is_empty() {
        return Err(format!("no seeds to compare from {first} to {last}"));
    }
    Ok(seeds)
}

/// What is printed of a comparison: what it has seen, and the same as a table and
/// a list in Markdown, for a page. No other line begins with `|` or `-`.
pub struct Summary<'a> {
    pub name: &'a str,
    pub tally: &'a Tally,
    pub took: Duration,
}

impl fmt::Display for Summary<'_> {
    fn fmt(&self, to: &mut fmt::Formatter) -> fmt::Result {
        self.tally.write_seen(to)?;
        self.write_table(to)?;
        for (sort, count) in &self.tally.sorts {
            writeln!(to, "- `{}`: {} {sort}", self.name, commas(*count))?;
        }
        write!(to, "differences {}", self.tally.differences)
    }
}

impl Summary<'_> {
    fn write_table(&self, to: &mut fmt::Formatter) -> fmt::Result {
        let tally = self.tally;
        let numbers: Vec<String> = NUMBERS.map(|number| number.to_string()).collect();
        let counted = tally.compared.counted();
        let titles = ["comparison", counted, "bytes compared"].map(String::from);
        let last = ["differences", "seconds"].map(String::from);
        row(to, &[&titles[..], &numbers, &last].concat())?;
        let columns = titles.len() + numbers.len() + last.len();
        writeln!(to, "|{}", "---|".repeat(columns))?;
        let answered = |number| match times(&tally.second, number) {
            0 => String::new(),
            count => commas(count),
        };
        let first = [
            format!("`{}`", self.name),
            commas(tally.count),
            commas(tally.bytes),
        ];
        let answers: Vec<String> = NUMBERS.map(answered).collect();
        let last = [commas(tally.differences), commas(self.took.as_secs())];
        row(to, &[&first[..], &answers, &last].concat())
    }
}

fn row(to: &mut fmt::Formatter, fields: &[String]) -> fmt::Result {
    writeln!(to, "| {} |", fields.join(" | "))
}

/// A number with a comma after each three digits, from its end.
fn commas(number: u64) -> String {
    let digits = number.to_string();
    let mut text = String::new();
    for (place, digit) in digits.chars().enumerate() {
        if place > 0 && (digits.len() - place).is_multiple_of(3) {
            text.push(',');
        }
        text.push(digit);
    }
    text
}

/// Prints the summary. The status is 0 if nothing differed, 1 if something did,
/// and 2 if the comparison could not be made; a line on standard error says so.
pub fn end(program: &str, name: &str, began: Instant, tally: Result<Tally, String>) -> ExitCode {
    let tally = match tally {
        Ok(tally) => tally,
        Err(why) => {
            eprintln!("{program}: {why}");
            return ExitCode::from(2);
        }
    };
    let took = began.elapsed();
    let summary = Summary {
        name,
        tally: &tally,
        took,
    };
    println!("{summary}");
    if tally.differences == 0 {
        return ExitCode::SUCCESS;
    }
    let (count, counted) = (tally.count, tally.compared.counted());
    eprintln!(
        "{program}: {} of {count} {counted} differ",
        tally.differences
    );
    ExitCode::FAILURE
}
